//! The records of an image, decoded for display. Nothing is judged here: bytes that are no record are kept
//! as the rest.

use crate::archive::{judge_set, Kind};

/// A mark with the names and the widths of its body's fields.
pub struct Form {
    pub mark: &'static str,
    pub fields: &'static [(&'static str, usize)],
}

const FORMS: [Form; 6] = [
    Form {
        mark: "TS",
        fields: &[("edition", 1), ("kind", 1), ("n", 1)],
    },
    Form {
        mark: "TK",
        fields: &[("O", 4), ("C", 4), ("T", 4), ("D", 4)],
    },
    Form {
        mark: "SL",
        fields: &[("task", 1), ("start", 4)],
    },
    Form {
        mark: "ID",
        fields: &[("start", 4), ("length", 2)],
    },
    Form {
        mark: "PV",
        fields: &[("task", 1), ("job", 2), ("delay", 4)],
    },
    Form {
        mark: "EN",
        fields: &[("records before", 4)],
    },
];

impl Form {
    /// The bytes of a record, its mark included.
    pub fn length(&self) -> usize {
        2 + self.fields.iter().map(|(_, width)| width).sum::<usize>()
    }
}

/// A task: O, C, T and D.
#[derive(Clone, Copy, PartialEq, Eq, Debug)]
pub struct Task {
    pub offset: u64,
    pub time: u64,
    pub period: u64,
    pub deadline: u64,
}

#[derive(Clone, Copy, PartialEq, Eq, Debug)]
pub enum Body {
    Ts { edition: u64, kind: u64, n: u64 },
    Tk(Task),
    Sl { task: u64, start: u64 },
    Id { start: u64, length: u64 },
    Pv { task: u64, job: u64, delay: u64 },
    En { before: u64 },
}

/// A whole record at its place.
pub struct Record<'a> {
    pub index: usize,
    pub offset: usize,
    pub bytes: &'a [u8],
    pub form: &'static Form,
    pub body: Body,
}

impl Record<'_> {
    /// The body's fields: name, bytes and value.
    pub fn fields(&self) -> Vec<(&'static str, &[u8], u64)> {
        let mut at = 2;
        let mut fields = Vec::new();
        for &(name, width) in self.form.fields {
            let bytes = &self.bytes[at..at + width];
            fields.push((name, bytes, number(bytes)));
            at += width;
        }
        fields
    }

    /// The mark and the fields with their values.
    pub fn text(&self) -> String {
        let fields = self.fields();
        let named: Vec<String> = fields
            .iter()
            .map(|(name, _, value)| format!("{name} {value}"))
            .collect();
        format!("{} {}", self.form.mark, named.join(", "))
    }
}

/// Why the bytes from a place on are no record.
#[derive(Clone, Copy)]
pub enum Fault {
    OneByte,
    NoMark,
    Cut(&'static Form),
    BehindEnd,
}

/// The bytes behind the last whole record.
pub struct Rest<'a> {
    pub offset: usize,
    pub bytes: &'a [u8],
    pub fault: Fault,
}

pub struct Image<'a> {
    pub records: Vec<Record<'a>>,
    pub rest: Option<Rest<'a>>,
}

/// What begins at a byte of an image.
pub enum Standing<'a> {
    Record(&'a Record<'a>),
    Rest(&'a Rest<'a>),
    /// The file ends there.
    Nothing,
}

/// The records of an image up to EN, or to the first bytes that are no record.
pub fn decode(bytes: &[u8]) -> Image<'_> {
    let mut records: Vec<Record> = Vec::new();
    let mut offset = 0;
    let fault = loop {
        if matches!(records.last(), Some(last) if last.form.mark == "EN") {
            break Fault::BehindEnd;
        }
        match front(&bytes[offset..]) {
            Err(fault) => break fault,
            Ok(form) => {
                let index = records.len();
                records.push(record(index, offset, form, bytes));
                offset += form.length();
            }
        }
    };
    let rest = (offset < bytes.len()).then(|| Rest {
        offset,
        bytes: &bytes[offset..],
        fault,
    });
    Image { records, rest }
}

/// The form of the whole record at the front of some bytes.
fn front(bytes: &[u8]) -> Result<&'static Form, Fault> {
    let Some(mark) = bytes.get(..2) else {
        return Err(Fault::OneByte);
    };
    let known = FORMS.iter().find(|form| form.mark.as_bytes() == mark);
    match known {
        None => Err(Fault::NoMark),
        Some(form) if bytes.len() < form.length() => Err(Fault::Cut(form)),
        Some(form) => Ok(form),
    }
}

fn record<'a>(index: usize, offset: usize, form: &'static Form, image: &'a [u8]) -> Record<'a> {
    let bytes = &image[offset..offset + form.length()];
    let mut values = [0; 4];
    let mut at = 2;
    for (value, (_, width)) in values.iter_mut().zip(form.fields) {
        *value = number(&bytes[at..at + width]);
        at += width;
    }
    Record {
        index,
        offset,
        bytes,
        form,
        body: body(form.mark, values),
    }
}

fn body(mark: &str, [a, b, c, d]: [u64; 4]) -> Body {
    match mark {
        "TS" => Body::Ts {
            edition: a,
            kind: b,
            n: c,
        },
        "TK" => Body::Tk(Task {
            offset: a,
            time: b,
            period: c,
            deadline: d,
        }),
        "SL" => Body::Sl { task: a, start: b },
        "ID" => Body::Id {
            start: a,
            length: b,
        },
        "PV" => Body::Pv {
            task: a,
            job: b,
            delay: c,
        },
        _ => Body::En { before: a },
    }
}

/// The big-endian number in these bytes.
fn number(bytes: &[u8]) -> u64 {
    bytes
        .iter()
        .fold(0, |value, byte| value * 256 + u64::from(*byte))
}

/// The kind that the file's TS record names; none where it names none or there is no TS record.
pub fn kind_of(bytes: &[u8]) -> Option<Kind> {
    match bytes {
        [b'T', b'S', _, kind, ..] => Kind::of_byte(*kind),
        _ => None,
    }
}

impl Image<'_> {
    /// The record that begins at a byte.
    pub fn record_at(&self, byte: usize) -> Option<&Record<'_>> {
        self.records.iter().find(|record| record.offset == byte)
    }

    pub fn standing_at(&self, byte: usize) -> Standing<'_> {
        match (self.record_at(byte), &self.rest) {
            (Some(record), _) => Standing::Record(record),
            (_, Some(rest)) if rest.offset == byte => Standing::Rest(rest),
            _ => Standing::Nothing,
        }
    }

    /// The tasks of the TK records behind TS.
    pub fn tasks(&self) -> Vec<Task> {
        let behind = self.records.iter().skip(1);
        let tasks = behind.map_while(|record| match record.body {
            Body::Tk(task) => Some(task),
            _ => None,
        });
        tasks.collect()
    }

    /// For each SL record the number of its job, which is how often its task came before; else 0.
    pub fn job_numbers(&self) -> Vec<u64> {
        let mut next = [0; 256];
        let mut numbers = Vec::new();
        for record in &self.records {
            numbers.push(match record.body {
                Body::Sl { task, .. } => {
                    next[task as usize] += 1;
                    next[task as usize] - 1
                }
                _ => 0,
            });
        }
        numbers
    }

    /// The jobs of the SL records in their order.
    pub fn jobs(&self) -> Vec<Job> {
        let numbers = self.job_numbers();
        let mut jobs = Vec::new();
        for record in &self.records {
            if let Body::Sl { task, start } = record.body {
                jobs.push(Job {
                    task: task as usize,
                    job: numbers[record.index],
                    start,
                });
            }
        }
        jobs
    }

    pub fn count(&self, mark: &str) -> usize {
        let marked = self
            .records
            .iter()
            .filter(|record| record.form.mark == mark);
        marked.count()
    }
}

/// A job with its start in the cycle.
#[derive(Clone, Copy, PartialEq, Eq, Debug)]
pub struct Job {
    pub task: usize,
    pub job: u64,
    pub start: u64,
}

/// A set that the archive judged good, with what its cycle comes to.
pub struct Set {
    pub tasks: Vec<Task>,
    pub hyperperiod: u64,
    pub jobs: u64,
}

impl Set {
    /// The set of an image; none where the archive refuses it.
    pub fn of(image: &Image) -> Option<Set> {
        let tasks = image.tasks();
        let numbers: Vec<[u32; 4]> = tasks
            .iter()
            .map(|t| [t.offset, t.time, t.period, t.deadline].map(|value| value as u32))
            .collect();
        let (hyperperiod, jobs) = judge_set(&numbers)?;
        Some(Set {
            tasks,
            hyperperiod: hyperperiod.into(),
            jobs: jobs.into(),
        })
    }

    /// The set of an image that the archive accepted, which is a good one.
    pub fn of_accepted(image: &Image) -> Set {
        Set::of(image).expect("an accepted image has a good set")
    }

    /// The jobs that a task has in a cycle.
    pub fn jobs_of(&self, task: usize) -> u64 {
        self.hyperperiod / self.tasks[task].period
    }

    pub fn release(&self, task: usize, job: u64) -> u64 {
        self.tasks[task].offset + job * self.tasks[task].period
    }

    pub fn due(&self, task: usize, job: u64) -> u64 {
        self.release(task, job) + self.tasks[task].deadline
    }

    pub fn end(&self, job: &Job) -> u64 {
        job.start + self.tasks[job.task].time
    }
}
