//! Document 01 written down plainly a second time: task sets, images, timetables, irregularity
//! tables and replay. Numbers have 64 bits, so that no sum of 32-bit fields wraps. What a request of
//! document 02 changes asks the rules whether it has landed, so that every stage can be answered for.

use crate::landed::{Landed, LANDED};
use std::collections::BTreeMap;

pub const MOST_TASKS: u64 = 16;
pub const LONGEST_HYPERPERIOD: u64 = 65_535;
pub const MOST_JOBS: u64 = 4_096;
pub const LONGEST_LISTED: usize = 65_536;

pub const TIMETABLE: u64 = 1;
pub const TABLES: u64 = 2;

/// Document 01's rules with those of the requests that have landed.
#[derive(Clone, Copy)]
pub struct Rules {
    pub landed: Landed,
}

/// The rules of what has landed today.
pub const TODAY: Rules = Rules { landed: LANDED };

/// A refusal: its number and its place.
#[derive(Clone, Copy, PartialEq, Eq, Debug)]
pub struct Refusal {
    pub number: u64,
    pub place: usize,
}

impl Refusal {
    /// The byte of the refused image at which the record named by the place starts, or would start; 0
    /// where the place is no record: 16 names a task, 18 an index among starts, the others nothing.
    pub fn offset(&self, image: &[u8]) -> usize {
        match self.number {
            1..=7 | 10..=15 | 17 | 19 => offset_of(image, self.place),
            _ => 0,
        }
    }

    /// Number and place as they are told: the whole refusal of a set in memory, which has no bytes.
    pub fn text(&self) -> String {
        format!("refused {} {}", self.number, self.place)
    }
}

pub fn refuse<T>(number: u64, place: usize) -> Result<T, Refusal> {
    Err(Refusal { number, place })
}

// ---- Task sets ----

/// A task: O, C, T and D.
#[derive(Clone, Copy, PartialEq, Eq, Debug, Default)]
pub struct Task {
    pub offset: u64,
    pub time: u64,
    pub period: u64,
    pub deadline: u64,
}

impl Task {
    pub fn release(&self, job: u64) -> u64 {
        self.offset + job * self.period
    }

    pub fn due(&self, job: u64) -> u64 {
        self.release(job) + self.deadline
    }

    /// The task's own rule: 1 ≤ C ≤ D and O + D ≤ T.
    fn keeps_its_rule(&self) -> bool {
        1 <= self.time && self.time <= self.deadline && self.offset + self.deadline <= self.period
    }
}

/// A task set that keeps every rule on sets, with its hyperperiod H.
#[derive(Clone, PartialEq, Eq, Debug)]
pub struct Set {
    pub tasks: Vec<Task>,
    pub hyperperiod: u64,
}

impl Set {
    /// The number of jobs that a task has in a cycle: H/T.
    pub fn jobs(&self, task: usize) -> u64 {
        self.hyperperiod / self.tasks[task].period
    }

    /// How many records an image has before its entries or its tables: TS and a TK for each task.
    pub fn head(&self) -> usize {
        1 + self.tasks.len()
    }

    pub fn all_jobs(&self) -> u64 {
        (0..self.tasks.len()).map(|task| self.jobs(task)).sum()
    }
}

impl Rules {
    /// Judges the first n of the tasks as a set: numbers 5 to 9.
    pub fn judge_set(&self, n: u64, tasks: &[Task]) -> Result<Set, Refusal> {
        if n < 1 || n > MOST_TASKS {
            return refuse(5, 0);
        }
        let tasks = &tasks[..n as usize];
        for (i, task) in tasks.iter().enumerate() {
            if !task.keeps_its_rule() {
                return refuse(6, i + 1);
            }
            if i > 0 && task.period < tasks[i - 1].period {
                return refuse(7, i + 1);
            }
        }
        let Some(hyperperiod) = hyperperiod(tasks) else {
            return refuse(8, 0);
        };
        let set = Set {
            tasks: tasks.to_vec(),
            hyperperiod,
        };
        if set.all_jobs() > MOST_JOBS {
            return refuse(9, 0);
        }
        Ok(set)
    }
}

/// The least common multiple of the periods, if it is at most 65,535.
fn hyperperiod(tasks: &[Task]) -> Option<u64> {
    let mut multiple = 1;
    for task in tasks {
        multiple = multiple / greatest_common_divisor(multiple, task.period) * task.period;
        if multiple > LONGEST_HYPERPERIOD {
            return None;
        }
    }
    Some(multiple)
}

fn greatest_common_divisor(a: u64, b: u64) -> u64 {
    if b == 0 {
        a
    } else {
        greatest_common_divisor(b, a % b)
    }
}

// ---- Image records ----

/// An entry of a timetable.
#[derive(Clone, Copy, PartialEq, Eq, Debug)]
pub struct Entry {
    pub task: usize,
    pub start: u64,
}

/// A forced idle.
#[derive(Clone, Copy, PartialEq, Eq, Debug)]
pub struct Idle {
    pub start: u64,
    pub length: u64,
}

/// An inversion.
#[derive(Clone, Copy, PartialEq, Eq, Debug)]
pub struct Inversion {
    pub task: usize,
    pub job: u64,
    pub delay: u64,
}

#[derive(Clone, Copy, PartialEq, Eq, Debug)]
pub enum Mark {
    Ts,
    Tk,
    Sl,
    Id,
    Pv,
    En,
}

/// Each mark with its two bytes and its body's length.
const MARKS: [(Mark, &[u8; 2], usize); 6] = [
    (Mark::Ts, b"TS", 3),
    (Mark::Tk, b"TK", 16),
    (Mark::Sl, b"SL", 5),
    (Mark::Id, b"ID", 6),
    (Mark::Pv, b"PV", 7),
    (Mark::En, b"EN", 4),
];

#[derive(Clone, Copy, PartialEq, Eq, Debug)]
pub enum Record {
    Ts { edition: u64, kind: u64, n: u64 },
    Tk(Task),
    Sl(Entry),
    Id(Idle),
    Pv(Inversion),
    En(u64),
}

impl Record {
    pub fn mark(&self) -> Mark {
        match self {
            Record::Ts { .. } => Mark::Ts,
            Record::Tk(_) => Mark::Tk,
            Record::Sl(_) => Mark::Sl,
            Record::Id(_) => Mark::Id,
            Record::Pv(_) => Mark::Pv,
            Record::En(_) => Mark::En,
        }
    }

    /// The fields of the body in their order, each with its number of bytes.
    fn fields(&self) -> Vec<(u64, usize)> {
        match *self {
            Record::Ts { edition, kind, n } => vec![(edition, 1), (kind, 1), (n, 1)],
            Record::Tk(t) => vec![(t.offset, 4), (t.time, 4), (t.period, 4), (t.deadline, 4)],
            Record::Sl(entry) => vec![(entry.task as u64, 1), (entry.start, 4)],
            Record::Id(idle) => vec![(idle.start, 4), (idle.length, 2)],
            Record::Pv(pv) => vec![(pv.task as u64, 1), (pv.job, 2), (pv.delay, 4)],
            Record::En(number) => vec![(number, 4)],
        }
    }
}

/// The number of bytes of a record with this mark, the mark included.
pub fn record_length(mark: Mark) -> usize {
    let (_, bytes, body) = MARKS.iter().find(|(known, _, _)| *known == mark).unwrap();
    bytes.len() + body
}

/// The bytes of a list of records.
pub fn encode(records: &[Record]) -> Vec<u8> {
    let mut image = Vec::new();
    for record in records {
        let (_, bytes, _) = MARKS
            .iter()
            .find(|(mark, _, _)| *mark == record.mark())
            .unwrap();
        image.extend_from_slice(*bytes);
        for (value, width) in record.fields() {
            image.extend_from_slice(&value.to_be_bytes()[8 - width..]);
        }
    }
    image
}

/// The big-endian number in these bytes.
fn number(bytes: &[u8]) -> u64 {
    bytes
        .iter()
        .fold(0, |value, byte| value * 256 + u64::from(*byte))
}

/// The record whose body these bytes are.
fn read_body(mark: Mark, body: &[u8]) -> Record {
    match mark {
        Mark::Ts => Record::Ts {
            edition: number(&body[0..1]),
            kind: number(&body[1..2]),
            n: number(&body[2..3]),
        },
        Mark::Tk => Record::Tk(Task {
            offset: number(&body[0..4]),
            time: number(&body[4..8]),
            period: number(&body[8..12]),
            deadline: number(&body[12..16]),
        }),
        Mark::Sl => Record::Sl(Entry {
            task: body[0] as usize,
            start: number(&body[1..5]),
        }),
        Mark::Id => Record::Id(Idle {
            start: number(&body[0..4]),
            length: number(&body[4..6]),
        }),
        Mark::Pv => Record::Pv(Inversion {
            task: body[0] as usize,
            job: number(&body[1..3]),
            delay: number(&body[3..7]),
        }),
        Mark::En => Record::En(number(&body[0..4])),
    }
}

/// What stands at the front of some bytes.
pub enum Front {
    FewerThanTwoBytes,
    NoMark,
    CutBody(Mark),
    Whole(Record),
}

pub fn front(bytes: &[u8]) -> Front {
    if bytes.len() < 2 {
        return Front::FewerThanTwoBytes;
    }
    for (mark, two, length) in MARKS {
        if bytes[..2] == two[..] {
            return match bytes[2..].get(..length) {
                None => Front::CutBody(mark),
                Some(body) => Front::Whole(read_body(mark, body)),
            };
        }
    }
    Front::NoMark
}

/// The byte at which the record with this index starts in an image, or would start: all before it are
/// whole.
pub fn offset_of(image: &[u8], index: usize) -> usize {
    let behind = |offset: usize, _| match front(&image[offset..]) {
        Front::Whole(record) => offset + record_length(record.mark()),
        _ => panic!("a record before the one that is named is not whole"),
    };
    (0..index).fold(0, behind)
}

// ---- Framing ----

impl Rules {
    /// The marks allowed after these records of an image whose kind is the one wanted.
    fn allowed(&self, before: &[Record], kind: u64) -> &'static [Mark] {
        let Some(Record::Ts { n, .. }) = before.first() else {
            return &[Mark::Ts];
        };
        if (before.len() as u64) < 1 + n {
            &[Mark::Tk]
        } else if kind == TIMETABLE {
            &[Mark::Sl, Mark::En]
        } else if before.last().unwrap().mark() == Mark::Pv {
            &[Mark::Pv, Mark::En]
        } else {
            &[Mark::Id, Mark::Pv, Mark::En]
        }
    }
}

/// The record at the front, if its mark is allowed and it is whole: numbers 1 and 2.
fn allowed_record(bytes: &[u8], marks: &[Mark], index: usize) -> Result<Record, Refusal> {
    match front(bytes) {
        Front::FewerThanTwoBytes => refuse(1, index),
        Front::NoMark => refuse(2, index),
        Front::CutBody(mark) if marks.contains(&mark) => refuse(1, index),
        Front::Whole(record) if marks.contains(&record.mark()) => Ok(record),
        Front::CutBody(_) | Front::Whole(_) => refuse(2, index),
    }
}

impl Rules {
    /// The tests of framing on a whole record: 3, 4 and 5 for TS, 10 for EN.
    fn judge_frame(&self, record: Record, kind_wanted: u64, index: usize) -> Result<(), Refusal> {
        match record {
            Record::Ts { edition, .. } if edition != 1 => refuse(3, index),
            Record::Ts { kind, .. } if kind != kind_wanted => refuse(4, index),
            Record::Ts { n, .. } if n < 1 || n > MOST_TASKS => refuse(5, index),
            Record::En(number) if number != index as u64 => refuse(10, index),
            _ => Ok(()),
        }
    }

    /// The records up to EN at the front of some bytes, TS and EN included, if their framing is that of
    /// the kind wanted, and the bytes behind them.
    pub fn frame_front<'a>(
        &self,
        bytes: &'a [u8],
        kind: u64,
    ) -> Result<(Vec<Record>, &'a [u8]), Refusal> {
        let mut records = Vec::new();
        let mut rest = bytes;
        while !matches!(records.last(), Some(Record::En(_))) {
            let index = records.len();
            let record = allowed_record(rest, self.allowed(&records, kind), index)?;
            rest = &rest[record_length(record.mark())..];
            self.judge_frame(record, kind, index)?;
            records.push(record);
        }
        Ok((records, rest))
    }

    /// The records of an image, behind whose EN nothing follows.
    pub fn frame(&self, image: &[u8], kind: u64) -> Result<Vec<Record>, Refusal> {
        let (records, behind) = self.frame_front(image, kind)?;
        if !behind.is_empty() {
            return refuse(10, records.len() - 1);
        }
        Ok(records)
    }

    /// The set that the TK records of an image give.
    fn judge_tasks(&self, records: &[Record]) -> Result<Set, Refusal> {
        let tasks: Vec<Task> = records
            .iter()
            .filter_map(|record| match record {
                Record::Tk(task) => Some(*task),
                _ => None,
            })
            .collect();
        self.judge_set(tasks.len() as u64, &tasks)
    }
}

/// The records of an image of this kind: TS, a TK for each task, the inner ones, EN.
fn whole_records(set: &Set, kind: u64, inner: Vec<Record>) -> Vec<Record> {
    let n = set.tasks.len() as u64;
    let mut records = vec![Record::Ts {
        edition: 1,
        kind,
        n,
    }];
    records.extend(set.tasks.iter().map(|task| Record::Tk(*task)));
    records.extend(inner);
    records.push(Record::En(records.len() as u64));
    records
}

pub fn timetable_records(set: &Set, entries: &[Entry]) -> Vec<Record> {
    let inner = entries.iter().map(|entry| Record::Sl(*entry)).collect();
    whole_records(set, TIMETABLE, inner)
}

pub fn table_records(set: &Set, tables: &Tables) -> Vec<Record> {
    let mut inner: Vec<Record> = tables.idles.iter().map(|idle| Record::Id(*idle)).collect();
    inner.extend(
        tables
            .inversions
            .iter()
            .map(|inversion| Record::Pv(*inversion)),
    );
    whole_records(set, TABLES, inner)
}

// ---- A valid timetable ----

/// Judges the entries of a timetable in turn, then whether every job appears: 11 to 16.
pub fn judge_entries(set: &Set, entries: &[Entry]) -> Result<(), Refusal> {
    let mut next = vec![0; set.tasks.len()];
    let mut previous_end = 0;
    for (i, entry) in entries.iter().enumerate() {
        if let Some(number) = broken_by(set, &next, previous_end, *entry) {
            return refuse(number, set.head() + i);
        }
        next[entry.task] += 1;
        previous_end = entry.start + set.tasks[entry.task].time;
    }
    match (0..set.tasks.len()).find(|&task| next[task] < set.jobs(task)) {
        Some(task) => refuse(16, task),
        None => Ok(()),
    }
}

/// The number of the first rule that an entry breaks.
fn broken_by(set: &Set, next: &[u64], previous_end: u64, entry: Entry) -> Option<u64> {
    if entry.task >= set.tasks.len() {
        return Some(11);
    }
    let task = set.tasks[entry.task];
    let job = next[entry.task];
    if job >= set.jobs(entry.task) {
        Some(12)
    } else if entry.start < task.release(job) {
        Some(13)
    } else if entry.start < previous_end {
        Some(14)
    } else if entry.start + task.time > task.due(job) {
        Some(15)
    } else {
        None
    }
}

// ---- Irregularities ----

/// The irregularities of a timetable, in the order in which an image holds them.
#[derive(Clone, PartialEq, Eq, Debug, Default)]
pub struct Tables {
    pub idles: Vec<Idle>,
    pub inversions: Vec<Inversion>,
}

/// Whether the task's next job is there and is released at or before the instant.
pub fn waiting(set: &Set, next: &[u64], task: usize, instant: u64) -> bool {
    next[task] < set.jobs(task) && set.tasks[task].release(next[task]) <= instant
}

/// The larger of the free instant and the least release among jobs not yet started;
/// none where all have started.
pub fn instant_with_waiting(set: &Set, next: &[u64], free: u64) -> Option<u64> {
    (0..set.tasks.len())
        .filter(|&task| next[task] < set.jobs(task))
        .map(|task| set.tasks[task].release(next[task]))
        .min()
        .map(|release| release.max(free))
}

/// The irregularity tables of a valid timetable.
pub fn irregularities(set: &Set, entries: &[Entry]) -> Tables {
    let mut tables = Tables::default();
    let mut next = vec![0; set.tasks.len()];
    let mut previous_end = 0;
    for &Entry { task, start } in entries {
        let instant = instant_with_waiting(set, &next, previous_end).unwrap();
        if start > instant {
            tables.idles.push(Idle {
                start: instant,
                length: start - instant,
            });
        }
        if (0..task).any(|lower| waiting(set, &next, lower, start)) {
            let delay = start - set.tasks[task].release(next[task]);
            tables.inversions.push(Inversion {
                task,
                job: next[task],
                delay,
            });
        }
        next[task] += 1;
        previous_end = start + set.tasks[task].time;
    }
    tables
        .inversions
        .sort_by_key(|inversion| (inversion.task, inversion.job));
    tables
}

// ---- Tables and their replay ----

/// The rule of an ID, without the comparison to the record before.
pub fn idle_in_range(set: &Set, idle: Idle) -> bool {
    idle.length >= 1 && idle.start + idle.length < set.hyperperiod
}

/// The rule of a PV, without the comparison to the record before.
pub fn inversion_in_range(set: &Set, inversion: Inversion) -> bool {
    let Some(task) = set.tasks.get(inversion.task) else {
        return false;
    };
    inversion.job < set.jobs(inversion.task) && inversion.delay <= task.deadline - task.time
}

/// Judges the ID and PV records in turn: number 17.
pub fn judge_tables(set: &Set, tables: &Tables) -> Result<(), Refusal> {
    let first = set.head();
    for (i, idle) in tables.idles.iter().enumerate() {
        let above = i == 0 || {
            let before = tables.idles[i - 1];
            idle.start > before.start + before.length
        };
        if !above || !idle_in_range(set, *idle) {
            return refuse(17, first + i);
        }
    }
    for (i, inversion) in tables.inversions.iter().enumerate() {
        let rising = i == 0 || {
            let before = tables.inversions[i - 1];
            (inversion.task, inversion.job) > (before.task, before.job)
        };
        if !rising || !inversion_in_range(set, *inversion) {
            return refuse(17, first + tables.idles.len() + i);
        }
    }
    Ok(())
}

/// What the decision rule says at an instant with a job waiting.
pub enum Decision {
    Idle(u64),
    Start(usize),
}

/// The decision rule. `idle` is the first unused idle record, `delays` holds for each task
/// the delay in the inversion record of its next job, where there is one.
pub fn decide(
    set: &Set,
    next: &[u64],
    instant: u64,
    idle: Option<Idle>,
    delays: &[Option<u64>],
) -> Decision {
    if let Some(idle) = idle {
        if idle.start == instant {
            return Decision::Idle(idle.length);
        }
    }
    let tasks = 0..set.tasks.len();
    let inverted = tasks.clone().find(|&task| {
        delays[task].is_some_and(|delay| set.tasks[task].release(next[task]) + delay == instant)
    });
    let lowest = tasks
        .clone()
        .find(|&task| waiting(set, next, task, instant));
    Decision::Start(inverted.or(lowest).expect("a job is waiting at a decision"))
}

/// For each task the delay in the inversion record of its next job, where there is one.
fn next_delays(delays: &BTreeMap<(usize, u64), u64>, next: &[u64]) -> Vec<Option<u64>> {
    let of = |(task, job): (usize, &u64)| delays.get(&(task, *job)).copied();
    next.iter().enumerate().map(of).collect()
}

/// The timetable that the tables give: number 18 for a late job.
pub fn replay(set: &Set, tables: &Tables) -> Result<Vec<Entry>, Refusal> {
    let inversions = tables.inversions.iter();
    let delays = inversions.map(|pv| ((pv.task, pv.job), pv.delay)).collect();
    let mut entries: Vec<Entry> = Vec::new();
    let mut next = vec![0; set.tasks.len()];
    let mut used = 0;
    let mut free = 0;
    while let Some(instant) = instant_with_waiting(set, &next, free) {
        let idle = tables.idles.get(used).copied();
        match decide(set, &next, instant, idle, &next_delays(&delays, &next)) {
            Decision::Idle(length) => {
                used += 1;
                free = instant + length;
            }
            Decision::Start(task) => {
                free = instant + set.tasks[task].time;
                if free > set.tasks[task].due(next[task]) {
                    return refuse(18, entries.len());
                }
                let start = instant;
                entries.push(Entry { task, start });
                next[task] += 1;
            }
        }
    }
    Ok(entries)
}

// ---- The operations on images ----

impl Rules {
    /// Plain checking of a timetable image; gives its set and entries.
    pub fn check_timetable(&self, image: &[u8]) -> Result<(Set, Vec<Entry>), Refusal> {
        let records = self.frame(image, TIMETABLE)?;
        let set = self.judge_tasks(&records)?;
        let mut entries = Vec::new();
        for record in records {
            if let Record::Sl(entry) = record {
                entries.push(entry);
            }
        }
        judge_entries(&set, &entries)?;
        Ok((set, entries))
    }

    /// Plain checking of a table image; gives its set, its tables and the replayed timetable.
    pub fn check_tables(&self, image: &[u8]) -> Result<(Set, Tables, Vec<Entry>), Refusal> {
        self.check_table_records(&self.frame(image, TABLES)?)
    }

    /// Plain checking of a table image behind its framing.
    pub fn check_table_records(
        &self,
        records: &[Record],
    ) -> Result<(Set, Tables, Vec<Entry>), Refusal> {
        let set = self.judge_tasks(records)?;
        let mut tables = Tables::default();
        for record in records {
            match record {
                Record::Id(idle) => tables.idles.push(*idle),
                Record::Pv(inversion) => tables.inversions.push(*inversion),
                _ => {}
            }
        }
        judge_tables(&set, &tables)?;
        let entries = replay(&set, &tables)?;
        let replayed = table_records(&set, &irregularities(&set, &entries));
        match (0..records.len()).find(|&index| records.get(index) != replayed.get(index)) {
            Some(index) => refuse(19, index),
            None => Ok((set, tables, entries)),
        }
    }

    /// The kind 2 image of a kind 1 image, if it fits the room.
    pub fn derive(&self, image: &[u8], room: u64) -> Result<Vec<u8>, Refusal> {
        let (set, entries) = self.check_timetable(image)?;
        fitting(
            encode(&table_records(&set, &irregularities(&set, &entries))),
            room,
        )
    }

    /// The kind 1 image of a kind 2 image, if it fits the room.
    pub fn rebuild(&self, image: &[u8], room: u64) -> Result<Vec<u8>, Refusal> {
        let (set, _, entries) = self.check_tables(image)?;
        fitting(encode(&timetable_records(&set, &entries)), room)
    }
}

fn fitting(result: Vec<u8>, room: u64) -> Result<Vec<u8>, Refusal> {
    if result.len() as u64 > room {
        return refuse(20, 0);
    }
    Ok(result)
}

impl Rules {
    /// The refusal of an image as it is told.
    pub fn refusal_text(&self, refusal: Refusal, image: &[u8]) -> String {
        let text = refusal.text();
        if !self.landed.has(2) {
            return text;
        }
        format!("{text} {}", refusal.offset(image))
    }

    /// The lines that the listing program writes.
    pub fn listing(&self, image: &[u8]) -> Vec<String> {
        if image.len() > LONGEST_LISTED {
            let (number, place) = (20, 0);
            return vec![self.refusal_text(Refusal { number, place }, image)];
        }
        let (set, _, entries) = match self.check_tables(image) {
            Ok(accepted) => accepted,
            Err(refusal) => return vec![self.refusal_text(refusal, image)],
        };
        let mut lines = Vec::new();
        let mut next = vec![0; set.tasks.len()];
        for &Entry { task, start } in &entries {
            let end = start + set.tasks[task].time;
            lines.push(format!("{task} {} {start} {end}", next[task]));
            next[task] += 1;
        }
        lines.push(format!("ok {}", entries.len()));
        lines
    }
}
