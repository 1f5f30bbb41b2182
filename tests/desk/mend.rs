//! Images put right by the amount that the words name: the archive has to agree that it is enough, and that
//! one less is not.

use crate::about_tables::useless;
use crate::archive::{check, rebuild, Kind, Refusal};
use crate::independent::{Record, Task, TODAY};
use crate::records::{decode, Body, Image, Set};
use crate::replay::replay;
use crate::wording::{Broken, Explanation};
use crate::{demand, refused_so};

/// Where a field stands: behind its mark, so many bytes from the record's beginning, so many bytes wide.
type Field = (usize, usize);

const TS_EDITION: Field = (2, 1);
const TS_KIND: Field = (3, 1);
const TS_N: Field = (4, 1);
const TK_C: Field = (6, 4);
const TK_T: Field = (10, 4);
const TK_D: Field = (14, 4);
const SL_TASK: Field = (2, 1);
const SL_START: Field = (3, 4);
const ID_START: Field = (2, 4);
const ID_LENGTH: Field = (6, 2);
const PV_TASK: Field = (2, 1);
const PV_JOB: Field = (3, 2);
const PV_DELAY: Field = (5, 4);
const EN_NUMBER: Field = (2, 4);

/// A refused image with its refusal.
struct Case<'a> {
    kind: Kind,
    image: &'a [u8],
    refusal: Refusal,
}

/// Puts an image right as the words say and asks the archive; false where that cannot be done.
pub fn hold(kind: Kind, image: &[u8], refusal: Refusal, told: &Explanation) -> bool {
    let case = Case {
        kind,
        image,
        refusal,
    };
    let decoded = decode(image);
    let place = refusal.place;
    let only = match &told.broken[..] {
        [only] => only,
        _ => return several(&case, &decoded, told),
    };
    let by = only.by.unwrap_or(0) as i64;
    match refusal.number {
        1 => case.bytes_added(&only.text, by as usize, place),
        2 => case.other_marks(&told.rule),
        3 => case.set_to(&decoded, 0, TS_EDITION, 1),
        4 => case.set_to(&decoded, 0, TS_KIND, kind.number()),
        5 if by == 1 && only.text.ends_with("few") => case.moved(&decoded, 0, TS_N, 1),
        5 => case.moved(&decoded, 0, TS_N, -by),
        6 => case.task(&decoded, only),
        7 => case.moved(&decoded, place, TK_T, by),
        8 | 9 => case.cycle(&decoded, by as u64),
        10 => case.end(&decoded, &only.text),
        11 => case.moved(&decoded, place, SL_TASK, -by),
        12 | 16 => case.counted(&only.text, by),
        13 | 14 => case.moved(&decoded, place, SL_START, by),
        15 => case.early_enough(&decoded, by),
        17 => case.table_record(&decoded, only),
        18 => case.later_deadline(&decoded, by),
        19 => case.without_useless(&decoded, by as usize),
        _ => false,
    }
}

/// Two rules broken at once: where one of two faults of EN is put right, the other is still there.
fn several(case: &Case, decoded: &Image, told: &Explanation) -> bool {
    if case.refusal.number == 10 {
        let place = case.refusal.place;
        let counted = case.with(decoded, place, EN_NUMBER, place as i64);
        let both = &counted[..decoded.records[place].offset + 6];
        case.still(&counted, &told.broken[1].text);
        case.gone(both, &told.broken[0].text);
    }
    false
}

impl Case<'_> {
    fn gone(&self, image: &[u8], what: &str) {
        let held = !refused_so(self.kind, image, self.refusal);
        demand(
            held,
            self.image,
            &format!("{:?} is not put right: {what}", self.refusal),
        );
    }

    fn still(&self, image: &[u8], what: &str) {
        let held = refused_so(self.kind, image, self.refusal);
        demand(
            held,
            self.image,
            &format!("{:?} is put right by less: {what}", self.refusal),
        );
    }

    /// The field's value in the record.
    fn value(&self, decoded: &Image, record: usize, (from, width): Field) -> i64 {
        let at = decoded.records[record].offset + from;
        let bytes = &self.image[at..at + width];
        bytes
            .iter()
            .fold(0, |value, byte| value * 256 + i64::from(*byte))
    }

    /// The image with another value in a record's field.
    fn with(&self, decoded: &Image, record: usize, (from, width): Field, value: i64) -> Vec<u8> {
        let at = decoded.records[record].offset + from;
        let mut image = self.image.to_vec();
        image[at..at + width].copy_from_slice(&value.to_be_bytes()[8 - width..]);
        image
    }

    fn set_to(&self, decoded: &Image, record: usize, field: Field, value: u64) -> bool {
        self.gone(&self.with(decoded, record, field, value as i64), "set");
        true
    }

    /// Moves a field by the amount, which is enough, and by one less, which is not.
    fn moved(&self, decoded: &Image, record: usize, field: Field, by: i64) -> bool {
        let value = self.value(decoded, record, field);
        if value + by >= 1 << (8 * field.1) {
            return false;
        }
        let what = format!("moved by {by}");
        self.gone(&self.with(decoded, record, field, value + by), &what);
        if by.abs() > 1 {
            self.still(
                &self.with(decoded, record, field, value + by - by.signum()),
                &what,
            );
        }
        true
    }

    /// 1: the missing bytes, or one less.
    fn bytes_added(&self, text: &str, by: usize, place: usize) -> bool {
        let kind = self.kind.number() as u8;
        let behind = match text {
            text if text.contains("TS is missing") => vec![b'T', b'S', 1, kind, 1],
            text if text.contains("TK is missing") => [&b"TK"[..], &[0; 16]].concat(),
            text if text.contains("EN is missing") => {
                [&b"EN"[..], &(place as u32).to_be_bytes()].concat()
            }
            _ => vec![0; by],
        };
        demand(
            behind.len() == by,
            self.image,
            "the amount is not the missing record's length",
        );
        self.still(&[self.image, &behind[..by - 1]].concat(), text);
        self.gone(&[self.image, &behind].concat(), text);
        true
    }

    /// 2: of all marks, just those that the rule names may stand at the place.
    fn other_marks(&self, rule: &str) -> bool {
        let before = &self.image[..self.refusal.offset];
        let named = rule
            .strip_prefix("here comes ")
            .expect("the rule names marks");
        let named = named.split([':']).next().unwrap_or("");
        for mark in ["TS", "TK", "SL", "ID", "PV", "EN"] {
            let allowed = named.split([',', ' ']).any(|word| word == mark);
            // Long enough for every body; bytes behind it are looked at later.
            let image = [before, mark.as_bytes(), &[0; 16]].concat();
            let refused = refused_so(self.kind, &image, self.refusal);
            let what = format!("{mark} at {:?}, but the words say: {rule}", self.refusal);
            demand(refused != allowed, self.image, &what);
        }
        true
    }

    /// 6: C, or T, is moved; with D at 0 no C would do.
    fn task(&self, decoded: &Image, broken: &Broken) -> bool {
        let place = self.refusal.place;
        let by = broken.by.unwrap_or(0) as i64;
        if self.value(decoded, place, TK_D) == 0 {
            return false;
        }
        match &broken.text {
            text if text.starts_with("C is 0") => self.moved(decoded, place, TK_C, by),
            text if text.starts_with("C is") => self.moved(decoded, place, TK_C, -by),
            _ => self.moved(decoded, place, TK_T, by),
        }
    }

    /// 8 and 9: the amount is worked out in another way, the multiple by steps.
    fn cycle(&self, decoded: &Image, by: u64) -> bool {
        let periods: Vec<u64> = decoded.tasks().iter().map(|task| task.period).collect();
        let mut multiple = 1;
        for period in &periods {
            let step = multiple;
            if period / step.max(1) > 1_000_000 {
                return false;
            }
            while multiple % period != 0 {
                multiple += step;
            }
            if multiple > 65_535 {
                break;
            }
        }
        let right = match self.refusal.number {
            8 => multiple == 65_535 + by,
            _ => periods.iter().map(|period| multiple / period).sum::<u64>() == 4_096 + by,
        };
        demand(right, self.image, "the cycle is another one");
        true
    }

    fn end(&self, decoded: &Image, text: &str) -> bool {
        let place = self.refusal.place;
        if text.starts_with("EN says") {
            return self.set_to(decoded, place, EN_NUMBER, place as u64);
        }
        let end = decoded.records[place].offset + 6;
        self.still(&self.image[..end + 1], text);
        self.gone(&self.image[..end], text);
        true
    }

    /// 12 and 16: the task's entries, up to the place or all, are counted in another way; none can be put right.
    fn counted(&self, text: &str, by: i64) -> bool {
        let records = TODAY
            .frame(self.image, self.kind.number())
            .expect("framing comes before");
        let tasks: Vec<Task> = records
            .iter()
            .filter_map(|record| match record {
                Record::Tk(task) => Some(*task),
                _ => None,
            })
            .collect();
        let set = TODAY
            .judge_set(tasks.len() as u64, &tasks)
            .expect("the set comes before");
        let place = self.refusal.place;
        let (task, last) = match (self.refusal.number, records.get(place)) {
            (12, Some(Record::Sl(entry))) => (entry.task, place + 1),
            _ => (place, records.len()),
        };
        let of_task = |record: &&Record| matches!(record, Record::Sl(entry) if entry.task == task);
        let there = records[..last].iter().filter(of_task).count() as i64;
        let jobs = set.jobs(task) as i64;
        let (right, job) = match self.refusal.number {
            12 => (there - jobs == by, there - 1),
            _ => (jobs - there == by, there),
        };
        let named =
            text.contains(&format!("task {task} has ")) && text.contains(&format!("job {job}"));
        demand(
            right && named,
            self.image,
            "the entries are counted otherwise",
        );
        false
    }

    /// 15: one tick less is refused at the same place, by this rule or one that comes before it.
    fn early_enough(&self, decoded: &Image, by: i64) -> bool {
        let place = self.refusal.place;
        let start = self.value(decoded, place, SL_START);
        self.gone(&self.with(decoded, place, SL_START, start - by), "earlier");
        let nearly = self.with(decoded, place, SL_START, start - by + 1);
        let refused = check(self.kind, &nearly).err();
        let held = refused.is_some_and(|refusal| {
            refusal.place == self.refusal.place && (13..=15).contains(&refusal.number)
        });
        demand(held, self.image, "one tick less is enough");
        true
    }

    /// 17, where moving the field breaks no other rule of the record.
    fn table_record(&self, decoded: &Image, broken: &Broken) -> bool {
        let place = self.refusal.place;
        let by = broken.by.unwrap_or(0) as i64;
        let text = &broken.text;
        let first = decoded.records[place - 1].form.mark != decoded.records[place].form.mark;
        let set = Set::of(decoded).expect("17 comes behind the set");
        match decoded.records[place].body {
            Body::Id { start, length } => {
                let fits = |more: u64| start + length + more < set.hyperperiod;
                if text.starts_with("the length is 0") && fits(1) {
                    self.moved(decoded, place, ID_LENGTH, by)
                } else if text.starts_with("start + length") && length as i64 > by {
                    self.moved(decoded, place, ID_LENGTH, -by)
                } else if text.starts_with("start + length") && first && start as i64 >= by {
                    self.moved(decoded, place, ID_START, -by)
                } else if text.starts_with("the ID before") && fits(by as u64) {
                    self.moved(decoded, place, ID_START, by)
                } else {
                    false
                }
            }
            _ if text.starts_with("the delay") => self.moved(decoded, place, PV_DELAY, -by),
            _ if text.starts_with("job") && first => self.moved(decoded, place, PV_JOB, -by),
            _ if text.starts_with("task") && by > 1 => {
                let task = self.value(decoded, place, PV_TASK);
                self.still(&self.with(decoded, place, PV_TASK, task - by + 1), text);
                true
            }
            _ => false,
        }
    }

    /// 18: with a deadline that is later by the amount the job is in time; replay itself does not go by deadlines.
    fn later_deadline(&self, decoded: &Image, by: i64) -> bool {
        let set = Set::of(decoded).expect("18 comes behind the set");
        let late = replay(&set, decoded).late.expect("18 has a late job");
        let task = set.tasks[late.task];
        let longer = task.offset + task.deadline + by as u64 <= task.period;
        longer && self.moved(decoded, late.task + 1, TK_D, by)
    }

    /// 19: without the records that are said to be without effect, and with EN's number right, the tables are
    /// accepted and give the replayed timetable.
    fn without_useless(&self, decoded: &Image, by: usize) -> bool {
        let set = Set::of(decoded).expect("19 comes behind the set");
        let told = replay(&set, decoded);
        let useless = useless(decoded, &told);
        demand(
            useless.len() == by,
            self.image,
            "the amount is not the number of records",
        );
        let mut image = Vec::new();
        for record in &decoded.records {
            match record.body {
                Body::En { before } => {
                    image.extend_from_slice(b"EN");
                    image.extend_from_slice(&(before as u32 - by as u32).to_be_bytes());
                }
                _ if useless.contains(&record.index) => {}
                _ => image.extend_from_slice(record.bytes),
            }
        }
        let rebuilt = rebuild(&image);
        let same = rebuilt.is_ok_and(|timetable| decode(&timetable).jobs() == told.starts);
        demand(
            same,
            self.image,
            "without these records the tables are others",
        );
        true
    }
}
