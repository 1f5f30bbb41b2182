//! Fixed cases at the edges of the rules: idles up to H − 1, states that differ in one number from
//! the stopped one, jobs that are right only in 32 bits, images that are cut or lack a record; and
//! those of the modules named here.

use crate::damage::{id, recount};
use crate::dispatcher::{State, NUMBERS};
use crate::form::image_text;
use crate::images::{records_of, right_room};
use crate::independent::{encode, Entry, Set, Task, TABLES, TIMETABLE, TODAY};
use crate::sweeps::{go, running_start};
use crate::{intakes, large, limits, lines, orders};

pub const MOST: u64 = u32::MAX as u64;

/// About so many cases are asked.
pub const ABOUT: u64 = 20_000;

/// The groups of fixed cases.
const GROUPS: [fn() -> Vec<String>; 12] = [
    limits::cases,
    orders::heads,
    orders::pairs_of_faults,
    long_idles,
    nearly_stopped,
    cycles_by_hand,
    far_jobs,
    large::most_irregularities,
    large::most_records,
    missing_by_hand,
    intakes::cases,
    lines::cases,
];

/// All fixed cases; a group is made when it is its turn.
pub fn cases() -> impl Iterator<Item = String> {
    GROUPS.into_iter().flat_map(|group| group())
}

pub fn task(offset: u64, time: u64, period: u64, deadline: u64) -> Task {
    Task {
        offset,
        time,
        period,
        deadline,
    }
}

pub fn set_of(tasks: &[Task]) -> Set {
    TODAY
        .judge_set(tasks.len() as u64, tasks)
        .expect("the set is good")
}

/// The five operations on an image, with the rooms that are wanted.
pub fn all_operations(image: &[u8], room: u64) -> Vec<String> {
    let text = image_text(image);
    vec![
        format!("check1 {text}"),
        format!("derive {room} {text}"),
        format!("check2 {text}"),
        format!("rebuild {room} {text}"),
        format!("begin {text}"),
    ]
}

/// Document 01's set to work by hand, with the timetable of P2.
pub fn by_hand() -> (Set, Vec<Entry>) {
    let set = set_of(&[task(0, 1, 5, 5), task(0, 2, 10, 10), task(0, 6, 20, 20)]);
    let starts = [(0, 0), (2, 1), (1, 7), (0, 9), (0, 12), (1, 13), (0, 15)];
    let entries = starts.map(|(task, start)| Entry { task, start });
    (set, entries.to_vec())
}

/// P2 and its timetable with something missing: cut at every byte, and without one of the records.
fn missing_by_hand() -> Vec<String> {
    let (set, entries) = by_hand();
    let mut cases = Vec::new();
    for kind in [TIMETABLE, TABLES] {
        let records = records_of(&set, &entries, kind);
        let image = encode(&records);
        for end in 0..image.len() {
            cases.extend(all_operations(&image[..end], 200));
        }
        for missing in 0..records.len() - 1 {
            let mut others = records.clone();
            others.remove(missing);
            recount(&mut others);
            cases.extend(all_operations(&encode(&others), 200));
        }
    }
    cases
}

// ---- Idles ----

/// One task whose job is put off by up to H − 1, and records about that.
fn long_idles() -> Vec<String> {
    let mut cases = Vec::new();
    for h in [2, 3, 255, 256, 257, 65_534, 65_535] {
        let set = set_of(&[task(0, 1, h, h)]);
        for start in [0, 1, h / 2, h - 2, h - 1] {
            let entries = [Entry { task: 0, start }];
            for kind in [TIMETABLE, TABLES] {
                let image = encode(&records_of(&set, &entries, kind));
                cases.extend(all_operations(&image, right_room(&image, kind)));
                if kind == TABLES {
                    cases.push(format!("run 3 {}", image_text(&image)));
                }
            }
        }
        for (start, length) in [
            (0, h),
            (1, h - 1),
            (h - 1, 1),
            (h, 1),
            (MOST, 1),
            (MOST, 65_535),
        ] {
            let mut records = records_of(&set, &[Entry { task: 0, start: 0 }], TABLES);
            records.insert(2, id(start, length));
            recount(&mut records);
            cases.extend(all_operations(&encode(&records), 200));
        }
    }
    cases
}

// ---- States ----

/// The stopped state, and all that differ from it in one number.
fn nearly_stopped() -> Vec<String> {
    let (set, entries) = by_hand();
    let image = encode(&records_of(&set, &entries, TABLES));
    let mut cases = vec![go(&image, &State::default(), 0)];
    for at in 0..NUMBERS {
        for number in [1, 256, 65_536, MOST] {
            let mut numbers = [0; NUMBERS];
            numbers[at] = number;
            cases.push(go(&image, &State::from_numbers(&numbers), 0));
        }
    }
    cases
}

/// P2 over two cycles and the first call of a third: each state with every end about the running
/// job, with the image cut at every byte, and with each of its bytes one higher.
fn cycles_by_hand() -> Vec<String> {
    let (set, entries) = by_hand();
    let image = encode(&records_of(&set, &entries, TABLES));
    let (mut state, _) = TODAY.begin(&image);
    let mut cases = Vec::new();
    for _ in 0..=2 * entries.len() {
        let start = running_start(&set, &state);
        let latest = start + set.tasks[state.running.task as usize].time;
        let ends = start.saturating_sub(1)..=latest + 1;
        cases.extend(ends.map(|end| go(&image, &state, end)));
        cases.push(go(&image, &state, u64::MAX));
        for at in 0..image.len() {
            cases.push(go(&image[..at], &state, latest));
            let mut changed = image.clone();
            changed[at] = changed[at].wrapping_add(1);
            cases.push(go(&changed, &state, latest));
        }
        state = TODAY.go_on(&image, &state, latest).0;
    }
    cases
}

/// A running job so far off that its number, or its end, is right only in 32 bits.
fn far_jobs() -> Vec<String> {
    let mut cases = Vec::new();
    for (time, period) in [(1, 1), (1, 2), (2, 2), (1, 65_535)] {
        let task = task(0, time, period, period);
        let set = set_of(&[task]);
        let image = encode(&records_of(&set, &[Entry { task: 0, start: 0 }], TABLES));
        let (begun, _) = TODAY.begin(&image);
        for job in [MOST, MOST / period, (1 << 32) / period] {
            for start in [MOST, task.release(job) % (1 << 32), 0] {
                for next in [0, 1, (job + 1) % (1 << 32)] {
                    let mut state = begun;
                    state.running.job = job.min(MOST);
                    state.running.start = start;
                    state.next[0] = next;
                    cases.push(go(&image, &state, start + time));
                }
            }
        }
    }
    cases
}
