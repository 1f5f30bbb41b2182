//! Fixed cases of sets whose numbers stand at a limit: in memory, and as images without entries.

use crate::dispatcher::SLOTS;
use crate::edges::{all_operations, task, MOST};
use crate::form::task_text;
use crate::independent::{encode, Record, Task, TABLES, TIMETABLE};

/// Sets in memory, and those of images.
pub fn cases() -> Vec<String> {
    [counts(), single_tasks(), periods(), each_place()].concat()
}

fn set_case(n: u64, tasks: &[Task]) -> String {
    let slots: Vec<String> = tasks.iter().map(task_text).collect();
    format!("set {n} {}", slots.join(" "))
}

/// Every n about its limits, also those whose lower bytes are allowed, over sixteen good tasks, and
/// with slots behind n that would be refused.
fn counts() -> Vec<String> {
    let good = [task(0, 1, 40, 40); SLOTS];
    let mut rising = good;
    for (i, slot) in rising.iter_mut().enumerate() {
        *slot = task(1, 1, 2 << (i / 4), 1);
    }
    let mut cases = Vec::new();
    for n in (0..=18).chain([31, 32, 33, 255, 256, 257, 272, 65_535, 65_536, 65_552, MOST]) {
        cases.push(set_case(n, &good));
        cases.push(set_case(n, &rising));
        let mut behind = good;
        for slot in behind.iter_mut().skip(n as usize) {
            *slot = task(0, 0, 0, MOST);
        }
        cases.push(set_case(n, &behind));
    }
    cases
}

/// One task whose numbers are all small, or all at a limit.
fn single_tasks() -> Vec<String> {
    let mut cases = Vec::new();
    for numbers in [&[0, 1, 2, 3, 4][..], &[0, 1, 65_535, 65_536, 1 << 31, MOST]] {
        for &offset in numbers {
            for &time in numbers {
                for &period in numbers {
                    for &deadline in numbers {
                        cases.push(set_case(1, &[task(offset, time, period, deadline)]));
                    }
                }
            }
        }
    }
    cases
}

/// Periods in pairs, and lists about the limits of the hyperperiod and of the jobs; each list with
/// its last task put first too.
fn periods() -> Vec<String> {
    let lists: [&[u64]; 29] = [
        &[65_534],
        &[65_535],
        &[65_536],
        &[MOST],
        &[2, 65_535],
        &[3, 65_535],
        &[15, 65_535],
        &[16, 65_535],
        &[17, 65_535],
        &[21_845, 65_535],
        &[255, 257],
        &[256, 257],
        &[32_768, 65_536],
        &[65_519, 65_521],
        &[65_535, 65_536],
        &[65_534, 65_535],
        &[16, 65_520],
        &[16, 65_520, 65_520],
        &[1, 4_095],
        &[1, 4_096],
        &[2, 4, 5_460],
        &[2, 4, 5_464],
        &[6, 10, 15],
        &[16, 81, 625, 2_401],
        &[3, 5, 17, 257],
        &[3, 5, 17, 514],
        &[65_536, 4_294_901_760],
        &[4_294_967_291, MOST],
        &[
            240, 240, 240, 240, 240, 240, 240, 240, 240, 240, 240, 240, 240, 240, 240, 65_520,
        ],
    ];
    let mut cases = Vec::new();
    for first in 1..=20 {
        for second in 1..=20 {
            cases.push(set_case(2, &of_periods(&[first, second])));
        }
    }
    for list in lists {
        let mut turned = list.to_vec();
        turned.rotate_right(1);
        for list in [list, &turned] {
            cases.push(set_case(list.len() as u64, &of_periods(list)));
            cases.extend(of_images(&of_periods(list)));
        }
    }
    cases
}

fn of_periods(periods: &[u64]) -> Vec<Task> {
    periods
        .iter()
        .map(|&period| task(0, 1, period, 1))
        .collect()
}

/// The operations on both kinds of image of these tasks.
fn of_images(tasks: &[Task]) -> Vec<String> {
    [TIMETABLE, TABLES]
        .iter()
        .flat_map(|kind| all_operations(&encode(&records_without_entries(tasks, *kind)), 0))
        .collect()
}

/// An image of this kind without entries or records, whether its set is good or not.
fn records_without_entries(tasks: &[Task], kind: u64) -> Vec<Record> {
    let n = tasks.len() as u64;
    let mut records = vec![Record::Ts {
        edition: 1,
        kind,
        n,
    }];
    records.extend(tasks.iter().map(|task| Record::Tk(*task)));
    records.push(Record::En(n + 1));
    records
}

/// Sixteen tasks of which each in turn breaks its own rule, has a period below the one before, or
/// both; in memory and in an image.
fn each_place() -> Vec<String> {
    let mut cases = Vec::new();
    for at in 0..SLOTS {
        for broken in [
            task(0, 0, 40, 40),
            task(0, 1, 39, 39),
            task(0, 2, 39, 1),
            task(1, 1, 40, 40),
        ] {
            let mut tasks = [task(0, 1, 40, 40); SLOTS];
            tasks[at] = broken;
            cases.push(set_case(SLOTS as u64, &tasks));
            cases.extend(of_images(&tasks));
        }
    }
    cases
}
