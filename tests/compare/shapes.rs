//! Sets of shapes that stand at the edges of document 01's rules, and valid timetables of them: up
//! to sixteen tasks, hyperperiods up to the limit, D = C, O + D = T, idles up to H − 1, starts at
//! the last instant that is in time, hundreds and thousands of jobs.

use crate::chance::Chance;
use crate::independent::{instant_with_waiting, waiting, Entry, Set, Task, TODAY};
use crate::sets::{large_timetable, timetable};

/// Periods with a hyperperiod at or next to the limit.
const LONG_PERIODS: [&[u64]; 8] = [
    &[65_535],
    &[65_534],
    &[21_845, 65_535],
    &[255, 65_535],
    &[255, 257],
    &[13_107, 21_845, 65_535],
    &[32_767, 65_534],
    &[65_535, 65_535, 65_535],
];

/// A set and a valid timetable of it.
pub fn some_timetable(chance: &mut Chance) -> (Set, Vec<Entry>) {
    match chance.below(1_000) {
        0..=3 => large_timetable(chance),
        4 => timetable_of(chance, thousands_of_jobs),
        5..=19 => timetable_of(chance, many_jobs),
        20..=219 => timetable_of(chance, many_tasks),
        220..=299 => timetable_of(chance, long_hyperperiod),
        300..=399 => timetable_of(chance, one_task),
        400..=599 => timetable_of(chance, tight),
        _ => timetable(chance),
    }
}

/// A small set with few tasks, and a valid timetable of it.
pub fn small_timetable(chance: &mut Chance) -> (Set, Vec<Entry>) {
    loop {
        let shape = chance.pick(&[tight as fn(&mut Chance) -> Vec<Task>, few]);
        let (set, entries) = timetable_of(chance, shape);
        if set.tasks.len() <= 4 && entries.len() <= 10 {
            return (set, entries);
        }
    }
}

/// A set drawn so that it is good, with a valid timetable.
fn timetable_of(chance: &mut Chance, shape: fn(&mut Chance) -> Vec<Task>) -> (Set, Vec<Entry>) {
    loop {
        let tasks = shape(chance);
        let Ok(set) = TODAY.judge_set(tasks.len() as u64, &tasks) else {
            continue;
        };
        for restless in [2, 3, 5, 9, 0] {
            if let Some(entries) = made(chance, &set, restless) {
                return (set, entries);
            }
        }
    }
}

/// A timetable in which one decision in so many takes any waiting task, and one puts its start off,
/// often to the last instant that is in time; none if a job would be late.
fn made(chance: &mut Chance, set: &Set, restless: u64) -> Option<Vec<Entry>> {
    let mut entries = Vec::new();
    let mut next = vec![0; set.tasks.len()];
    let mut free = 0;
    while let Some(instant) = instant_with_waiting(set, &next, free) {
        let released: Vec<usize> = (0..next.len())
            .filter(|&task| waiting(set, &next, task, instant))
            .collect();
        let task = if chance.one_in(restless) {
            chance.pick(&released)
        } else {
            released[0]
        };
        let latest = set.tasks[task].due(next[task]) - set.tasks[task].time;
        if instant > latest {
            return None;
        }
        let start = put_off(chance, restless, instant, latest);
        entries.push(Entry { task, start });
        next[task] += 1;
        free = start + set.tasks[task].time;
    }
    Some(entries)
}

/// A start from an instant on, up to the latest one.
fn put_off(chance: &mut Chance, restless: u64, instant: u64, latest: u64) -> u64 {
    if !chance.one_in(restless) {
        return instant;
    }
    match chance.below(4) {
        0 => latest,
        1 => chance.between(instant, latest),
        _ => chance.between(instant, latest.min(instant + 3)),
    }
}

// ---- Shapes ----

fn task(offset: u64, time: u64, period: u64, deadline: u64) -> Task {
    Task {
        offset,
        time,
        period,
        deadline,
    }
}

/// Two to four tasks with periods that divide one number.
fn few(chance: &mut Chance) -> Vec<Task> {
    let multiple = chance.pick(&[6, 8, 12, 20, 24]);
    let divisors: Vec<u64> = (1..=3)
        .filter(|jobs| multiple % jobs == 0)
        .map(|jobs| multiple / jobs)
        .collect();
    let mut periods: Vec<u64> = (0..chance.between(2, 4))
        .map(|_| chance.pick(&divisors))
        .collect();
    periods.sort();
    periods
        .iter()
        .map(|&period| task(0, chance.between(1, 2), period, period))
        .collect()
}

/// Fifteen or sixteen tasks, rarely one or two fewer.
fn many_tasks(chance: &mut Chance) -> Vec<Task> {
    let n = chance.pick(&[16, 16, 16, 15, 15, 14]);
    let short = chance.between(0, 6);
    let period = chance.pick(&[30, 40, 64]);
    let of = |chance: &mut Chance, period: u64| {
        let offset = chance.pick(&[0, 0, 0, 1, 3]);
        task(offset, 1, period, period - offset)
    };
    (0..n)
        .map(|i| of(chance, if i < short { period } else { 2 * period }))
        .collect()
}

/// A hyperperiod of about the most that there may be, with long times.
fn long_hyperperiod(chance: &mut Chance) -> Vec<Task> {
    let periods = chance.pick(&LONG_PERIODS);
    let n = periods.len() as u64;
    periods
        .iter()
        .map(|&period| {
            let time = chance.between(1, (period / (2 * n)).max(1));
            let offset = chance.pick(&[0, 0, 1, period / 4]);
            let latest = period - offset;
            let any = chance.between(time, latest);
            let deadline = chance.pick(&[latest, latest, any]);
            task(offset, time, period, deadline)
        })
        .collect()
}

/// One task, with C, D and O at their edges.
fn one_task(chance: &mut Chance) -> Vec<Task> {
    let period = chance.pick(&[1, 2, 3, 7, 255, 256, 257, 65_534, 65_535]);
    let time = chance.pick(&[1, 1, 1, period, (period / 2).max(1)]);
    let any = chance.between(0, period - time);
    let offset = chance.pick(&[0, 0, period - time, any]);
    let any = chance.between(time, period - offset);
    let deadline = chance.pick(&[time, period - offset, any]);
    vec![task(offset, time, period, deadline)]
}

/// A few tasks of which some have D = C, some O + D = T, some both.
fn tight(chance: &mut Chance) -> Vec<Task> {
    let period = chance.between(4, 12);
    let n = chance.between(2, 4);
    let jobs = chance.pick(&[1, 1, 2, 3]);
    (0..n)
        .map(|i| {
            let period = if i + 1 == n { period * jobs } else { period };
            let time = chance.pick(&[1, 1, 2]);
            let offset = chance.below(period - time + 1);
            let latest = period - offset;
            let deadline = chance.pick(&[time, latest, latest, latest]);
            task(offset, time, period, deadline)
        })
        .collect()
}

/// Hundreds of jobs, so that numbers of jobs and of records take two bytes.
fn many_jobs(chance: &mut Chance) -> Vec<Task> {
    let period = chance.pick(&[5, 6, 8]);
    let cycle = period * chance.between(130, 300);
    vec![
        task(0, 1, period, period),
        task(chance.below(2), 1, period, period - 1),
        task(0, 1, period, period),
        task(0, 2, cycle, cycle),
    ]
}

/// Two tasks with two thousand jobs each, so that inversions have high job numbers.
fn thousands_of_jobs(chance: &mut Chance) -> Vec<Task> {
    let jobs = chance.between(1_900, 2_047);
    vec![
        task(0, 1, 32, 32),
        task(0, 1, 32, 32),
        task(0, 1, 32 * jobs, 32 * jobs),
    ]
}
