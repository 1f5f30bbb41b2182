//! Random task sets, good and bad, and random valid timetables of the good ones.

use crate::chance::Chance;
use crate::independent::{instant_with_waiting, irregularities, waiting, Entry, Set, Task, TODAY};

const HYPERPERIODS: [u64; 26] = [
    1, 2, 4, 6, 8, 10, 12, 12, 20, 24, 24, 24, 30, 36, 40, 48, 48, 60, 60, 72, 120, 360, 2_520,
    65_520, 65_534, 65_535,
];
const MOST_SMALL_JOBS: u64 = 40;
const MOST_IN_32_BITS: u64 = 4_294_967_295;

fn task(offset: u64, time: u64, period: u64, deadline: u64) -> Task {
    Task {
        offset,
        time,
        period,
        deadline,
    }
}

fn set_of(tasks: &[Task]) -> Set {
    TODAY
        .judge_set(tasks.len() as u64, tasks)
        .expect("the set is good")
}

/// A random set that keeps every rule and has few jobs.
pub fn good_set(chance: &mut Chance) -> Set {
    if chance.one_in(12) {
        return set_of(&[task(0, 1, 5, 5), task(0, 2, 10, 10), task(0, 6, 20, 20)]);
    }
    loop {
        let tasks = random_tasks(chance);
        if let Ok(set) = TODAY.judge_set(tasks.len() as u64, &tasks) {
            if set.all_jobs() <= MOST_SMALL_JOBS {
                return set;
            }
        }
    }
}

/// Tasks whose periods divide one number and do not fall.
fn random_tasks(chance: &mut Chance) -> Vec<Task> {
    let multiple = chance.pick(&HYPERPERIODS);
    let n = if chance.one_in(8) {
        chance.between(1, 16)
    } else {
        chance.pick(&[1, 2, 2, 3, 3, 4, 5])
    };
    let divisors: Vec<u64> = (1..=12)
        .filter(|jobs| multiple % jobs == 0)
        .map(|jobs| multiple / jobs)
        .collect();
    let mut periods: Vec<u64> = (0..n).map(|_| chance.pick(&divisors)).collect();
    periods.sort();
    periods
        .iter()
        .map(|period| random_task(chance, *period, n))
        .collect()
}

fn random_task(chance: &mut Chance, period: u64, n: u64) -> Task {
    let longest = (period / (n + 1)).max(1);
    let time = if chance.one_in(2) {
        1
    } else {
        chance.between(1, longest)
    };
    let offset = if chance.one_in(3) {
        chance.between(0, (period - time) / 2)
    } else {
        0
    };
    let latest = period - offset;
    let deadline = match chance.below(4) {
        0 => chance.between(time, latest),
        1 => chance.between((time + latest) / 2, latest),
        _ => latest,
    };
    task(offset, time, period, deadline)
}

/// A timetable made by the decision rule with random forced idles and inversions, one in so
/// many decisions; none if a job would be late.
fn simulate(chance: &mut Chance, set: &Set, idles: u64, inversions: u64) -> Option<Vec<Entry>> {
    let mut entries = Vec::new();
    let mut next = vec![0; set.tasks.len()];
    let mut free = 0;
    while let Some(instant) = instant_with_waiting(set, &next, free) {
        if chance.one_in(idles) {
            free = instant + chance.between(1, 1 + set.tasks[0].period / 4);
            continue;
        }
        let released: Vec<usize> = (0..next.len())
            .filter(|&task| waiting(set, &next, task, instant))
            .collect();
        let task = if chance.one_in(inversions) {
            chance.pick(&released)
        } else {
            released[0]
        };
        free = instant + set.tasks[task].time;
        if free > set.tasks[task].due(next[task]) {
            return None;
        }
        entries.push(Entry {
            task,
            start: instant,
        });
        next[task] += 1;
    }
    Some(entries)
}

/// A random good set with a valid timetable of it.
fn any_timetable(chance: &mut Chance) -> (Set, Vec<Entry>) {
    loop {
        let set = good_set(chance);
        for (idles, inversions) in [
            (3, 1),
            (4, 1),
            (4, 2),
            (6, 2),
            (10, 3),
            (0, 2),
            (0, 4),
            (0, 0),
        ] {
            if let Some(entries) = simulate(chance, &set, idles, inversions) {
                return (set, entries);
            }
        }
    }
}

/// The one with the most inversions among up to five such sets with timetables.
pub fn timetable(chance: &mut Chance) -> (Set, Vec<Entry>) {
    let drawn = chance.between(1, 5);
    let some: Vec<(Set, Vec<Entry>)> = (0..drawn).map(|_| any_timetable(chance)).collect();
    let most = some
        .into_iter()
        .max_by_key(|(set, entries)| irregularities(set, entries).inversions.len());
    most.expect("one at least is drawn")
}

/// A good set with about as many jobs as there may be, and a valid timetable of it.
pub fn large_timetable(chance: &mut Chance) -> (Set, Vec<Entry>) {
    if chance.one_in(3) {
        let idles = chance.between(3_850, 3_860);
        return longest_tables(if chance.one_in(2) {
            idles
        } else {
            chance.between(3_856, 3_857)
        });
    }
    let mut tasks = if chance.one_in(2) {
        vec![task(0, 1, 16, 16)]
    } else {
        (1..=15).map(|_| task(0, 1, 240, 240)).collect()
    };
    tasks.push(task(0, 1, 65_520, 65_520));
    let set = set_of(&tasks);
    loop {
        let (idles, inversions) = (chance.between(2, 20), chance.between(2, 6));
        if let Some(entries) = simulate(chance, &set, idles, inversions) {
            return (set, entries);
        }
    }
}

/// The timetable of 4,096 jobs with that many forced idles and 3,821 inversions, whose table
/// image has 34,688 bytes and 8 for each idle: 65,536 bytes with 3,856 idles.
pub fn longest_tables(idles: u64) -> (Set, Vec<Entry>) {
    let mut tasks = vec![task(0, 1, 240, 240); 15];
    tasks.push(task(0, 1, 65_520, 65_520));
    let mut order = vec![15];
    for _ in 0..272 {
        order.extend((0..15).rev());
    }
    order.extend([0, 1]);
    order.extend((2..15).rev());
    let set = set_of(&tasks);
    let mut next = vec![0; 16];
    let mut entries: Vec<Entry> = Vec::new();
    let mut free = 0;
    for task in order {
        let waits = u64::from((entries.len() as u64) < idles);
        let start = free.max(set.tasks[task].release(next[task])) + waits;
        entries.push(Entry { task, start });
        next[task] += 1;
        free = start + 1;
    }
    (set, entries)
}

/// Tasks, with their number, that probably give this refusal of sets.
pub fn bad_tasks(chance: &mut Chance, tasks: &[Task], number: u64) -> (u64, Vec<Task>) {
    let mut tasks = tasks.to_vec();
    match number {
        5 => return (chance.pick(&[0, 0, 17, 18, 32, 255]), tasks),
        6 => break_own_rule(chance, &mut tasks),
        7 => lower_a_period(chance, &mut tasks),
        8 => tasks = long_hyperperiod(chance),
        _ => tasks = many_jobs(chance),
    }
    (tasks.len() as u64, tasks)
}

fn break_own_rule(chance: &mut Chance, tasks: &mut [Task]) {
    let i = chance.index(tasks.len());
    let task = &mut tasks[i];
    match chance.below(9) {
        0 => task.time = 0,
        1 => task.time = task.deadline + 1,
        2 => task.offset = task.period - task.deadline + 1,
        3 => task.deadline = task.period - task.offset + 1,
        4 => task.offset = MOST_IN_32_BITS,
        5 => task.period = chance.below(task.offset + task.deadline),
        6 => {
            *task = Task {
                offset: MOST_IN_32_BITS,
                time: 1,
                period: MOST_IN_32_BITS,
                deadline: 1,
            }
        }
        7 => task.deadline = MOST_IN_32_BITS - chance.below(3),
        _ => task.time = chance.field(),
    }
}

fn lower_a_period(chance: &mut Chance, tasks: &mut Vec<Task>) {
    let i = chance.index(tasks.len());
    let before = tasks[i].period;
    let period = if chance.one_in(2) {
        before.saturating_sub(1)
    } else {
        chance.between(1, before)
    };
    let lower = task(0, 1, period, chance.between(1, period));
    if tasks.len() < 16 {
        tasks.insert(i + 1, lower);
    } else {
        tasks[15] = lower;
    }
}

/// Tasks around the limit of the hyperperiod.
fn long_hyperperiod(chance: &mut Chance) -> Vec<Task> {
    let periods = chance.pick(&[
        &[65_535][..],
        &[65_536],
        &[2, 65_535],
        &[3, 65_535],
        &[32_768, 65_536],
        &[32_767, 65_534],
        &[255, 257],
        &[256, 257],
        &[65_521, 65_521],
        &[65_519, 65_521],
        &[16, 81, 625, 2_401],
        &[MOST_IN_32_BITS],
        &[65_535, MOST_IN_32_BITS],
        &[MOST_IN_32_BITS - 1, MOST_IN_32_BITS],
    ]);
    periods
        .iter()
        .map(|period| task(0, 1, *period, chance.between(1, *period)))
        .collect()
}

/// Tasks around the limit of the number of jobs.
fn many_jobs(chance: &mut Chance) -> Vec<Task> {
    let periods = chance.pick(&[
        &[3, 65_535][..],
        &[16, 65_520],
        &[16, 65_520, 65_520],
        &[15, 65_535],
        &[1, 4_095],
        &[1, 4_096],
        &[1, 1, 2_048],
        &[1, 1, 2_047],
        &[2, 4, 5_460],
        &[2, 4, 5_464],
    ]);
    periods
        .iter()
        .map(|period| task(0, 1, *period, *period))
        .collect()
}
