//! Valid timetables with forced idles and inversions, made from a fixed seed, and their images.

use crate::chance::Chance;

pub const SEED: u64 = 1;

/// The periods of the sets, each with how many tasks have it.
pub const SETS: [&[(u32, usize)]; 6] = [
    &[(508, 1), (516, 1)],
    &[(65, 1), (959, 1)],
    &[(15, 1), (4_081, 1)],
    &[(3_855, 15), (65_535, 1)],
    &[(768, 3), (1_020, 12), (65_280, 1)],
    &[(240, 15), (65_520, 1)],
];

/// The sets and timetables that are measured, one behind the other from the seed.
pub fn made() -> impl Iterator<Item = (Vec<[u32; 4]>, Vec<(usize, u32)>)> {
    let mut chance = Chance::new(SEED);
    SETS.iter().map(move |periods| {
        let tasks = tasks_of(&mut chance, periods);
        let entries = timetable(&mut chance, &tasks);
        (tasks, entries)
    })
}

/// Tasks with these periods that leave the processor free for half of the time at least.
pub fn tasks_of(chance: &mut Chance, periods: &[(u32, usize)]) -> Vec<[u32; 4]> {
    let n: usize = periods.iter().map(|(_, tasks)| tasks).sum();
    let most = u64::from(periods[0].0) / (4 * n as u64);
    let mut tasks = Vec::new();
    for (period, count) in periods {
        for _ in 0..*count {
            let offset = chance.below(most + 1) as u32;
            let time = chance.between(1, most.max(1)) as u32;
            tasks.push([offset, time, *period, period - offset]);
        }
    }
    tasks
}

/// The entries of a timetable that idles and inverts at random wherever there is time for it.
pub fn timetable(chance: &mut Chance, tasks: &[[u32; 4]]) -> Vec<(usize, u32)> {
    let periods = tasks.iter().map(|task| task[2]);
    let hyperperiod = periods.fold(1, common_multiple);
    let mut release: Vec<u32> = tasks.iter().map(|task| task[0]).collect();
    let mut entries = Vec::new();
    let mut free = 0;
    while let Some(least) = release.iter().copied().filter(|r| *r < hyperperiod).min() {
        let earliest = least.max(free);
        let (task, start) = some_start(chance, tasks, &release, earliest)
            .unwrap_or_else(|| (most_urgent(tasks, &release, earliest), earliest));
        entries.push((task, start));
        release[task] += tasks[task][2];
        free = start + tasks[task][1];
    }
    entries
}

/// A random start, or one at a release, after which every task still has time for its next job.
fn some_start(
    chance: &mut Chance,
    tasks: &[[u32; 4]],
    release: &[u32],
    earliest: u32,
) -> Option<(usize, u32)> {
    let start = match chance.below(6) {
        0 => earliest + chance.between(1, u64::from(tasks[0][2]) / 2) as u32,
        1 | 2 => earliest.max(chance.pick(release)),
        _ => earliest,
    };
    let waiting: Vec<usize> = (0..tasks.len()).filter(|i| release[*i] <= start).collect();
    let task = chance.pick(&waiting);
    let all: u32 = tasks.iter().map(|task| task[1]).sum();
    let in_time = |i: usize| start + 2 * all <= release[i] + tasks[i][3];
    (0..tasks.len()).all(in_time).then_some((task, start))
}

/// The waiting task whose job is due first.
fn most_urgent(tasks: &[[u32; 4]], release: &[u32], instant: u32) -> usize {
    let waiting = (0..tasks.len()).filter(|i| release[*i] <= instant);
    waiting
        .min_by_key(|i| release[*i] + tasks[*i][3])
        .expect("a job waits")
}

pub fn common_multiple(a: u32, b: u32) -> u32 {
    (1..=b)
        .map(|times| a * times)
        .find(|multiple| multiple % b == 0)
        .expect("a * b is one")
}

pub fn image_of(tasks: &[[u32; 4]], entries: &[(usize, u32)]) -> Vec<u8> {
    let mut image = vec![b'T', b'S', 1, 1, tasks.len() as u8];
    for task in tasks {
        image.extend(b"TK");
        image.extend(task.iter().flat_map(|number| number.to_be_bytes()));
    }
    for (task, start) in entries {
        image.extend([b'S', b'L', *task as u8]);
        image.extend(start.to_be_bytes());
    }
    image.extend(b"EN");
    image.extend((1 + tasks.len() as u32 + entries.len() as u32).to_be_bytes());
    image
}
