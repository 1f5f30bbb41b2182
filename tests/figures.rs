//! Writes the table images that `figures.sh` measures into a folder. `images`: those of the timetables that `bench.rs` measures too. `hard`: for each number of
//! tasks, images on which one call of going on has much to do. `others`: for each number of tasks, images of random sets. `periods` writes none, it prints how many
//! remainders the hyperperiod of a set takes.

#[allow(dead_code)]
mod archive;
#[allow(dead_code)]
#[path = "independent/chance.rs"]
mod chance;
#[allow(dead_code)]
mod fast;
#[allow(dead_code)]
mod making;

use chance::Chance;
use making::{common_multiple, image_of, made};

const ROOM: usize = 131_072;
const MOST_TICKS: u32 = 65_535;
const MOST_JOBS: u32 = 4_096;
const MOST_TASKS: usize = 16;

fn main() {
    let asked: Vec<String> = std::env::args().skip(1).collect();
    match asked.iter().map(String::as_str).collect::<Vec<_>>()[..] {
        ["images", folder] => {
            for (tasks, entries) in made() {
                let name = format!("{}-{}", tasks.len(), entries.len());
                write(folder, &name, &tasks, &entries);
            }
        }
        ["hard", folder] => hard(folder),
        ["others", folder] => others(folder),
        ["periods"] => periods(),
        _ => panic!("images FOLDER, hard FOLDER, others FOLDER or periods"),
    }
}

/// Writes the table image of a valid timetable.
fn write(folder: &str, name: &str, tasks: &[[u32; 4]], entries: &[(usize, u32)]) {
    let mut out = vec![0; ROOM];
    let length = fast::derive(&image_of(tasks, entries), &mut out).expect("the timetable is valid");
    std::fs::write(format!("{folder}/{name}.image"), &out[..length])
        .expect("the folder can be written");
}

// ---- What judging a set comes to ----

fn common_divisor(a: u32, b: u32) -> u32 {
    if b == 0 {
        a
    } else {
        common_divisor(b, a % b)
    }
}

/// The remainders that Euclid's algorithm takes from a period and the rest that it leaves of a multiple of others.
fn remainders(period: u32, multiple: u32) -> u32 {
    let (mut a, mut b, mut taken) = (period, multiple % period, 0);
    while b > 0 {
        (a, b) = (b, a % b);
        taken += 1;
    }
    taken
}

/// Of all sets that have a valid timetable, by the number of tasks and by how many periods are no divisors of the least common multiple of the longer ones: the most
/// and the fewest remainders, and the periods, falling, that take them. Every job takes a tick at least, so that a cycle has no more jobs than ticks.
struct Search {
    hyperperiod: u32,
    chain: Vec<u32>,
    found: Vec<Vec<Extremes>>,
}

/// Remainders and periods: the most and the fewest.
#[derive(Clone)]
struct Extremes {
    most: (u32, Vec<u32>),
    fewest: (u32, Vec<u32>),
}

impl Search {
    /// Goes on with each divisor below that is no divisor of the multiple. The tasks that are left take the longest period, of which a cycle has fewest jobs.
    fn go(&mut self, below: &[u32], multiple: u32, taken: u32, jobs: u32) {
        let (tasks, steps) = (self.chain.len(), self.chain.len() - 1);
        let most_jobs = MOST_JOBS.min(self.hyperperiod);
        let more = (most_jobs - jobs) / (self.hyperperiod / self.chain[0]);
        for n in tasks..=(tasks + more as usize).min(MOST_TASKS) {
            let found = &mut self.found[n];
            if found.len() == steps {
                let this = (taken, self.chain.clone());
                found.push(Extremes {
                    most: this.clone(),
                    fewest: this,
                });
            } else if taken > found[steps].most.0 {
                found[steps].most = (taken, self.chain.clone());
            } else if taken < found[steps].fewest.0 {
                found[steps].fewest = (taken, self.chain.clone());
            }
        }
        for (i, period) in below.iter().enumerate() {
            let jobs = jobs + self.hyperperiod / period;
            if jobs > most_jobs {
                break;
            }
            if multiple % period != 0 {
                let next = period / common_divisor(*period, multiple) * multiple;
                let taken = taken + remainders(*period, multiple);
                self.chain.push(*period);
                self.go(&below[i + 1..], next, taken, jobs);
                self.chain.pop();
            }
        }
    }
}

/// Every hyperperiod, and every falling chain of its divisors in which each is no divisor of the least common multiple of those before it: a period that is one
/// takes no remainder and changes nothing, so that these are all.
fn searched() -> Vec<Vec<Extremes>> {
    let mut divisors = vec![Vec::new(); MOST_TICKS as usize + 1];
    for divisor in (1..=MOST_TICKS).rev() {
        for multiple in (divisor..=MOST_TICKS).step_by(divisor as usize) {
            divisors[multiple as usize].push(divisor);
        }
    }
    let mut search = Search {
        hyperperiod: 0,
        chain: Vec::new(),
        found: vec![Vec::new(); MOST_TASKS + 1],
    };
    for hyperperiod in 1..=MOST_TICKS {
        search.hyperperiod = hyperperiod;
        let periods = &divisors[hyperperiod as usize];
        for (i, period) in periods.iter().enumerate() {
            if hyperperiod / period > MOST_JOBS {
                break;
            }
            search.chain = vec![*period];
            search.go(&periods[i + 1..], *period, 0, hyperperiod / period);
        }
    }
    search.found
}

/// A line for each number of tasks and each number of periods that are no divisors: the most remainders, with periods that take them.
fn periods() {
    for (n, found) in searched().iter().enumerate() {
        for (steps, extremes) in found.iter().enumerate() {
            let (taken, chain) = &extremes.most;
            println!("{n} {steps} {taken} {chain:?}");
        }
    }
}

// ---- Images on which going on has much to do ----

/// Which of the waiting tasks starts, where there is time for all.
#[derive(Clone, Copy, Debug, PartialEq)]
enum How {
    Lowest,
    Highest,
    HighestOnce,
    Any,
    Urgent,
}

/// A timetable that begins with so many idle ticks, after which the first start is as said; none where a job would be late. The job that is wished of a task starts
/// as long after its release as the task's first job has been released when the idle ticks are over.
fn planned(
    chance: &mut Chance,
    tasks: &[[u32; 4]],
    lead: u32,
    how: How,
    wished: &[u32],
) -> Option<Vec<(usize, u32)>> {
    let hyperperiod = tasks.iter().map(|task| task[2]).fold(1, common_multiple);
    let all: u32 = tasks.iter().map(|task| task[1]).sum();
    let mut release: Vec<u32> = tasks.iter().map(|task| task[0]).collect();
    let mut jobs = vec![0; tasks.len()];
    let mut entries = Vec::new();
    let mut free = 0;
    while let Some(least) = release.iter().copied().filter(|r| *r < hyperperiod).min() {
        let mut start = least.max(free);
        let first = entries.is_empty();
        let time = (0..tasks.len()).all(|i| start + 2 * all + lead <= release[i] + tasks[i][3]);
        if first || (time && how == How::Any && chance.one_in(4)) {
            start += lead;
        }
        let wish = |i: &usize| {
            wished.get(*i) == Some(&jobs[*i]) && start <= release[*i] + lead - tasks[*i][0]
        };
        let wish = (0..tasks.len()).find(|i| release[*i] <= start && wish(i));
        if let Some(task) = wish {
            start = release[task] + lead - tasks[task][0];
        }
        let waiting: Vec<usize> = (0..tasks.len()).filter(|i| release[*i] <= start).collect();
        let urgent = |i: &&usize| release[**i] + tasks[**i][3];
        let task = match how {
            _ if wish.is_some() => wish?,
            How::Lowest if first || time => waiting[0],
            How::Highest if first || time => waiting[waiting.len() - 1],
            How::HighestOnce if first => waiting[waiting.len() - 1],
            How::HighestOnce if time => waiting[0],
            How::Any if time => chance.pick(&waiting),
            _ => *waiting.iter().min_by_key(urgent).expect("a job waits"),
        };
        let end = start + tasks[task][1];
        if end > release[task] + tasks[task][3] {
            return None;
        }
        entries.push((task, start));
        release[task] += tasks[task][2];
        jobs[task] += 1;
        free = end;
    }
    Some(entries)
}

/// Writes images of tasks with these periods, which all are released at 0 and take a tick.
fn plans(folder: &str, chance: &mut Chance, name: &str, periods: &[u32], ways: &[How], leads: u32) {
    let tasks: Vec<[u32; 4]> = periods.iter().map(|t| [0, 1, *t, *t]).collect();
    for how in ways {
        for lead in 0..=leads {
            if let Some(entries) = planned(chance, &tasks, lead, *how, &[]) {
                write(
                    folder,
                    &format!("{:02}-{name}-{how:?}-{lead}", tasks.len()),
                    &tasks,
                    &entries,
                );
            }
        }
    }
}

/// For each number of tasks: periods that take most remainders, and fewest; equal periods; one long and short ones; divisors of numbers that have many, without the number and
/// with it; and a cycle that begins with an idle tick behind which every task waits and shows a record of its own with the very delay that its waiting job has,
/// but of a later job.
fn hard(folder: &str) {
    let chance = &mut Chance::new(making::SEED);
    let ways = [How::Lowest, How::Highest, How::HighestOnce, How::Any];
    for (n, found) in searched().iter().enumerate() {
        for (steps, extremes) in found.iter().enumerate() {
            for (name, (_, chain)) in [("most", &extremes.most), ("fewest", &extremes.fewest)] {
                let mut periods: Vec<u32> = chain.iter().rev().copied().collect();
                periods.resize(n, chain[0]);
                let tasks: Vec<[u32; 4]> = periods.iter().map(|t| [0, 1, *t, *t]).collect();
                let entries =
                    planned(chance, &tasks, 0, How::Urgent, &[]).expect("there is time for all");
                write(
                    folder,
                    &format!("{n:02}-remainders-{name}-{steps}"),
                    &tasks,
                    &entries,
                );
            }
        }
    }
    for n in 1..=MOST_TASKS {
        let short = 2 * n as u32 + 8;
        let mut periods = vec![short; n];
        plans(folder, chance, "equal", &periods, &ways, 2);
        periods[n - 1] = 16 * short;
        plans(folder, chance, "long", &periods, &ways, 2);
        for hyperperiod in [1_680, 10_080] {
            let divisors = (1..=200).rev().filter(|t| hyperperiod % t == 0);
            let mut periods: Vec<u32> = divisors.take(n).collect();
            periods.reverse();
            let name = format!("divisors{hyperperiod}");
            plans(folder, chance, &name, &periods, &ways[1..], 1);
        }
        let mut periods: Vec<u32> = (20..5_040).filter(|t| 5_040 % t == 0).take(n - 1).collect();
        periods.push(5_040);
        plans(folder, chance, "dividing", &periods, &[How::Urgent], 0);
        if n >= 3 {
            let mut tasks = vec![[0, 1, short, short]; n];
            tasks[n - 1] = [1, 1, 2 * short - 1, 2 * short - 2];
            let mut wished: Vec<u32> = (2..n as u32 + 2).collect();
            (wished[0], wished[n - 1]) = (u32::MAX, 1);
            for how in [How::Lowest, How::HighestOnce] {
                let entries =
                    planned(chance, &tasks, 1, how, &wished).expect("there is time for all");
                write(folder, &format!("{n:02}-later-{how:?}"), &tasks, &entries);
            }
        }
    }
}

/// For each number of tasks images of random sets: periods that share divisors, offsets, times and deadlines that leave room.
fn others(folder: &str) {
    let chance = &mut Chance::new(making::SEED);
    for n in 1..=MOST_TASKS {
        for image in 0..12 {
            let least = 12 * n as u32;
            let ticks = [1_680, 2_520, 5_040, 7_560];
            let hyperperiod = chance.pick(&ticks);
            let divisors: Vec<u32> = (least..=hyperperiod)
                .filter(|t| hyperperiod % t == 0)
                .collect();
            let mut periods: Vec<u32> = (0..n).map(|_| chance.pick(&divisors)).collect();
            periods.sort_unstable();
            let tasks: Vec<[u32; 4]> = periods
                .iter()
                .map(|period| random_task(chance, n, *period))
                .collect();
            let entries = making::timetable(chance, &tasks);
            if in_time(&tasks, &entries) {
                write(folder, &format!("{n:02}-{image}"), &tasks, &entries);
            }
        }
    }
}

fn random_task(chance: &mut Chance, n: usize, period: u32) -> [u32; 4] {
    let offset = if chance.one_in(2) {
        0
    } else {
        chance.below(u64::from(period) / 4) as u32
    };
    let time = chance.between(1, u64::from(period) / (4 * n as u64)) as u32;
    let deadline = period - offset - chance.below(u64::from(period) / 8) as u32;
    [offset, time, period, deadline]
}

fn in_time(tasks: &[[u32; 4]], entries: &[(usize, u32)]) -> bool {
    let mut jobs = vec![0; tasks.len()];
    entries.iter().all(|(i, start)| {
        let [offset, time, period, deadline] = tasks[*i];
        jobs[*i] += 1;
        start + time <= offset + (jobs[*i] - 1) * period + deadline
    })
}
