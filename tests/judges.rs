//! A task set judged by 5 to 9 with a hyperperiod that is found in one of two plain ways, none of them by remainders of remainders: by
//! trying multiples of the longest period, and by the primes of every period.

use crate::archive::Judged;

const MOST_TASKS: u32 = 16;
const MOST_TICKS: u32 = 65_535;
const MOST_JOBS: u32 = 4_096;

/// O, C, T and D.
pub type Task = [u32; 4];

/// A way to find the hyperperiod of tasks whose periods are at least 1: none where it is above the limit.
pub type Way = fn(&[Task]) -> Option<u32>;

/// Judges the first n of the tasks.
pub fn judge(n: u32, tasks: &[Task], hyperperiod: Way) -> Judged {
    if n < 1 || n > MOST_TASKS {
        return Err((5, 0));
    }
    let tasks = &tasks[..n as usize];
    let mut before = 0;
    for (place, &[offset, time, period, deadline]) in (1..).zip(tasks) {
        let fits = deadline <= period && offset <= period - deadline;
        if time < 1 || time > deadline || !fits {
            return Err((6, place));
        }
        if period < before {
            return Err((7, place));
        }
        before = period;
    }
    let Some(ticks) = hyperperiod(tasks) else {
        return Err((8, 0));
    };
    let jobs = periods(tasks).map(|period| ticks / period).sum();
    if jobs > MOST_JOBS {
        return Err((9, 0));
    }
    Ok((ticks, jobs))
}

/// The first multiple of the longest period that every period divides.
pub fn by_multiples(tasks: &[Task]) -> Option<u32> {
    let longest = periods(tasks).max()?;
    let mut multiple = longest;
    while multiple <= MOST_TICKS {
        if periods(tasks).all(|period| multiple % period == 0) {
            return Some(multiple);
        }
        multiple += longest;
    }
    None
}

/// Every prime as often as the period has it that has it most often.
pub fn by_factors(tasks: &[Task]) -> Option<u32> {
    let mut multiple = 1;
    for period in periods(tasks) {
        if period > MOST_TICKS {
            return None;
        }
        multiple = with_factors(multiple, period);
        if multiple > MOST_TICKS {
            return None;
        }
    }
    Some(multiple)
}

/// A number up to the limit, with every prime of a period up to the limit as often as the period has it, at least.
fn with_factors(number: u32, period: u32) -> u32 {
    let (mut multiple, mut rest, mut prime) = (number, period, 2);
    while rest > 1 {
        if prime * prime > rest {
            prime = rest;
        }
        let mut power = 1;
        while rest % prime == 0 {
            rest /= prime;
            power *= prime;
        }
        while multiple % power != 0 {
            multiple *= prime;
        }
        prime += 1;
    }
    multiple
}

fn periods(tasks: &[Task]) -> impl Iterator<Item = u32> + '_ {
    tasks.iter().map(|task| task[2])
}
