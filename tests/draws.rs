//! Random task sets made as far as the limits allow like document 000's, and timetables of them.

use crate::chance::Chance;
use crate::periods::{fraction, of_one_cycle};
use std::cmp::Reverse;
use std::ops::RangeInclusive;

/// As many tasks as such a set has.
pub const TASKS: RangeInclusive<usize> = 3..=12;

pub const MOST_JOBS: u32 = 4_096;

// ---- Task sets ----

#[derive(Clone, Copy)]
pub struct Task {
    time: u32,
    period: u32,
}

/// Tasks in the order of their periods, all released at 0 and due at the end of their period.
pub struct Set {
    pub tasks: Vec<Task>,
    pub hyperperiod: u32,
}

impl Set {
    /// Document 000's draw: of the first task the utilization from 0.01 to 0.99, of the others
    /// the time up to twice what the first one leaves free.
    pub fn draw(chance: &mut Chance, n: usize) -> Set {
        let periods = of_one_cycle(chance, n);
        let first = f64::from(periods[0]) * (0.01 + 0.98 * fraction(chance));
        let first = (first.round() as u32).clamp(1, periods[0] - 1);
        let most = u64::from(2 * (periods[0] - first));
        let mut time = |i: usize| match i {
            0 => first,
            _ => chance.between(1, most) as u32,
        };
        let tasks = periods.iter().enumerate();
        Set {
            tasks: tasks
                .map(|(i, &period)| Task {
                    time: time(i),
                    period,
                })
                .collect(),
            hyperperiod: periods.iter().copied().fold(1, common_multiple),
        }
    }

    pub fn jobs(&self) -> u32 {
        let tasks = self.tasks.iter();
        tasks.map(|task| self.hyperperiod / task.period).sum()
    }

    /// The ticks of a cycle that the jobs take.
    pub fn busy(&self) -> u32 {
        let tasks = self.tasks.iter();
        tasks
            .map(|task| self.hyperperiod / task.period * task.time)
            .sum()
    }
}

fn common_multiple(a: u32, b: u32) -> u32 {
    let mut pair = (a, b);
    while pair.1 > 0 {
        pair = (pair.1, pair.0 % pair.1);
    }
    a / pair.0 * b
}

// ---- Timetables ----

/// A job in a timetable.
#[derive(Clone, Copy)]
pub struct Job {
    task: usize,
    release: u32,
    start: u32,
}

/// The release of a task's next job where the cycle has no more of them.
const NEVER: u32 = u32::MAX;

/// Given the releases of the tasks' next jobs and an instant at which one waits, the task that
/// starts; none for idling until the next release.
pub type Policy = fn(&Set, &[u32], u32) -> Option<usize>;

impl Set {
    /// The timetable that a policy gives, if it meets every deadline.
    pub fn timetable(&self, policy: Policy) -> Option<Vec<Job>> {
        let mut releases = vec![0; self.tasks.len()];
        let mut jobs = Vec::new();
        let mut instant = 0;
        loop {
            let least = *releases.iter().min().expect("there are tasks");
            if least == NEVER {
                return Some(jobs);
            }
            instant = instant.max(least);
            let Some(task) = policy(self, &releases, instant) else {
                let later = releases.iter().filter(|release| **release > instant);
                instant = *later.min().expect("a policy idles for a later job");
                continue;
            };
            let job = Job {
                task,
                release: releases[task],
                start: instant,
            };
            if self.end(job) > self.due(job) {
                return None;
            }
            jobs.push(job);
            instant = self.end(job);
            releases[task] = match self.due(job) {
                next if next < self.hyperperiod => next,
                _ => NEVER,
            };
        }
    }

    /// Plain priority: NP-RM.
    pub fn by_priority(&self, releases: &[u32], instant: u32) -> Option<usize> {
        releases.iter().position(|release| *release <= instant)
    }

    /// CW-EDF: the waiting job that is due first, unless the next jobs of the tasks without a
    /// waiting one could then not all meet their deadlines.
    pub fn by_cw_edf(&self, releases: &[u32], instant: u32) -> Option<usize> {
        let due = |i: &usize| releases[*i] + self.tasks[*i].period;
        let tasks = 0..releases.len();
        let waiting = tasks.clone().filter(|i| releases[*i] <= instant);
        let urgent = waiting.min_by_key(due).expect("a job waits");
        let later = |i: &usize| instant < releases[*i] && releases[*i] < NEVER;
        let mut others: Vec<usize> = tasks.filter(later).collect();
        others.sort_by_key(|i| Reverse(due(i)));
        // The latest instant at which the others, the last due last, can begin.
        let latest = others.iter().fold(NEVER, |latest, i| {
            latest.min(due(i)).saturating_sub(self.tasks[*i].time)
        });
        (instant + self.tasks[urgent].time <= latest).then_some(urgent)
    }

    /// Document 000's pass that removes inversions, on neighbours: two jobs back to back change
    /// places where the second has priority over the first, waits at the first's start, and
    /// leaves it time enough. No other job moves.
    pub fn swapped(&self, mut jobs: Vec<Job>) -> Vec<Job> {
        let mut again = true;
        while again {
            again = false;
            for i in 1..jobs.len() {
                let (mut first, mut second) = (jobs[i - 1], jobs[i]);
                let inverted = second.task < first.task && second.release <= first.start;
                let back_to_back = self.end(first) == second.start;
                if inverted && back_to_back && self.end(second) <= self.due(first) {
                    second.start = first.start;
                    first.start = self.end(second);
                    (jobs[i - 1], jobs[i]) = (second, first);
                    again = true;
                }
            }
        }
        jobs
    }

    fn end(&self, job: Job) -> u32 {
        job.start + self.tasks[job.task].time
    }

    fn due(&self, job: Job) -> u32 {
        job.release + self.tasks[job.task].period
    }

    /// The stretches of the cycle in which no job runs.
    pub fn gaps(&self, jobs: &[Job]) -> usize {
        let ends = [0].into_iter().chain(jobs.iter().map(|job| self.end(*job)));
        let starts = jobs.iter().map(|job| job.start).chain([self.hyperperiod]);
        ends.zip(starts).filter(|(end, start)| end < start).count()
    }

    /// The timetable image.
    pub fn image(&self, jobs: &[Job]) -> Vec<u8> {
        let mut image = vec![b'T', b'S', 1, 1, self.tasks.len() as u8];
        for Task { time, period } in &self.tasks {
            image.extend(b"TK");
            image.extend([0, *time, *period, *period].map(u32::to_be_bytes).concat());
        }
        for job in jobs {
            image.extend([b'S', b'L', job.task as u8]);
            image.extend(job.start.to_be_bytes());
        }
        image.extend(b"EN");
        image.extend((1 + self.tasks.len() as u32 + jobs.len() as u32).to_be_bytes());
        image
    }
}
