//! Document 02's R-4 written down plainly: the figures of a table image, counted tick by tick over its
//! rebuilt timetable, and the report over a line of images.

use crate::independent::{refuse, Entry, Refusal, Rules, Set, TABLES};

/// The most bytes of an image that the report frames, and the most images of a line.
const LONGEST_REPORTED: usize = 65_536;
const MOST_IMAGES: usize = 10_000;

/// A job of a cycle: its release, its deadline, its declared time and the start that it has.
struct Job {
    task: usize,
    release: u64,
    due: u64,
    time: u64,
    start: u64,
}

impl Job {
    fn end(&self) -> u64 {
        self.start + self.time
    }
}

/// The jobs of a valid timetable: the k-th entry of a task is its job k.
fn jobs_of(set: &Set, entries: &[Entry]) -> Vec<Job> {
    let mut next = vec![0; set.tasks.len()];
    let mut jobs = Vec::new();
    for &Entry { task, start } in entries {
        jobs.push(Job {
            task,
            release: set.tasks[task].release(next[task]),
            due: set.tasks[task].due(next[task]),
            time: set.tasks[task].time,
            start,
        });
        next[task] += 1;
    }
    jobs
}

// ---- Ticks ----

/// What a tick of the cycle is: one on which a job runs, an idle one while a job waits, or one of the
/// other idle ones.
#[derive(Clone, Copy, PartialEq)]
enum Tick {
    Busy,
    Forced,
    Other,
}

/// Every tick of the cycle: a job is waiting from its release to its start and runs up to its end.
fn ticks(set: &Set, jobs: &[Job]) -> Vec<Tick> {
    let mut ticks = vec![Tick::Other; set.hyperperiod as usize];
    for job in jobs {
        for tick in job.release..job.start {
            ticks[tick as usize] = Tick::Forced;
        }
    }
    for job in jobs {
        for tick in job.start..job.end() {
            ticks[tick as usize] = Tick::Busy;
        }
    }
    ticks
}

// ---- Lateness ----

/// End minus deadline of a task's worst job.
fn lateness(task: usize, jobs: &[Job]) -> i64 {
    let own = jobs.iter().filter(|job| job.task == task);
    let late = own.map(|job| job.end() as i64 - job.due as i64);
    late.max().expect("a task has a job")
}

// ---- Intervals ----

/// An interval: where it begins and ends, and the declared times of its jobs together.
struct Interval {
    begin: u64,
    end: u64,
    times: u64,
}

/// The intervals of the cycle: one for each distinct deadline, and one without jobs for each stretch
/// that is outside these.
fn intervals(set: &Set, jobs: &[Job]) -> Vec<Interval> {
    let mut ends: Vec<u64> = jobs.iter().map(|job| job.due).collect();
    ends.sort();
    ends.dedup();
    let mut intervals = Vec::new();
    let mut previous = 0;
    for end in ends {
        let held = || jobs.iter().filter(|job| job.due == end);
        let earliest = held().map(|job| job.release).min();
        let begin = previous.max(earliest.expect("a job has this deadline"));
        if begin > previous {
            intervals.push(without_jobs(previous, begin));
        }
        let times = held().map(|job| job.time).sum();
        intervals.push(Interval { begin, end, times });
        previous = end;
    }
    if set.hyperperiod > previous {
        intervals.push(without_jobs(previous, set.hyperperiod));
    }
    intervals
}

fn without_jobs(begin: u64, end: u64) -> Interval {
    let times = 0;
    Interval { begin, end, times }
}

/// The spare capacity of each interval: its length minus its declared times, plus the next one's
/// capacity where that is negative. The last has no next.
fn capacities(intervals: &[Interval]) -> Vec<i64> {
    let mut capacities = Vec::new();
    let mut next = 0;
    for Interval { begin, end, times } in intervals.iter().rev() {
        let spare = (end - begin) as i64 - *times as i64;
        let borrowed = if next < 0 { next } else { 0 };
        next = spare + borrowed;
        capacities.push(next);
    }
    capacities.reverse();
    capacities
}

// ---- The figures and the report ----

/// The figures of a valid timetable, in the report's order.
fn figures_of(set: &Set, entries: &[Entry]) -> Vec<i64> {
    let jobs = jobs_of(set, entries);
    let ticks = ticks(set, &jobs);
    let count = |kind: Tick| ticks.iter().filter(|tick| **tick == kind).count() as i64;
    let mut figures = vec![count(Tick::Busy), count(Tick::Forced), count(Tick::Other)];
    figures.extend((0..set.tasks.len()).map(|task| lateness(task, &jobs)));
    figures.extend(capacities(&intervals(set, &jobs)));
    figures
}

impl Rules {
    /// The figures of the table image at the front of some bytes, if they fit the room, and how many
    /// bytes it has.
    pub fn figures(&self, bytes: &[u8], room: u64) -> Result<(Vec<i64>, usize), Refusal> {
        let (records, behind) = self.frame_front(bytes, TABLES)?;
        let (set, _, entries) = self.check_table_records(&records)?;
        let figures = figures_of(&set, &entries);
        if figures.len() as u64 > room {
            return refuse(20, 0);
        }
        Ok((figures, bytes.len() - behind.len()))
    }

    /// The lines that the report program writes.
    pub fn report(&self, bytes: &[u8]) -> Vec<String> {
        let mut lines = Vec::new();
        let mut rest = bytes;
        for reported in 0.. {
            match self.next_figures(rest, reported) {
                Ok((figures, used)) => {
                    lines.extend(figures.iter().map(i64::to_string));
                    rest = &rest[used..];
                }
                Err(refusal) => {
                    lines.push(self.refusal_text(refusal, rest));
                    break;
                }
            }
            if rest.is_empty() {
                break;
            }
        }
        lines
    }

    /// The figures of the next image behind so many: 20 where there may be no other, or where its
    /// framing goes on behind the most bytes and there are more.
    fn next_figures(&self, rest: &[u8], reported: usize) -> Result<(Vec<i64>, usize), Refusal> {
        if reported == MOST_IMAGES {
            return refuse(20, 0);
        }
        let Some(front) = rest.get(..LONGEST_REPORTED) else {
            return self.figures(rest, u64::MAX);
        };
        let more = rest.len() > front.len();
        match self.figures(front, u64::MAX) {
            Err(Refusal { number: 1, .. }) if more => refuse(20, 0),
            answer => answer,
        }
    }
}
