//! The replay of tables, once more in plain code and for display alone: which job an archive's 18 found
//! late, and which records its 19 found without effect.

use crate::records::{Body, Image, Job, Set};
use std::collections::BTreeSet;

pub struct Replay {
    /// The jobs that start in time.
    pub starts: Vec<Job>,
    /// The job that would be late; nothing is replayed behind it.
    pub late: Option<Job>,
    /// The last thing before the end of the replay, where it is a forced idle: its record's index.
    pub idle_before_end: Option<usize>,
    /// The indices of the ID records that were used and of the PV records whose jobs started as inversions.
    pub effective: BTreeSet<usize>,
}

/// An ID or a PV with its record's index.
struct Idle {
    index: usize,
    start: u64,
    length: u64,
}

struct Inversion {
    index: usize,
    task: usize,
    job: u64,
    delay: u64,
}

/// Replays the tables of an image whose set and records keep their rules.
pub fn replay(set: &Set, image: &Image) -> Replay {
    let (idles, inversions) = tables(image);
    let mut idles = idles.iter().peekable();
    let mut next = vec![0; set.tasks.len()];
    let mut free = 0;
    let mut told = Replay {
        starts: Vec::new(),
        late: None,
        idle_before_end: None,
        effective: BTreeSet::new(),
    };
    while let Some(release) = least_release(set, &next) {
        let instant = release.max(free);
        if let Some(idle) = idles.next_if(|idle| idle.start == instant) {
            free = instant + idle.length;
            told.idle_before_end = Some(idle.index);
            told.effective.insert(idle.index);
            continue;
        }
        let record = inversion_at(set, &inversions, &next, instant);
        let lowest = (0..set.tasks.len()).find(|&task| waits(set, &next, task, instant));
        let Some(task) = record.map(|pv| pv.task).or(lowest) else {
            break;
        };
        let job = Job {
            task,
            job: next[task],
            start: instant,
        };
        free = set.end(&job);
        if free > set.due(task, job.job) {
            told.late = Some(job);
            break;
        }
        if let Some(pv) = record.filter(|pv| lowest.is_some_and(|lowest| lowest < pv.task)) {
            told.effective.insert(pv.index);
        }
        told.idle_before_end = None;
        told.starts.push(job);
        next[task] += 1;
    }
    told
}

fn tables(image: &Image) -> (Vec<Idle>, Vec<Inversion>) {
    let (mut idles, mut inversions) = (Vec::new(), Vec::new());
    for record in &image.records {
        let index = record.index;
        match record.body {
            Body::Id { start, length } => idles.push(Idle {
                index,
                start,
                length,
            }),
            Body::Pv { task, job, delay } => inversions.push(Inversion {
                index,
                task: task as usize,
                job,
                delay,
            }),
            _ => {}
        }
    }
    (idles, inversions)
}

fn least_release(set: &Set, next: &[u64]) -> Option<u64> {
    let left = (0..set.tasks.len()).filter(|&task| next[task] < set.jobs_of(task));
    left.map(|task| set.release(task, next[task])).min()
}

fn waits(set: &Set, next: &[u64], task: usize, instant: u64) -> bool {
    next[task] < set.jobs_of(task) && set.release(task, next[task]) <= instant
}

/// The record of the lowest task whose next job has one with release + delay at the instant.
fn inversion_at<'a>(
    set: &Set,
    inversions: &'a [Inversion],
    next: &[u64],
    instant: u64,
) -> Option<&'a Inversion> {
    (0..set.tasks.len()).find_map(|task| {
        // The records stand in the order of their pairs.
        let pair = (task, next[task]);
        let at = inversions.binary_search_by_key(&pair, |pv| (pv.task, pv.job));
        let pv = &inversions[at.ok()?];
        (set.release(task, pv.job) + pv.delay == instant).then_some(pv)
    })
}
