//! An axis of a machine: the figures of its table image, which are the archive's, and where the intervals of its
//! cycle begin and end, which is worked out here for display alone.

use crate::archive::{figures, Refusal};
use crate::records::{decode, Set};
use std::cmp::Reverse;
use std::collections::BTreeMap;

/// An interval of the cycle with its spare capacity.
#[derive(Clone, Copy)]
pub struct Interval {
    pub from: u64,
    pub to: u64,
    pub capacity: i64,
}

pub struct Axis {
    /// All figures in the archive's order.
    pub figures: Vec<i64>,
    /// The bytes of the image.
    pub length: usize,
    /// The length of a cycle.
    pub ticks: u64,
    pub busy: u64,
    pub forced: u64,
    pub other: u64,
    /// Of each task the lateness of its worst job, at most 0.
    pub lateness: Vec<i64>,
    pub intervals: Vec<Interval>,
}

impl Axis {
    /// The axis of the table image at the front of a line.
    pub fn at_front(images: &[u8]) -> Result<Axis, Refusal> {
        let (figures, length) = figures(images)?;
        let set = Set::of_accepted(&decode(&images[..length]));
        let (ticks, others) = figures.split_at(3);
        let (lateness, capacities) = others.split_at(set.tasks.len());
        let interval = |((from, to), &capacity)| Interval { from, to, capacity };
        let [busy, forced, other] = [0, 1, 2].map(|index| ticks[index] as u64);
        Ok(Axis {
            length,
            ticks: set.hyperperiod,
            busy,
            forced,
            other,
            lateness: lateness.to_vec(),
            intervals: stretches(&set)
                .into_iter()
                .zip(capacities)
                .map(interval)
                .collect(),
            figures,
        })
    }

    /// The axis of a table image that the archive accepted.
    pub fn of_accepted(tables: &[u8]) -> Axis {
        Axis::at_front(tables).expect("an accepted image has figures")
    }

    /// The task whose worst job ends nearest to its deadline, the lowest of several, and its lateness.
    pub fn worst(&self) -> (usize, i64) {
        let tasks = self.lateness.iter().copied().enumerate();
        let worst = tasks.min_by_key(|(_, lateness)| Reverse(*lateness));
        worst.expect("a set has a task")
    }

    /// The interval with the smallest capacity, the first of several.
    pub fn busiest(&self) -> Interval {
        let intervals = self.intervals.iter().copied();
        let busiest = intervals.min_by_key(|interval| interval.capacity);
        busiest.expect("a cycle has an interval")
    }

    /// Busy ticks in a thousand, to the nearest.
    pub fn busy_per_mille(&self) -> u64 {
        (self.busy * 1_000 + self.ticks / 2) / self.ticks
    }
}

/// Where the intervals of a cycle begin and end: one ends at each deadline and begins at the later of the least
/// release of the jobs due then and the end of the one before; what is left of the cycle are intervals too.
pub fn stretches(set: &Set) -> Vec<(u64, u64)> {
    let mut dues = BTreeMap::new();
    for task in 0..set.tasks.len() {
        for job in 0..set.jobs_of(task) {
            let release = set.release(task, job);
            let least = dues.entry(set.due(task, job)).or_insert(release);
            *least = release.min(*least);
        }
    }
    let bounds = dues.into_iter().flat_map(|(due, release)| [release, due]);
    let mut found = Vec::new();
    let mut end = 0;
    for bound in bounds.chain([set.hyperperiod]) {
        if end < bound {
            found.push((end, bound));
            end = bound;
        }
    }
    found
}
