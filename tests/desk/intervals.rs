//! Intervals: where the desk program shows them, they are as many as the archive's capacities, they are the whole
//! cycle in turn, and each capacity is what document 02 makes of the interval's length and jobs.

use crate::axes::Axis;
use crate::demand;
use crate::records::Set;
use std::collections::BTreeMap;

pub fn hold(image: &[u8], set: &Set, axis: &Axis) {
    let (ticks, others) = axis.figures.split_at(3);
    let (lateness, capacities) = others.split_at(set.tasks.len());
    let shown = [axis.busy, axis.forced, axis.other].map(|count| count as i64);
    let all = ticks.iter().sum::<i64>() == axis.ticks as i64;
    demand(shown == ticks && all, image, "other ticks are shown");
    demand(
        axis.lateness == lateness,
        image,
        "another lateness is shown",
    );
    let bounds: Vec<(u64, u64)> = axis.intervals.iter().map(|i| (i.from, i.to)).collect();
    demand(
        bounds.len() == capacities.len(),
        image,
        "there are other intervals than capacities",
    );
    let mut end = 0;
    for (from, to) in &bounds {
        demand(*from == end && from < to, image, "an interval is elsewhere");
        end = *to;
    }
    demand(end == set.hyperperiod, image, "the cycle ends elsewhere");
    let declared = declared(set);
    let mut next = 0;
    for (interval, capacity) in axis.intervals.iter().zip(capacities).rev() {
        let length = (interval.to - interval.from) as i64;
        let times = declared.get(&interval.to).copied().unwrap_or(0) as i64;
        next = length - times + next.min(0);
        let held = [*capacity, interval.capacity] == [next; 2];
        demand(held, image, "an interval has another capacity");
    }
    let above: i64 = capacities.iter().filter(|capacity| **capacity > 0).sum();
    let idle = (axis.forced + axis.other) as i64;
    demand(
        next >= 0 && above == idle,
        image,
        "the first capacity is below 0, or what is to spare is not what idles",
    );
    hold_chosen(image, axis);
}

/// Of each deadline the declared times of the jobs that are due then.
fn declared(set: &Set) -> BTreeMap<u64, u64> {
    let mut declared = BTreeMap::new();
    for (task, of) in set.tasks.iter().enumerate() {
        for job in 0..set.jobs_of(task) {
            *declared.entry(set.due(task, job)).or_default() += of.time;
        }
    }
    declared
}

/// The interval and the task that are named in the table: none is busier, none worse, and none before it as much.
fn hold_chosen(image: &[u8], axis: &Axis) {
    let busiest = axis.busiest();
    let held = axis.intervals.iter().all(|other| {
        other.capacity > busiest.capacity
            || other.capacity == busiest.capacity && other.from >= busiest.from
    });
    demand(held, image, "another interval is the busiest");
    let (worst, lateness) = axis.worst();
    let mut tasks = axis.lateness.iter().enumerate();
    let held = axis.lateness[worst] == lateness
        && tasks.all(|(task, other)| *other < lateness || *other == lateness && task >= worst);
    demand(held, image, "another task is the worst");
    let (busy, cycle) = (axis.busy_per_mille() * axis.ticks, axis.busy * 1_000);
    demand(
        2 * busy.abs_diff(cycle) <= axis.ticks,
        image,
        "another share is busy",
    );
}
