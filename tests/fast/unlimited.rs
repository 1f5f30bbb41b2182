//! Checking a table image without the archive's limits: framing and rules as above, then a replay
//! over records that are decoded before it, with what a decision needs kept at hand.

use super::{at_task, key_and_delay, no_record, refuse, tables_of, Refusal, Tables, ID, PV, SLOTS};

/// No job is left, or no start is asked for.
const NEVER: u32 = u32::MAX;

/// Checks a table image.
#[inline(never)]
pub fn check_tables(image: &[u8]) -> Result<(), Refusal> {
    let tables = tables_of(image)?;
    let (idles, starts, first) = decoded(&tables);
    let (n, jobs) = (tables.jobs.n, &tables.jobs);
    let mut next = first;
    let mut release = jobs.tasks.map(|task| task.release);
    let mut asked: [u32; SLOTS] = std::array::from_fn(|slot| starts[first[slot]]);
    let (mut free, mut used, mut useless) = (0, 0, usize::MAX);
    for started in 0..jobs.all {
        let least = release[..n].iter().fold(NEVER, |least, r| least.min(*r));
        let mut instant = least.max(free);
        if idles[used].0 == instant {
            instant = idles[used].1;
            used += 1;
        }
        let lowest = release[..n].iter().position(|r| *r <= instant).unwrap_or(0);
        let inverted = asked[..n].iter().position(|start| *start == instant);
        let slot = inverted.unwrap_or(lowest);
        let task = &jobs.tasks[slot];
        if instant - release[slot] > task.slack {
            return refuse(18, no_record(started));
        }
        if asked[slot] != NEVER && slot == lowest {
            useless = useless.min(next[slot]);
        }
        next[slot] += 1;
        let last = next[slot] == first[slot] + (jobs.hyperperiod / task.period) as usize;
        (release[slot], asked[slot]) = if last {
            (NEVER, NEVER)
        } else {
            (release[slot] + task.period, starts[next[slot]])
        };
        free = instant + task.time;
    }
    let behind_used = at_task(n).behind(used, ID);
    if used + 1 < idles.len() {
        return refuse(19, behind_used);
    }
    if useless < starts.len() {
        let before = starts[..useless].iter().filter(|start| **start != NEVER);
        return refuse(19, behind_used.behind(before.count(), PV));
    }
    Ok(())
}

/// The idles as start and end, with one that never starts behind them; for every job the start that
/// its PV asks for, one task's behind the other's; and where each task's jobs begin.
fn decoded(tables: &Tables) -> (Vec<(u32, u32)>, Vec<u32>, [usize; SLOTS]) {
    let jobs = &tables.jobs;
    let mut all = 0;
    let first = jobs.tasks.map(|task| {
        let first = all;
        all += jobs.hyperperiod.checked_div(task.period).unwrap_or(0) as usize;
        first
    });
    let mut idles = Vec::with_capacity((tables.pvs - tables.ids) / ID + 1);
    let mut rest = &tables.image[tables.ids..tables.pvs];
    while let Some((id, behind)) = rest.split_first_chunk::<ID>() {
        let word = u64::from_be_bytes(*id);
        let start = (word >> 16) as u32;
        idles.push((start, start + (word as u32 & 0xFFFF)));
        rest = behind;
    }
    idles.push((NEVER, 0));
    let mut starts = vec![NEVER; all + 1];
    rest = &tables.image[tables.pvs..];
    while let Some((pv, behind)) = rest.split_first_chunk::<PV>() {
        let (key, delay) = key_and_delay(pv);
        let (slot, job) = ((key >> 16) as usize % SLOTS, key as u16);
        let release = jobs.tasks[slot].release + u32::from(job) * jobs.tasks[slot].period;
        starts[first[slot] + usize::from(job)] = release + delay;
        rest = behind;
    }
    (idles, starts, first)
}
