//! The figures written for speed: one replay for the lateness, sums for the ticks, and a walk over the
//! deadlines for the intervals.

use super::{
    idle_length, no_record, refuse, replay, tables_of, whole, Jobs, Refusal, Tables, EN, ID, PV,
    SLOTS, TK, TS,
};

/// Stores the figures of the table image at the front; gives back how many they are and how many bytes it
/// has.
#[inline(never)]
pub fn figures(images: &[u8], out: &mut [i64]) -> Result<(usize, usize), Refusal> {
    let image = front(images);
    let tables = tables_of(image)?;
    let mut waited = [0; SLOTS];
    replay(&tables, |slot, _, long| {
        waited[slot] = long.max(waited[slot])
    })?;
    let jobs = &tables.jobs;
    let head = 3 + jobs.n;
    if out.len() < head + 2 * jobs.all + 1 {
        let mut count = head;
        intervals(jobs, |_| count += 1);
        if out.len() < count {
            return refuse(20, no_record(0));
        }
    }
    out[..3].copy_from_slice(&ticks(&tables).map(i64::from));
    for slot in 0..jobs.n {
        out[3 + slot] = i64::from(waited[slot]) - i64::from(jobs.tasks[slot].slack);
    }
    let mut count = head;
    intervals(jobs, |spare| {
        out[count] = spare;
        count += 1;
    });
    let mut lacking = 0;
    for capacity in out[head..count].iter_mut().rev() {
        *capacity += lacking;
        lacking = (*capacity).min(0);
    }
    Ok((count, image.len()))
}

/// The image at the front, up to the EN that stands where one may; where none does, all bytes, which are
/// refused before that.
fn front(images: &[u8]) -> &[u8] {
    let n = images.get(4).map_or(0, |n| usize::from(*n));
    let Some(records) = images.get(TS + TK * n..) else {
        return images;
    };
    let ids = ID * whole::<ID>(records, b"ID");
    let behind = &records[ids..];
    let pvs = PV * whole::<PV>(behind, b"PV");
    if !behind[pvs..].starts_with(b"EN") {
        return images;
    }
    let end = TS + TK * n + ids + pvs + EN;
    images.get(..end).unwrap_or(images)
}

/// Busy ticks, forced idle and other idle: every job runs once, and every forced idle has its ID.
fn ticks(tables: &Tables) -> [u32; 3] {
    let jobs = &tables.jobs;
    let tasks = jobs.tasks[..jobs.n].iter();
    let busy = tasks
        .map(|task| jobs.hyperperiod / task.period * task.time)
        .sum();
    let ids = tables.image[tables.ids..tables.pvs].chunks_exact(ID);
    let forced = ids.map(idle_length).sum();
    [busy, forced, jobs.hyperperiod - busy - forced]
}

/// Calls `each` for every interval with its length less the declared times of its jobs.
#[inline(always)]
fn intervals(jobs: &Jobs, mut each: impl FnMut(i64)) {
    let tasks = &jobs.tasks[..jobs.n];
    let mut due = jobs
        .tasks
        .map(|task| task.release + (task.slack + task.time));
    let due = &mut due[..jobs.n];
    let mut end = 0;
    loop {
        let next = due.iter().fold(u32::MAX, |least, due| least.min(*due));
        if next > jobs.hyperperiod {
            break;
        }
        let (mut earliest, mut times) = (next, 0);
        for (due, task) in due.iter_mut().zip(tasks) {
            if *due == next {
                earliest = earliest.min(next - (task.slack + task.time));
                times += task.time;
                *due += task.period;
            }
        }
        if earliest > end {
            each(i64::from(earliest - end));
            end = earliest;
        }
        each(i64::from(next - end) - i64::from(times));
        end = next;
    }
    if end < jobs.hyperperiod {
        each(i64::from(jobs.hyperperiod - end));
    }
}
