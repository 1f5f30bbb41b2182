//! The dispatcher written for speed, its state changed in place. Every call judges the set and the
//! state anew, and every decision reads the records at all current offsets and tests their ranges.

use super::{
    common_multiple, four, key_and_delay, replay, tables_of, Refusal, EN, ID, ID_MARK,
    MOST_HYPERPERIOD, MOST_JOBS, PV, PV_MARK, SLOTS, TK, TS,
};
use crate::archive::{AT_START, CYCLE, NEXT, NOW, NUMBERS, RUNNING, TASKS};

/// A state: its numbers in the order of the archive's record, and where its parts begin in it.
pub type State = [u32; NUMBERS];

/// A start: task, job, cycle and absolute time.
pub type Start = [u64; 4];

/// The release of a task that has no job left.
const NEVER: u32 = u32::MAX;

/// Begins with a table image.
#[inline(never)]
pub fn begin(state: &mut State, image: &[u8]) -> Result<Start, Refusal> {
    state.fill(0);
    let tables = tables_of(image)?;
    replay(&tables, |_, _, _| {})?;
    let n = tables.jobs.n;
    state[0] = n as u32;
    for (i, number) in state[TASKS..][..4 * n].iter_mut().enumerate() {
        *number = four(image, TS + TK * (i / 4) + 2 + 4 * (i % 4));
    }
    for first in [NOW, AT_START] {
        state[first] = tables.ids as u32;
        for (slot, offset) in state[first + 1..][..n].iter_mut().enumerate() {
            *offset = tables.of_task[slot] as u32;
        }
    }
    let start = Cycle::of(state).and_then(|cycle| cycle.next_start(state, image, 0));
    Ok(start.expect("an accepted image has a first start"))
}

/// Goes on, with the reported end; gives back the number of a refusal.
#[inline(never)]
pub fn go_on(state: &mut State, image: &[u8], end: u64) -> Result<Start, u32> {
    if state[0] == 0 && state.iter().all(|number| *number == 0) {
        return Err(23);
    }
    let Some(mut cycle) = Cycle::of(state) else {
        return stop(state, 25);
    };
    let Some((start, time)) = cycle.running(state) else {
        return stop(state, 25);
    };
    let absolute = cycle.absolute(state[CYCLE], start);
    if end < absolute {
        return Err(21);
    }
    if end - absolute > u64::from(time) {
        return stop(state, 22);
    }
    let mut free = start + time;
    if cycle.least == NEVER {
        if state[CYCLE] == u32::MAX {
            return Err(24);
        }
        cycle.begin_next(state);
        free = 0;
    }
    match cycle.next_start(state, image, free) {
        Some(start) => Ok(start),
        None => stop(state, 25),
    }
}

#[cold]
fn stop(state: &mut State, number: u32) -> Result<Start, u32> {
    state.fill(0);
    Err(number)
}

/// O, C, T and D of a slot.
#[inline(always)]
fn task_of(state: &State, slot: usize) -> [u32; 4] {
    let at = TASKS + 4 * (slot % SLOTS);
    [state[at], state[at + 1], state[at + 2], state[at + 3]]
}

/// What a state's set and next jobs come to: the hyperperiod, for each task its jobs in a cycle,
/// how long a job may wait and the release of its next one, and the least of these.
struct Cycle {
    n: usize,
    hyperperiod: u32,
    jobs: [u32; SLOTS],
    slack: [u32; SLOTS],
    release: [u32; SLOTS],
    least: u32,
}

impl Cycle {
    /// The cycle of a state whose set is good and whose next job numbers are not too high.
    #[inline(always)]
    fn of(state: &State) -> Option<Cycle> {
        let n = state[0] as usize;
        if n < 1 || n > SLOTS {
            return None;
        }
        let mut cycle = Cycle {
            n,
            hyperperiod: hyperperiod(state, n)?,
            jobs: [0; SLOTS],
            slack: [0; SLOTS],
            release: [NEVER; SLOTS],
            least: NEVER,
        };
        let (mut all, mut before, mut jobs) = (0, 0, 0);
        for slot in 0..n {
            let [offset, time, period, deadline] = task_of(state, slot);
            if period != before {
                jobs = cycle.hyperperiod / period;
                before = period;
            }
            let next = state[NEXT + slot];
            if next > jobs {
                return None;
            }
            all += jobs;
            cycle.jobs[slot] = jobs;
            cycle.slack[slot] = deadline - time;
            if next < jobs {
                cycle.release[slot] = offset + next * period;
                cycle.least = cycle.least.min(cycle.release[slot]);
            }
        }
        (all <= MOST_JOBS).then_some(cycle)
    }

    /// The running job's start and time; none where the job is impossible.
    #[inline(always)]
    fn running(&self, state: &State) -> Option<(u32, u32)> {
        let [task, job, start] = [state[RUNNING], state[RUNNING + 1], state[RUNNING + 2]];
        if task >= self.n as u32 {
            return None;
        }
        let slot = task as usize % SLOTS;
        if state[NEXT + slot].checked_sub(1) != Some(job) {
            return None;
        }
        let [offset, time, period, _] = task_of(state, slot);
        let waited = start.checked_sub(offset + job * period)?;
        (waited <= self.slack[slot]).then_some((start, time))
    }

    /// Brings a state in which all jobs have started to the next cycle.
    fn begin_next(&mut self, state: &mut State) {
        state[CYCLE] += 1;
        state.copy_within(AT_START..AT_START + 1 + self.n, NOW);
        state[NEXT..][..self.n].fill(0);
        for slot in 0..self.n {
            self.release[slot] = task_of(state, slot)[0];
            self.least = self.least.min(self.release[slot]);
        }
    }

    #[inline(always)]
    fn absolute(&self, cycle: u32, instant: u32) -> u64 {
        u64::from(cycle) * u64::from(self.hyperperiod) + u64::from(instant)
    }

    /// The next start from a free instant on, entered in the state; none for impossible bytes.
    #[inline(always)]
    fn next_start(&self, state: &mut State, image: &[u8], free: u32) -> Option<Start> {
        let image = &image[..image.len().min(u32::MAX as usize)];
        let mut instant = free.max(self.least);
        loop {
            let idle = self.idle_at(image, state[NOW])?;
            let (waiting, due, own) = self.choices(state, image, instant)?;
            if let Some((_, length)) = idle.filter(|(start, _)| *start == instant) {
                state[NOW] += ID as u32;
                instant += length;
                continue;
            }
            let chosen = if due != 0 { due } else { waiting };
            let slot = chosen.trailing_zeros() as usize % SLOTS;
            if instant - self.release[slot] > self.slack[slot] {
                return None;
            }
            if own >> slot & 1 != 0 {
                state[NOW + 1 + slot] += PV as u32;
            }
            let job = state[NEXT + slot];
            state[NEXT + slot] = job + 1;
            state[RUNNING..][..3].copy_from_slice(&[slot as u32, job, instant]);
            let cycle = state[CYCLE];
            let time = self.absolute(cycle, instant);
            return Some([slot as u64, u64::from(job), u64::from(cycle), time]);
        }
    }

    /// The tasks that wait, those whose own PV is for this instant, and those at whose offset their
    /// own PV is, one bit for each; none for impossible bytes.
    #[inline(always)]
    fn choices(&self, state: &State, image: &[u8], instant: u32) -> Option<(u32, u32, u32)> {
        let (mut waiting, mut due, mut own) = (0, 0, 0);
        for slot in 0..self.n.min(SLOTS) {
            let release = self.release[slot];
            waiting |= u32::from(release <= instant) << slot;
            if let Some((key, delay)) = self.inversion_at(image, state[NOW + 1 + slot])? {
                let wanted = (slot as u64) << 16 | u64::from(state[NEXT + slot]);
                let of_next = key == PV_MARK << 24 | wanted;
                own |= u32::from(of_next) << slot;
                due |= u32::from(of_next & (release.wrapping_add(delay) == instant)) << slot;
            }
        }
        Some((waiting, due, own))
    }

    /// The mark, the task and the job of the PV at an offset as one number, and its delay; none
    /// where EN is. The outer none is for impossible bytes.
    #[inline(always)]
    fn inversion_at(&self, image: &[u8], at: u32) -> Option<Option<(u64, u32)>> {
        let (key, delay) = record_at::<PV>(image, at).map_or((0, 0), key_and_delay);
        if key >> 24 != PV_MARK {
            let en = record_at::<EN>(image, at)?;
            return en.starts_with(b"EN").then_some(None);
        }
        let (task, job) = (key as usize >> 16 & 0xFF, key as u32 & 0xFFFF);
        let slot = task % SLOTS;
        let ranged = (task < self.n) & (job < self.jobs[slot]) & (delay <= self.slack[slot]);
        ranged.then_some(Some((key, delay)))
    }

    /// Start and length of the idle at the ID offset, if one is left; the outer none is for
    /// impossible bytes.
    #[inline(always)]
    fn idle_at(&self, image: &[u8], at: u32) -> Option<Option<(u32, u32)>> {
        let word = record_at::<ID>(image, at).map_or(0, |id| u64::from_be_bytes(*id));
        if word >> 48 == ID_MARK {
            let (start, length) = (word >> 16 & 0xFFFF_FFFF, word & 0xFFFF);
            let ranged = length >= 1 && start + length < u64::from(self.hyperperiod);
            return ranged.then_some(Some((start as u32, length as u32)));
        }
        self.inversion_at(image, at).map(|_| None)
    }
}

/// The least common multiple of the periods of a good set, if it is not too long.
#[inline(always)]
fn hyperperiod(state: &State, n: usize) -> Option<u32> {
    let mut multiple = task_of(state, n - 1)[2];
    let mut after = multiple;
    for slot in (0..n).rev() {
        let [offset, time, period, deadline] = task_of(state, slot);
        let own = time >= 1 && time <= deadline && deadline <= period;
        if !own || offset > period - deadline || period > after {
            return None;
        }
        if period != after {
            multiple = common_multiple(multiple, period);
            after = period;
        }
    }
    (multiple <= MOST_HYPERPERIOD).then_some(multiple)
}

/// The L bytes at an offset.
#[inline(always)]
fn record_at<const L: usize>(image: &[u8], at: u32) -> Option<&[u8; L]> {
    image.get(at as usize..)?.first_chunk()
}
