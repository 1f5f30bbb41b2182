//! Random calls of going on: states reached by dispatching, damaged ones, arbitrary ones, and
//! bytes that were never accepted.

use crate::cases::random_tables;
use crate::chance::Chance;
use crate::damage::{change_byte, id, pv, random_record, ranged_idle, ranged_inversion};
use crate::dispatcher::{Offsets, Running, State, CYCLE, LAST_CYCLE, NUMBERS, SLOTS};
use crate::independent::{
    encode, instant_with_waiting, record_length, Idle, Mark, Record, Set, TODAY,
};
use crate::sets::{bad_tasks, good_set};

const MOST_STEPS: u64 = 100;

/// The numbers of a state that are of no slot: n, the cycle, the running job's three, the ID offset.
const OF_NO_SLOT: [usize; 6] = [0, CYCLE, CYCLE + 1, CYCLE + 2, CYCLE + 3, CYCLE + 4];

/// A call of going on.
pub struct Ride {
    pub image: Vec<u8>,
    pub state: State,
    pub end: u64,
}

/// A call that probably gives this number; 0 stands for a start.
pub fn ride(chance: &mut Chance, number: u64) -> Ride {
    let mut ride = if chance.one_in(3) {
        arbitrary(chance)
    } else {
        reached(chance, number == 24)
    };
    if chance.one_in(4) {
        fill_slots_above(chance, &mut ride.state);
    }
    match number {
        23 => ride.state = State::default(),
        24 => ride.state.cycle = LAST_CYCLE,
        _ if chance.one_in(4) => {
            ride.state.cycle = chance.pick(&[LAST_CYCLE, LAST_CYCLE - 1, LAST_CYCLE / 2, 1]);
        }
        _ => {}
    }
    let aim = match number {
        0 | 24 | 25 if chance.one_in(15) => chance.pick(&[21, 22]),
        number => number,
    };
    ride.end = reported_end(chance, &ride.state, aim);
    if number == 25 || chance.one_in(20) {
        damage(chance, &mut ride);
    }
    ride.state = within_32_bits(&ride.state);
    ride
}

/// The state with every number cut down to the largest of 32 bits.
fn within_32_bits(state: &State) -> State {
    let numbers = state.numbers();
    State::from_numbers(&numbers.map(|number| number.min(u64::from(u32::MAX))))
}

/// A state reached from the beginning of an accepted image; at a cycle's last start if wanted.
fn reached(chance: &mut Chance, last: bool) -> Ride {
    let (set, image) = random_tables(chance);
    let jobs = set.all_jobs();
    let steps = if last || chance.one_in(4) {
        jobs
    } else {
        chance.between(1, (4 * jobs + 1).min(MOST_STEPS))
    };
    let mut step = TODAY.begin(&image);
    for _ in 1..steps {
        let start = step.1.expect("an accepted image goes on");
        let end = start.time + set.tasks[start.task as usize].time;
        step = TODAY.go_on(&image, &step.0, end);
    }
    Ride {
        image,
        state: step.0,
        end: 0,
    }
}

/// The absolute start of the running job and the latest end, where the state has such.
fn running_times(state: &State) -> Option<(u64, u64)> {
    let set = TODAY.judge_set(state.n, &state.tasks).ok()?;
    let task = set.tasks.get(state.running.task as usize)?;
    let start = state.cycle * set.hyperperiod + state.running.start;
    Some((start, start + task.time))
}

/// An end that is honest, or before the start for 21, or late for 22.
pub fn reported_end(chance: &mut Chance, state: &State, number: u64) -> u64 {
    let Some((start, latest)) = running_times(state) else {
        return chance.field();
    };
    let before = start.saturating_sub(1);
    match number {
        21 => chance.pick(&[before, before, before / 2, 0]),
        22 => chance.pick(&[
            latest + 1,
            latest + 1,
            latest + 1_000,
            u64::MAX,
            latest + (1 << 32),
        ]),
        _ => chance.pick(&[latest, latest, start, (start + latest) / 2]),
    }
}

/// Sets numbers in slots from n up, of tasks, next jobs and offsets.
fn fill_slots_above(chance: &mut Chance, state: &mut State) {
    for _ in 0..chance.between(1, 5) {
        let first = (state.n as usize).min(SLOTS - 1);
        let slot = chance.between(first as u64, SLOTS as u64 - 1) as usize;
        if (slot as u64) < state.n {
            return;
        }
        match chance.below(5) {
            0 => state.tasks[slot].period = chance.field(),
            1 => state.tasks[slot].time = chance.field(),
            2 => state.next[slot] = chance.field(),
            3 => state.now.inversions[slot] = chance.field(),
            _ => state.at_start.inversions[slot] = chance.field(),
        }
    }
}

// ---- Damage ----

/// Damages the state or the bytes, so that 25 becomes likely.
fn damage(chance: &mut Chance, ride: &mut Ride) {
    match chance.below(25) {
        0..=2 => change_number(chance, &mut ride.state),
        3 | 4 => damage_set(chance, &mut ride.state),
        5..=8 => damage_running(chance, &mut ride.state),
        9 | 10 => damage_next(chance, &mut ride.state),
        11..=14 => move_offset(chance, ride),
        15..=20 => spoil_record(chance, ride),
        21 => change_byte(chance, &mut ride.image),
        22 => ride.state = State::from_numbers(&std::array::from_fn(|_| chance.field())),
        23 => ride.state = nearly_stopped(chance),
        _ => {
            let length = chance.index(ride.image.len() + 1);
            ride.image.truncate(length);
        }
    }
}

/// The stopped state but for one number.
fn nearly_stopped(chance: &mut Chance) -> State {
    let mut numbers = [0; NUMBERS];
    numbers[chance.index(NUMBERS)] = chance.field();
    State::from_numbers(&numbers)
}

/// Changes one number of the state, whichever; one way keeps its lower bits.
pub fn change_number(chance: &mut Chance, state: &mut State) {
    let mut numbers = state.numbers();
    let at = if chance.one_in(3) {
        chance.pick(&OF_NO_SLOT)
    } else {
        chance.index(NUMBERS)
    };
    numbers[at] = match chance.below(5) {
        0 | 1 => chance.field(),
        2 | 3 => chance.near(numbers[at]),
        _ => numbers[at] ^ chance.pick(&[1 << 8, 1 << 16, 1 << 31]),
    };
    *state = State::from_numbers(&numbers);
}

fn damage_set(chance: &mut Chance, state: &mut State) {
    let number = chance.between(5, 9);
    let used = (state.n as usize).min(SLOTS);
    let (n, tasks) = bad_tasks(chance, &state.tasks[..used.max(1)], number);
    state.n = n;
    for (slot, task) in tasks.iter().enumerate().take(SLOTS) {
        state.tasks[slot] = *task;
    }
}

fn damage_running(chance: &mut Chance, state: &mut State) {
    let slot = (state.running.task as usize).min(SLOTS - 1);
    let task = state.tasks[slot];
    let release = task.offset + state.running.job * task.period;
    let other = (state.running.task + 1) % state.n.max(1);
    match chance.below(7) {
        0 => state.running.task = chance.pick(&[state.n, 16, 255, other]),
        1 => state.running.job = chance.near(state.running.job),
        2 => state.running.start = release.saturating_sub(1),
        5 | 6 => run_the_job_before(state, task.period),
        3 => state.running.start = (release + task.deadline - task.time.min(task.deadline)) + 1,
        _ => state.running.start = chance.field(),
    }
}

/// Makes the job before the running one the running one, at the same place of its own period.
fn run_the_job_before(state: &mut State, period: u64) {
    if state.running.job > 0 && state.running.start >= period {
        state.running.job -= 1;
        state.running.start -= period;
    }
}

fn damage_next(chance: &mut Chance, state: &mut State) {
    let Ok(set) = TODAY.judge_set(state.n, &state.tasks) else {
        return;
    };
    let task = chance.index(set.tasks.len());
    let above = set.jobs(task) + 1;
    state.next[task] = chance.pick(&[0, 1, above - 1, above, above, 4_294_967_295]);
}

/// Moves an offset, now or as at a cycle's start, to another record, near its place or anywhere.
fn move_offset(chance: &mut Chance, ride: &mut Ride) {
    let slot = chance.index((ride.state.n as usize).clamp(1, SLOTS));
    let first = ride.state.at_start.idle;
    let of_idle = chance.one_in(2);
    let at_start = chance.one_in(4);
    let state = &mut ride.state;
    let offsets = if at_start {
        &mut state.at_start
    } else {
        &mut state.now
    };
    let offset = if of_idle {
        &mut offsets.idle
    } else {
        &mut offsets.inversions[slot]
    };
    *offset = match chance.below(4) {
        0 => first,
        _ => other_offset(chance, *offset, ride.image.len() as u64),
    };
}

/// An offset other than the given one, mostly, in or about an image of this length.
fn other_offset(chance: &mut Chance, offset: u64, length: u64) -> u64 {
    let mark = chance.pick(&[Mark::Id, Mark::Pv, Mark::Tk, Mark::En]);
    let moved = record_length(mark) as u64;
    match chance.below(9) {
        0 => chance.near(offset),
        1 => length.saturating_sub(6),
        2 => length.saturating_sub(chance.below(8)),
        3 => length + chance.below(3),
        4 => chance.field(),
        5 => chance.below(length + 1),
        6 | 7 => offset + moved,
        _ => offset.saturating_sub(moved),
    }
}

/// Puts a record at the edge of its range, or one that does not belong there, at an offset that
/// is read.
fn spoil_record(chance: &mut Chance, ride: &mut Ride) {
    let Ok(set) = TODAY.judge_set(ride.state.n, &ride.state.tasks) else {
        return;
    };
    let all = (0..set.tasks.len()).all(|task| ride.state.next[task] == set.jobs(task));
    let offsets = if all {
        ride.state.at_start
    } else {
        ride.state.now
    };
    let slot = chance.index(set.tasks.len());
    let at = if chance.one_in(2) {
        offsets.idle
    } else {
        offsets.inversions[slot]
    };
    let bytes = encode(&[edge_record(chance, &set)]);
    for (i, byte) in bytes.iter().enumerate() {
        match ride.image.get_mut(at as usize + i) {
            Some(old) => *old = *byte,
            None => ride.image.push(*byte),
        }
    }
}

/// A record just inside or just outside its own range, or any other.
fn edge_record(chance: &mut Chance, set: &Set) -> Record {
    let task = chance.index(set.tasks.len());
    let jobs = set.jobs(task);
    let most = set.tasks[task].deadline - set.tasks[task].time;
    let start = chance.below(set.hyperperiod);
    let left = set.hyperperiod - start;
    match chance.below(8) {
        0 => id(start, 0),
        1 => id(start, left),
        2 => id(start, left - 1),
        3 => pv(set.tasks.len(), 0, 0),
        4 => pv(task, jobs, 0),
        5 => pv(task, jobs - 1, most + 1),
        6 => pv(task, jobs - 1, most),
        _ => random_record(chance),
    }
}

// ---- Arbitrary states and bytes ----

/// A possible state that no dispatching need reach, over bytes made for it.
fn arbitrary(chance: &mut Chance) -> Ride {
    let set = good_set(chance);
    let n = set.tasks.len();
    let mut state = State::default();
    state.n = n as u64;
    state.tasks[..n].copy_from_slice(&set.tasks);
    state.cycle = chance.below(4);
    let full = chance.one_in(4);
    for task in 0..n {
        let least = if full { set.jobs(task) } else { 0 };
        state.next[task] = chance.between(least, set.jobs(task));
    }
    state.running = some_running(chance, &set, &mut state.next);
    let image = bytes_for(chance, &set, &mut state);
    Ride {
        image,
        state,
        end: 0,
    }
}

/// A running job that is the last one started of its task; one is started if none was.
fn some_running(chance: &mut Chance, set: &Set, next: &mut [u64; SLOTS]) -> Running {
    let task = chance.index(set.tasks.len());
    next[task] = next[task].max(1);
    let job = next[task] - 1;
    let latest = set.tasks[task].due(job) - set.tasks[task].time;
    let start = chance.between(set.tasks[task].release(job), latest);
    Running {
        task: task as u64,
        job,
        start,
    }
}

/// Bytes with idle and inversion records that fit the next decisions, and offsets into them.
fn bytes_for(chance: &mut Chance, set: &Set, state: &mut State) -> Vec<u8> {
    let n = set.tasks.len();
    let mut next = state.next;
    let mut free = state.running.start + set.tasks[state.running.task as usize].time;
    if (0..n).all(|task| next[task] == set.jobs(task)) {
        (next, free) = ([0; SLOTS], 0);
    }
    let Some(instant) = instant_with_waiting(set, &next[..n], free) else {
        return Vec::new();
    };
    let (mut records, last) = idles_from(chance, set, instant);
    let idles = records.len();
    for task in 0..n {
        if chance.one_in(2) {
            records.push(fitting_inversion(chance, set, &next, task, last));
        }
    }
    if chance.one_in(12) {
        records.push(random_record(chance));
    }
    records.push(Record::En(chance.below(20)));
    state.now = offsets_into(chance, &records, idles, n);
    state.at_start = if chance.one_in(2) {
        state.now
    } else {
        offsets_into(chance, &records, idles, n)
    };
    encode(&records)
}

/// Idle records of which the first begins at the instant and each other where the one before
/// ends, mostly; with the instant at which the last of them ends.
fn idles_from(chance: &mut Chance, set: &Set, instant: u64) -> (Vec<Record>, u64) {
    let mut records = Vec::new();
    let mut end = instant;
    while chance.one_in(2) {
        let mut idle = Idle {
            start: end,
            length: chance.between(1, 3),
        };
        if chance.one_in(6) {
            idle = ranged_idle(chance, set);
        } else if end + idle.length >= set.hyperperiod && !chance.one_in(6) {
            break;
        } else {
            end += idle.length;
        }
        records.push(Record::Id(idle));
    }
    (records, end)
}

/// An inversion record of the task's next job, mostly with its delay up to the instant.
fn fitting_inversion(
    chance: &mut Chance,
    set: &Set,
    next: &[u64],
    task: usize,
    instant: u64,
) -> Record {
    let job = next[task];
    let release = set.tasks[task].release(job);
    if chance.one_in(5) || job >= set.jobs(task) || release > instant {
        return Record::Pv(ranged_inversion(chance, set));
    }
    let most = set.tasks[task].deadline - set.tasks[task].time;
    let delay = (instant - release).min(most + u64::from(chance.one_in(20)));
    pv(task, job, delay)
}

/// Offsets of records: for each task mostly its own PV, else EN or any PV.
fn offsets_into(chance: &mut Chance, records: &[Record], idles: usize, n: usize) -> Offsets {
    let length = |record: &Record| record_length(record.mark()) as u64;
    let before = |index: usize| -> u64 { records[..index].iter().map(length).sum() };
    let en = records.len() - 1;
    let mut offsets = Offsets::default();
    if chance.one_in(6) {
        offsets.idle = before(chance.index(records.len()));
    }
    for task in 0..n {
        let own = |record: &Record| matches!(record, Record::Pv(pv) if pv.task == task);
        let any = chance.between(idles as u64, en as u64) as usize;
        let index = match records.iter().position(own) {
            Some(index) if !chance.one_in(8) => index,
            _ if chance.one_in(2) => en,
            _ => any,
        };
        offsets.inversions[task] = before(index);
    }
    offsets
}
