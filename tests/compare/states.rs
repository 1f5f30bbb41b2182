//! Hostile calls of going on: states that look possible where they are not, slots from n up that
//! look like tasks, offsets to the wrong records, cycles and ends at every edge.

use crate::chance::Chance;
use crate::damage::{change_byte, id, pv};
use crate::dispatcher::{State, LAST_CYCLE, SLOTS};
use crate::images::records_of;
use crate::independent::{encode, record_length, Record, Set, TABLES};
use crate::rides::{ride, Ride};
use crate::shapes::some_timetable;
use crate::sweeps::{go, reached, running_start};

const NUMBERS: [u64; 7] = [0, 0, 0, 21, 22, 24, 25];
const MOST: u64 = u32::MAX as u64;

/// A few calls from one state.
pub fn cases(chance: &mut Chance) -> Vec<String> {
    if chance.one_in(3) {
        return ridden(chance);
    }
    let (set, entries) = some_timetable(chance);
    if set.all_jobs() > 100 {
        return Vec::new();
    }
    let records = records_of(&set, &entries, TABLES);
    let mut image = encode(&records);
    let mut state = reached(chance, &set, &image);
    if chance.one_in(3) {
        let any = chance.field();
        state.cycle = chance.pick(&[LAST_CYCLE, LAST_CYCLE, LAST_CYCLE - 1, 65_536, any]);
    }
    if chance.one_in(3) {
        fill_slots_above(chance, &set, &mut state);
    }
    match chance.below(12) {
        0 => foreign_running(chance, &set, &mut state),
        1 => edge_of_running(chance, &set, &mut state),
        2 => edge_of_next(chance, &set, &mut state),
        3 | 4 => move_offsets(chance, &records, &mut state),
        5 | 6 => put_record(chance, &set, &state, &mut image),
        7 => change_byte(chance, &mut image),
        _ => {}
    }
    let ends = ends(chance, &set, &state);
    ends.iter().map(|&end| go(&image, &state, end)).collect()
}

/// A call that the independent generator draws, with slots from n up that look like tasks.
fn ridden(chance: &mut Chance) -> Vec<String> {
    let number = chance.pick(&NUMBERS);
    let Ride {
        image,
        mut state,
        end,
    } = ride(chance, number);
    if chance.one_in(2) {
        let n = (state.n as usize).clamp(1, SLOTS);
        copy_slots(&mut state, n);
    }
    vec![go(&image, &state, end)]
}

/// One or two ends: at an edge of the running job, or off by a whole power of two.
fn ends(chance: &mut Chance, set: &Set, state: &State) -> Vec<u64> {
    let start = running_start(set, state);
    let slot = (state.running.task as usize).min(set.tasks.len() - 1);
    let latest = start + set.tasks[slot].time;
    let edges = [
        start.saturating_sub(1),
        start,
        start + 1,
        latest - 1,
        latest,
        latest + 1,
        0,
        u64::MAX,
        start % (1 << 32),
        latest % (1 << 32),
        start + (1 << 32),
        latest + (1 << 48),
    ];
    let mut ends = vec![chance.pick(&[start, latest, latest])];
    if chance.one_in(3) {
        ends.push(chance.pick(&edges));
    }
    ends
}

// ---- The state ----

/// Slots from n up that hold copies of those below, so that whoever reads them finds tasks.
fn copy_slots(state: &mut State, n: usize) {
    for slot in n..SLOTS {
        let from = slot % n;
        state.tasks[slot] = state.tasks[from];
        state.next[slot] = state.next[from];
        state.now.inversions[slot] = state.now.inversions[from];
        state.at_start.inversions[slot] = state.at_start.inversions[from];
    }
}

/// Copies in the slots from n up, or numbers that stand out.
fn fill_slots_above(chance: &mut Chance, set: &Set, state: &mut State) {
    let n = set.tasks.len();
    copy_slots(state, n);
    match chance.below(4) {
        0 => {
            for slot in n..SLOTS {
                state.next[slot] = 0;
                state.tasks[slot].period = set.hyperperiod;
            }
        }
        1 => {
            for slot in n..SLOTS {
                state.next[slot] = MOST;
                state.now.inversions[slot] = MOST - slot as u64;
                state.at_start.inversions[slot] = slot as u64;
            }
        }
        _ => {}
    }
}

/// A running job of a task from n up that would be right if there were such a task, or of another
/// task below n.
fn foreign_running(chance: &mut Chance, set: &Set, state: &mut State) {
    let n = set.tasks.len();
    if chance.one_in(2) {
        copy_slots(state, n);
        let slot = n + state.running.task as usize;
        state.running.task = chance.pick(&[slot, n, SLOTS, 255]) as u64;
        return;
    }
    let other = chance.index(n);
    state.running.task = other as u64;
    if chance.one_in(2) && state.next[other] > 0 {
        state.running.job = state.next[other] - 1;
        state.running.start = set.tasks[other].release(state.running.job);
    }
}

/// A running job that starts at, or one beside, its release or its last instant in time; or one
/// whose number is not the last one started.
fn edge_of_running(chance: &mut Chance, set: &Set, state: &mut State) {
    let task = set.tasks[state.running.task as usize];
    let release = task.release(state.running.job);
    let latest = task.due(state.running.job) - task.time;
    match chance.below(8) {
        0 => state.running.start = release.saturating_sub(1),
        1 => state.running.start = release,
        2 => state.running.start = latest,
        3 => state.running.start = latest + 1,
        4 => state.running.start = MOST - chance.below(task.time + 1),
        5 => state.running.job += 1,
        6 if state.running.job > 0 => {
            state.running.job -= 1;
            state.running.start = state.running.start.saturating_sub(task.period);
        }
        _ => {
            state.running.job = MOST;
            state.next[state.running.task as usize] = 0;
        }
    }
}

/// A next job number at or one beside its most, at 0, or far off.
fn edge_of_next(chance: &mut Chance, set: &Set, state: &mut State) {
    let task = chance.index(set.tasks.len());
    let most = set.jobs(task);
    state.next[task] = chance.pick(&[0, 1, most - 1, most, most + 1, MOST, 65_536]);
    if task as u64 == state.running.task && state.next[task] > 0 && chance.one_in(2) {
        state.running.job = state.next[task] - 1;
        state.running.start = set.tasks[task].release(state.running.job).min(MOST);
    }
}

/// Moves one or two offsets: to another record, into one, about the image's end, or near 2^32.
fn move_offsets(chance: &mut Chance, records: &[Record], state: &mut State) {
    let length = |record: &Record| record_length(record.mark()) as u64;
    let all: u64 = records.iter().map(length).sum();
    for _ in 0..chance.between(1, 2) {
        let index = chance.index(records.len() + 1);
        let border: u64 = records[..index].iter().map(length).sum();
        let offset = match chance.below(8) {
            0..=3 => border,
            4 => border + chance.between(1, 3),
            5 => all - chance.below(10),
            6 => all + chance.below(4),
            _ => MOST - chance.below(12),
        };
        let slot = chance.index((state.n as usize).clamp(1, SLOTS));
        match chance.below(4) {
            0 => state.now.idle = offset,
            1 | 2 => state.now.inversions[slot] = offset,
            _ if chance.one_in(2) => state.at_start.idle = offset,
            _ => state.at_start.inversions[slot] = offset,
        }
    }
}

// ---- The bytes ----

/// Puts a record at the edge of its own range over the one at an offset that is read next.
fn put_record(chance: &mut Chance, set: &Set, state: &State, image: &mut Vec<u8>) {
    let n = set.tasks.len();
    let slot = chance.index(n);
    let over = (0..n).all(|task| state.next[task] == set.jobs(task));
    let offsets = if over { state.at_start } else { state.now };
    let at = chance.pick(&[offsets.idle, offsets.inversions[slot]]) as usize;
    let task = chance.index(n);
    let (jobs, most) = (
        set.jobs(task),
        set.tasks[task].deadline - set.tasks[task].time,
    );
    let h = set.hyperperiod;
    let start = chance.below(h);
    let record = match chance.below(14) {
        0 => id(start, h - start),
        1 => id(start, h - start - 1),
        2 => id(0, h - 1),
        3 => id(h, 1),
        4 => id(MOST, 1),
        5 => id(h - 1, 0),
        6 => pv(n, 0, 0),
        7 => pv(SLOTS, 0, 0),
        8 => pv(255, 0, 0),
        9 => pv(task, jobs, 0),
        10 => pv(task, jobs - 1, most),
        11 => pv(task, jobs - 1, most + 1),
        12 => pv(task, 65_535, MOST),
        _ => Record::En(MOST),
    };
    let bytes = encode(&[record]);
    image.resize(image.len().max(at + bytes.len()), b'E');
    image[at..at + bytes.len()].copy_from_slice(&bytes);
}
