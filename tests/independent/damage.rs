//! Random damage to the records and the bytes of good images, aimed at a refusal number or not.

use crate::chance::Chance;
use crate::independent::{
    encode, record_length, replay, Entry, Idle, Inversion, Mark, Record, Set, Tables, Task,
};
use crate::sets::bad_tasks;

/// Damages the records of a timetable image so that this number becomes likely.
pub fn aim_at_timetable(chance: &mut Chance, set: &Set, records: &mut Vec<Record>, number: u64) {
    match number {
        2..=9 => aim_at_head(chance, set, records, number),
        14 | 15 if chance.one_in(4) => put_off_entry(chance, set, records),
        11 | 13 | 14 | 15 => change_entry(chance, set, records, number),
        12 => double_entry(chance, records),
        16 => drop_last_entry(chance, set, records),
        _ => {}
    }
}

/// Damages the records of a table image so that this number becomes likely.
pub fn aim_at_tables(chance: &mut Chance, set: &Set, records: &mut Vec<Record>, number: u64) {
    match number {
        2..=9 => aim_at_head(chance, set, records, number),
        17 => break_range(chance, set, records),
        18 => delay_a_start(chance, set, records),
        19 => add_useless(chance, set, records),
        _ => {}
    }
}

/// Gives EN the number of records before it.
pub fn recount(records: &mut [Record]) {
    for index in 0..records.len() {
        if let Record::En(number) = &mut records[index] {
            *number = index as u64;
        }
    }
}

// ---- TS, TK and the order of marks ----

fn aim_at_head(chance: &mut Chance, set: &Set, records: &mut Vec<Record>, number: u64) {
    if number == 2 {
        return misplace(chance, records);
    }
    let Record::Ts { edition, kind, n } = &mut records[0] else {
        return;
    };
    match number {
        3 => *edition = chance.pick(&[0, 2, 3, 255]),
        4 => *kind = chance.pick(&[0, 3 - *kind, 3 - *kind, 3, 255]),
        5 => *n = chance.pick(&[0, 17, 255]),
        _ => {
            let (n, tasks) = bad_tasks(chance, &set.tasks, number);
            replace_tasks(records, n, &tasks);
        }
    }
}

/// Puts these tasks in place of the image's own.
fn replace_tasks(records: &mut Vec<Record>, number: u64, tasks: &[Task]) {
    records.retain(|record| record.mark() != Mark::Tk);
    if let Record::Ts { n, .. } = &mut records[0] {
        *n = number;
    }
    records.splice(1..1, tasks.iter().map(|task| Record::Tk(*task)));
}

/// Brings a mark to a place where it is not allowed.
fn misplace(chance: &mut Chance, records: &mut Vec<Record>) {
    let at = chance.index(records.len());
    match chance.below(6) {
        0 => records.insert(at, Record::En(at as u64)),
        1 => records.swap(0, at),
        2 => {
            records.remove(at);
        }
        3 => {
            if let Record::Ts { n, .. } = &mut records[0] {
                *n = chance.pick(&[n.saturating_sub(1).max(1), (*n + 1).min(16)]);
            }
        }
        4 => records.push(Record::En(0)),
        _ => {
            let stranger = random_record(chance);
            records.insert(at, stranger);
        }
    }
}

pub fn random_record(chance: &mut Chance) -> Record {
    let (small, kind, n) = (chance.below(10), chance.between(1, 2), chance.between(1, 3));
    let (time, deadline) = (1, chance.between(1, 3));
    let period = deadline + small;
    match chance.below(6) {
        0 => Record::Ts {
            edition: 1,
            kind,
            n,
        },
        1 => Record::Tk(Task {
            offset: 0,
            time,
            period,
            deadline,
        }),
        2 => sl(chance.index(4), chance.below(40)),
        3 => id(chance.below(40), small),
        4 => pv(chance.index(4), chance.below(4), small),
        _ => Record::En(2 * small),
    }
}

pub fn sl(task: usize, start: u64) -> Record {
    Record::Sl(Entry { task, start })
}

pub fn id(start: u64, length: u64) -> Record {
    Record::Id(Idle { start, length })
}

pub fn pv(task: usize, job: u64, delay: u64) -> Record {
    Record::Pv(Inversion { task, job, delay })
}

// ---- Entries ----

/// The indices of the records with this mark.
fn with_mark(records: &[Record], mark: Mark) -> Vec<usize> {
    (0..records.len())
        .filter(|&index| records[index].mark() == mark)
        .collect()
}

/// The entry at an index, its job number and the end of the entry before it; none where a task
/// number is too high.
fn entry_at(set: &Set, records: &[Record], at: usize) -> Option<(Entry, u64, u64)> {
    let Record::Sl(entry) = records[at] else {
        return None;
    };
    set.tasks.get(entry.task)?;
    let job = records[..at]
        .iter()
        .filter(|record| matches!(record, Record::Sl(before) if before.task == entry.task))
        .count() as u64;
    let end = match records[at - 1] {
        Record::Sl(before) => before.start + set.tasks.get(before.task)?.time,
        _ => 0,
    };
    Some((entry, job, end))
}

/// Changes one entry against rule 11, 13, 14 or 15, where an entry that allows it is found.
fn change_entry(chance: &mut Chance, set: &Set, records: &mut [Record], number: u64) {
    let places = with_mark(records, Mark::Sl);
    for _ in 0..40.min(places.len() * 40) {
        let at = chance.pick(&places);
        let Some((mut entry, job, end)) = entry_at(set, records, at) else {
            continue;
        };
        if number == 11 {
            let n = set.tasks.len();
            entry.task = chance.pick(&[n, n + 1, 255]);
        } else {
            let Some(start) = bad_start(chance, set.tasks[entry.task], job, end, number) else {
                continue;
            };
            entry.start = start;
        }
        records[at] = Record::Sl(entry);
        return;
    }
}

/// A start of the task's job against rule 13, 14 or 15, if there is one; the entry before ends
/// at `end`.
fn bad_start(chance: &mut Chance, task: Task, job: u64, end: u64, number: u64) -> Option<u64> {
    let release = task.release(job);
    let late = task.due(job) - task.time + 1;
    match number {
        13 => (release > 0).then(|| chance.pick(&[0, release - 1, release / 2])),
        14 => (end > release).then(|| chance.between(release, end - 1)),
        _ if chance.one_in(5) => Some(chance.field()),
        _ => Some(late + chance.pick(&[0, 0, 1, 40])),
    }
}

/// Moves an entry behind one that ends when it is too late for it, to a late start before that end.
fn put_off_entry(chance: &mut Chance, set: &Set, records: &mut Vec<Record>) {
    let places = with_mark(records, Mark::Sl);
    let first = chance.index(places.len() + 1);
    for at in places[first..].iter().chain(&places[..first]).copied() {
        let Some((entry, job, _)) = entry_at(set, records, at) else {
            continue;
        };
        let late = set.tasks[entry.task].due(job) - set.tasks[entry.task].time + 1;
        if let Some((later, end)) = entry_ending_after(set, records, at, late) {
            records.remove(at);
            records.insert(later, sl(entry.task, chance.between(late, end - 1)));
            return;
        }
    }
}

/// The first entry behind an index that ends after the instant, with its end.
fn entry_ending_after(
    set: &Set,
    records: &[Record],
    at: usize,
    instant: u64,
) -> Option<(usize, u64)> {
    for later in at + 1..records.len() {
        let (entry, _, _) = entry_at(set, records, later)?;
        let end = entry.start + set.tasks[entry.task].time;
        if end > instant {
            return Some((later, end));
        }
    }
    None
}

/// Adds a further entry of some task, after all or anywhere.
fn double_entry(chance: &mut Chance, records: &mut Vec<Record>) {
    let places = with_mark(records, Mark::Sl);
    if places.is_empty() {
        return;
    }
    let Record::Sl(mut entry) = records[chance.pick(&places)] else {
        return;
    };
    if chance.one_in(2) {
        entry.start = chance.field();
    }
    let en = records.len() - 1;
    let at = if chance.one_in(3) {
        chance.pick(&places)
    } else {
        en
    };
    records.insert(at, Record::Sl(entry));
}

/// Drops the last entry of a task, sometimes of two.
fn drop_last_entry(chance: &mut Chance, set: &Set, records: &mut Vec<Record>) {
    for _ in 0..chance.between(1, 2) {
        let task = chance.index(set.tasks.len());
        let last = records
            .iter()
            .rposition(|record| matches!(record, Record::Sl(entry) if entry.task == task));
        if let Some(at) = last {
            records.remove(at);
        }
    }
}

// ---- ID and PV records ----

/// Puts an idle record where its start belongs.
fn insert_idle(records: &mut Vec<Record>, idle: Idle) {
    let later = |record: &Record| match record {
        Record::Id(other) => other.start > idle.start,
        record => matches!(record.mark(), Mark::Pv | Mark::En),
    };
    let at = records.iter().position(later).unwrap_or(records.len());
    records.insert(at, Record::Id(idle));
}

/// Puts an inversion record where its task and job belong.
fn insert_inversion(records: &mut Vec<Record>, inversion: Inversion) {
    let later = |record: &Record| match record {
        Record::Pv(other) => (other.task, other.job) >= (inversion.task, inversion.job),
        record => record.mark() == Mark::En,
    };
    let at = records.iter().position(later).unwrap_or(records.len());
    records.insert(at, Record::Pv(inversion));
}

/// An inversion record inside its own range.
pub fn ranged_inversion(chance: &mut Chance, set: &Set) -> Inversion {
    let task = chance.index(set.tasks.len());
    let job = chance.below(set.jobs(task));
    let delay = chance.between(0, set.tasks[task].deadline - set.tasks[task].time);
    Inversion { task, job, delay }
}

/// An idle record inside its own range, where the hyperperiod has room for one.
pub fn ranged_idle(chance: &mut Chance, set: &Set) -> Idle {
    let length = chance.between(1, 1 + set.hyperperiod / 8);
    let start = chance.below(set.hyperperiod.saturating_sub(length));
    Idle { start, length }
}

/// Breaks the rule of an ID or a PV, one of the image's or a new one.
fn break_range(chance: &mut Chance, set: &Set, records: &mut Vec<Record>) {
    let mark = chance.pick(&[Mark::Id, Mark::Pv]);
    if with_mark(records, mark).is_empty() || chance.one_in(4) {
        if mark == Mark::Id {
            insert_idle(records, ranged_idle(chance, set));
        } else {
            insert_inversion(records, ranged_inversion(chance, set));
        }
    }
    let places = with_mark(records, mark);
    let at = chance.pick(&places);
    match records[at] {
        Record::Id(idle) => break_idle(chance, set, records, at, idle),
        Record::Pv(inversion) => break_inversion(chance, set, records, at, inversion),
        _ => {}
    }
}

fn break_idle(chance: &mut Chance, set: &Set, records: &mut Vec<Record>, at: usize, good: Idle) {
    let Idle { start, length } = good;
    let left = set.hyperperiod.saturating_sub(start);
    match chance.below(7) {
        0 => records[at] = id(start, 0),
        1 => records[at] = id(start, left),
        2 => records[at] = id(chance.field(), length),
        3 => records[at] = id(start, chance.pick(&[left.max(1) - 1, left + 1, 65_535])),
        4 => records.insert(at, Record::Id(good)),
        5 if records[at - 1].mark() == Mark::Id => records.swap(at - 1, at),
        _ => {
            let first = chance.between(1, length.saturating_sub(1));
            let second = length.saturating_sub(first).max(1);
            records[at] = id(start, first);
            records.insert(at + 1, id(start + first, second));
        }
    }
}

fn break_inversion(
    chance: &mut Chance,
    set: &Set,
    records: &mut Vec<Record>,
    at: usize,
    good: Inversion,
) {
    let Inversion { task, job, delay } = good;
    let Some(Task { time, deadline, .. }) = set.tasks.get(task) else {
        return;
    };
    match chance.below(7) {
        0 => records[at] = pv(chance.pick(&[set.tasks.len(), 16, 255]), job, delay),
        1 => records[at] = pv(task, set.jobs(task), delay),
        2 => records[at] = pv(task, chance.pick(&[65_535, 4_096]), delay),
        3 => records[at] = pv(task, job, deadline - time + 1),
        4 => records[at] = pv(task, job, chance.field()),
        5 if records[at - 1].mark() == Mark::Pv => records.swap(at - 1, at),
        _ => records.insert(at, Record::Pv(good)),
    }
}

/// The tables in the records, and their replayed timetable if no job is late.
fn replayed(set: &Set, records: &[Record]) -> (Tables, Vec<Entry>) {
    let mut tables = Tables::default();
    for record in records {
        match record {
            Record::Id(idle) => tables.idles.push(*idle),
            Record::Pv(inversion) => tables.inversions.push(*inversion),
            _ => {}
        }
    }
    let entries = replay(set, &tables).unwrap_or_default();
    (tables, entries)
}

/// Forces an idle before some start, up to or past the last instant at which the job is in time.
fn delay_a_start(chance: &mut Chance, set: &Set, records: &mut Vec<Record>) {
    let (tables, entries) = replayed(set, records);
    if entries.is_empty() {
        return;
    }
    let at = chance.index(entries.len());
    let Entry { task, start } = entries[at];
    let slack = set.tasks[task].due(job_of(&entries, at)) - set.tasks[task].time - start;
    let more = chance.pick(&[slack.max(1), slack + 1, slack + 1, slack + 2, slack / 2 + 1]);
    let ends_here = |idle: &&Idle| idle.start + idle.length == start;
    let (start, length) = match tables.idles.iter().find(ends_here) {
        Some(idle) => (idle.start, idle.length + more),
        None => (start, more),
    };
    records.retain(|record| !matches!(record, Record::Id(idle) if idle.start >= start));
    if chance.one_in(3) {
        insert_idle_while_running(chance, set, records, &entries[..at]);
    }
    insert_idle(records, Idle { start, length });
}

/// The job number of the entry at an index.
fn job_of(entries: &[Entry], at: usize) -> u64 {
    let same = |before: &&Entry| before.task == entries[at].task;
    entries[..at].iter().filter(same).count() as u64
}

/// Adds an idle record that begins while one of these entries runs, where there is no decision.
fn insert_idle_while_running(
    chance: &mut Chance,
    set: &Set,
    records: &mut Vec<Record>,
    entries: &[Entry],
) {
    let long: Vec<Entry> = entries
        .iter()
        .copied()
        .filter(|entry| set.tasks[entry.task].time > 2)
        .collect();
    if long.is_empty() {
        return;
    }
    let Entry { task, start } = chance.pick(&long);
    let inside = chance.between(1, set.tasks[task].time - 2);
    insert_idle(
        records,
        Idle {
            start: start + inside,
            length: 1,
        },
    );
}

/// Adds a record that keeps its own rule and probably changes nothing, or changes a delay.
fn add_useless(chance: &mut Chance, set: &Set, records: &mut Vec<Record>) {
    let (_, entries) = replayed(set, records);
    let places = with_mark(records, Mark::Pv);
    match chance.below(5) {
        0 => insert_idle(records, ranged_idle(chance, set)),
        1 => insert_inversion(records, ranged_inversion(chance, set)),
        2 if !places.is_empty() => {
            if let Record::Pv(inversion) = &mut records[chance.pick(&places)] {
                inversion.delay = chance.near(inversion.delay);
            }
        }
        3 => {
            let start = entries.last().map_or(1, |entry| entry.start + 1);
            insert_idle(records, Idle { start, length: 1 });
        }
        _ if !entries.is_empty() => {
            let at = chance.index(entries.len());
            let (task, job) = (entries[at].task, job_of(&entries, at));
            let delay = entries[at].start - set.tasks[task].release(job);
            insert_inversion(records, Inversion { task, job, delay });
        }
        _ => {}
    }
}

// ---- Any records, any bytes ----

/// Drops, doubles or swaps records, wherever they are.
pub fn shuffle_records(chance: &mut Chance, records: &mut Vec<Record>) {
    if records.len() < 2 {
        return;
    }
    let at = chance.index(records.len());
    match chance.below(5) {
        0 => {
            records.remove(at);
        }
        1 => records.insert(at, records[at]),
        2 => records.swap(at.max(1) - 1, at.max(1)),
        3 => {
            let other = chance.index(records.len());
            records.swap(at, other);
        }
        _ => {
            let moved = records.remove(at);
            let to = chance.index(records.len() + 1);
            records.insert(to, moved);
        }
    }
}

/// Ends the bytes at a record's border, inside its mark, right after it, inside its body, anywhere,
/// or inside another record that is put in its place.
pub fn truncate(chance: &mut Chance, records: &[Record], image: &mut Vec<u8>) {
    let at = chance.index(records.len());
    let lengths: Vec<usize> = records
        .iter()
        .map(|record| record_length(record.mark()))
        .collect();
    let border: usize = lengths[..at].iter().sum();
    if chance.one_in(5) {
        let stranger = encode(&[random_record(chance)]);
        image.truncate(border);
        image.extend(&stranger[..chance.index(stranger.len())]);
        return;
    }
    let end = match chance.below(6) {
        0 => border,
        1 => border + 1,
        2 => border + 2,
        3 => border + lengths[at] - 1,
        4 => border + chance.index(lengths[at]),
        _ => chance.index(image.len()),
    };
    image.truncate(end);
}

/// Gives EN a wrong number, or lets bytes follow it.
pub fn spoil_end(chance: &mut Chance, image: &mut Vec<u8>) {
    let length = image.len();
    match chance.below(5) {
        0 => image.push(chance.number() as u8),
        1 => image.extend_from_within(length.saturating_sub(6)..),
        2 => image.extend((0..chance.between(1, 9)).map(|_| 0)),
        _ => {
            let at = length - 1 - chance.pick(&[0, 0, 1, 2, 3]);
            image[at] = image[at].wrapping_add(chance.pick(&[1, 255, 16]));
        }
    }
}

/// Changes, inserts or removes a byte.
pub fn change_byte(chance: &mut Chance, image: &mut Vec<u8>) {
    if image.is_empty() {
        return;
    }
    let at = chance.index(image.len());
    match chance.below(7) {
        0 => image[at] = chance.number() as u8,
        1 => image[at] ^= 1 << chance.below(8),
        2 => image[at] = image[at].wrapping_add(1),
        3 => image[at] = image[at].wrapping_sub(1),
        4 => image[at] = chance.pick(&[0, 255]),
        5 => image.insert(at, chance.number() as u8),
        _ => {
            image.remove(at);
        }
    }
}
