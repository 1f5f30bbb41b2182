//! Random cases of every operation in their written form, without answers.

use crate::chance::Chance;
use crate::damage::{
    aim_at_tables, aim_at_timetable, change_byte, random_record, recount, shuffle_records,
    spoil_end, truncate,
};
use crate::dispatcher::State;
use crate::form::{image_text, task_text};
use crate::independent::{
    encode, irregularities, table_records, timetable_records, Entry, Record, Set, Task,
    LONGEST_LISTED, TABLES, TIMETABLE, TODAY,
};
use crate::rides::{ride, Ride};
use crate::sets::{bad_tasks, good_set, large_timetable, timetable};

const ANY_ROOM: u64 = u64::MAX;
const TIMETABLE_NUMBERS: [u64; 18] = [0, 0, 1, 2, 3, 4, 5, 6, 7, 8, 9, 10, 11, 12, 13, 14, 15, 16];
const TABLE_NUMBERS: [u64; 18] = [0, 0, 0, 0, 1, 2, 3, 4, 5, 6, 7, 8, 9, 10, 17, 18, 18, 19];
const GOING_NUMBERS: [u64; 13] = [0, 0, 0, 0, 0, 21, 22, 23, 24, 25, 25, 25, 25];

/// A random case of a random operation.
pub fn case(chance: &mut Chance) -> String {
    match chance.below(100) {
        0..=7 => set_case(chance),
        8..=21 => format!("check1 {}", image_text(&timetable_image(chance))),
        22..=33 => format!("check2 {}", image_text(&table_image(chance))),
        34..=47 => output_case(chance, TIMETABLE),
        48..=61 => output_case(chance, TABLES),
        62..=68 => list_case(chance),
        69..=75 => format!("begin {}", image_text(&table_image(chance))),
        76..=96 => go_case(chance),
        _ => run_case(chance),
    }
}

fn set_case(chance: &mut Chance) -> String {
    let good = good_set(chance).tasks;
    let number = chance.pick(&[0, 5, 6, 7, 8, 9]);
    let (n, mut tasks) = match number {
        0 => (good.len() as u64, good),
        _ => bad_tasks(chance, &good, number),
    };
    if chance.one_in(10) {
        while tasks.len() < 16 && !chance.one_in(8) {
            tasks.push(any_task(chance));
        }
    }
    while (tasks.len() as u64) < n.min(16) {
        tasks.push(Task::default());
    }
    let slots: Vec<String> = tasks.iter().map(task_text).collect();
    format!("set {n} {}", slots.join(" "))
}

fn any_task(chance: &mut Chance) -> Task {
    Task {
        offset: chance.field(),
        time: chance.field(),
        period: chance.field(),
        deadline: chance.field(),
    }
}

/// A set and a valid timetable, rarely a large one.
fn some_timetable(chance: &mut Chance) -> (Set, Vec<Entry>) {
    if chance.one_in(300) {
        large_timetable(chance)
    } else {
        timetable(chance)
    }
}

/// A timetable image, good or damaged.
fn timetable_image(chance: &mut Chance) -> Vec<u8> {
    if chance.one_in(25) {
        return if chance.one_in(2) {
            table_image(chance)
        } else {
            any_records(chance, TIMETABLE)
        };
    }
    let (set, entries) = some_timetable(chance);
    let mut records = timetable_records(&set, &entries);
    let number = chance.pick(&TIMETABLE_NUMBERS);
    if chance.one_in(8) {
        let other = chance.pick(&[11, 12, 13, 14, 15, 16]);
        aim_at_timetable(chance, &set, &mut records, other);
    }
    aim_at_timetable(chance, &set, &mut records, number);
    finished(chance, records, number)
}

/// A table image, good or damaged.
fn table_image(chance: &mut Chance) -> Vec<u8> {
    if chance.one_in(25) {
        return if chance.one_in(2) {
            timetable_image(chance)
        } else {
            any_records(chance, TABLES)
        };
    }
    let (set, entries) = some_timetable(chance);
    let mut records = table_records(&set, &irregularities(&set, &entries));
    let number = chance.pick(&TABLE_NUMBERS);
    if chance.one_in(8) {
        let other = chance.pick(&[17, 18, 19]);
        aim_at_tables(chance, &set, &mut records, other);
    }
    aim_at_tables(chance, &set, &mut records, number);
    finished(chance, records, number)
}

/// The bytes of a few records in any order, after TS and a TK mostly.
fn any_records(chance: &mut Chance, kind: u64) -> Vec<u8> {
    let mut records = Vec::new();
    if !chance.one_in(4) {
        let period = chance.between(1, 30);
        records.push(Record::Ts {
            edition: 1,
            kind,
            n: 1,
        });
        records.push(Record::Tk(Task {
            offset: 0,
            time: 1,
            period,
            deadline: chance.between(1, period),
        }));
    }
    records.extend((0..chance.below(6)).map(|_| random_record(chance)));
    records.push(Record::En(records.len() as u64));
    if !chance.one_in(3) {
        recount(&mut records);
    }
    encode(&records)
}

/// The bytes of the records, with the damage of records and bytes that needs no aim, and that of
/// numbers 1 and 10.
fn finished(chance: &mut Chance, mut records: Vec<Record>, number: u64) -> Vec<u8> {
    if chance.one_in(8) {
        shuffle_records(chance, &mut records);
    }
    if !chance.one_in(30) {
        recount(&mut records);
    }
    let mut image = encode(&records);
    match number {
        1 => truncate(chance, &records, &mut image),
        10 => spoil_end(chance, &mut image),
        _ => {}
    }
    if chance.one_in(12) {
        change_byte(chance, &mut image);
    }
    image
}

/// Deriving or rebuilding with an output of about the right length.
fn output_case(chance: &mut Chance, kind: u64) -> String {
    let (operation, image, result) = if kind == TIMETABLE {
        let image = timetable_image(chance);
        let result = TODAY.derive(&image, ANY_ROOM);
        ("derive", image, result)
    } else {
        let image = table_image(chance);
        let result = TODAY.rebuild(&image, ANY_ROOM);
        ("rebuild", image, result)
    };
    let right = result.map_or(image.len(), |result| result.len());
    let room = match chance.below(10) {
        0 => 0,
        1 => right.saturating_sub(1),
        2 => chance.index(right + 1),
        3 => right + 1,
        4 => right + chance.index(200),
        5 => 100_000,
        _ => right,
    };
    format!("{operation} {room} {}", image_text(&image))
}

/// An image for the listing, rarely of about the most bytes that it reads.
fn list_case(chance: &mut Chance) -> String {
    let mut image = table_image(chance);
    if chance.one_in(60) {
        let (set, entries) = large_timetable(chance);
        image = encode(&table_records(&set, &irregularities(&set, &entries)));
    } else if chance.one_in(60) {
        image.resize(LONGEST_LISTED + chance.index(3) - 1, 0);
    }
    format!("list {}", image_text(&image))
}

fn go_case(chance: &mut Chance) -> String {
    let number = chance.pick(&GOING_NUMBERS);
    let Ride { image, state, end } = ride(chance, number);
    go_text(&image, &state, end)
}

pub fn go_text(image: &[u8], state: &State, end: u64) -> String {
    format!("go {} {} {end}", image_text(image), TODAY.state_text(state))
}

/// A run over an accepted image, mostly of two or three cycles.
fn run_case(chance: &mut Chance) -> String {
    let (set, image) = random_tables(chance);
    let jobs = set.all_jobs();
    let steps = chance.between(1, 3 * jobs + 2).min(100);
    format!("run {steps} {}", image_text(&image))
}

/// A set and the table image of a valid timetable of it.
pub fn random_tables(chance: &mut Chance) -> (Set, Vec<u8>) {
    let (set, entries) = timetable(chance);
    let image = encode(&table_records(&set, &irregularities(&set, &entries)));
    (set, image)
}
