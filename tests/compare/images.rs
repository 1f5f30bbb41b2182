//! Images good and damaged, up to three kinds of damage in one, asked of every operation that takes
//! an image.

use crate::chance::Chance;
use crate::damage::{
    aim_at_tables, aim_at_timetable, change_byte, random_record, recount, shuffle_records,
    spoil_end, truncate,
};
use crate::form::image_text;
use crate::independent::{
    encode, irregularities, record_length, table_records, timetable_records, Entry, Record, Set,
    TABLES, TIMETABLE, TODAY,
};
use crate::shapes::some_timetable;

const TIMETABLE_NUMBERS: [u64; 16] = [1, 2, 3, 4, 5, 6, 7, 8, 9, 10, 11, 12, 13, 14, 15, 16];
const TABLE_NUMBERS: [u64; 16] = [1, 2, 3, 4, 5, 6, 7, 8, 9, 10, 17, 17, 18, 18, 19, 19];

/// The records of an image of this kind.
pub fn records_of(set: &Set, entries: &[Entry], kind: u64) -> Vec<Record> {
    if kind == TIMETABLE {
        timetable_records(set, entries)
    } else {
        table_records(set, &irregularities(set, entries))
    }
}

/// The cases of one image, drawn anew.
pub fn cases(chance: &mut Chance) -> Vec<String> {
    let kind = chance.pick(&[TIMETABLE, TABLES]);
    let (set, entries) = some_timetable(chance);
    let records = records_of(&set, &entries, kind);
    let image = damaged(chance, &set, records, kind);
    let mut cases = asked(chance, &image, kind);
    if chance.one_in(12) {
        cases.extend(asked(chance, &image, 3 - kind));
    }
    cases
}

/// A table image, drawn anew.
pub fn tables(chance: &mut Chance) -> Vec<u8> {
    let (set, entries) = some_timetable(chance);
    let records = records_of(&set, &entries, TABLES);
    damaged(chance, &set, records, TABLES)
}

/// The image of the records, with none to three kinds of damage.
fn damaged(chance: &mut Chance, set: &Set, mut records: Vec<Record>, kind: u64) -> Vec<u8> {
    let aims = if kind == TIMETABLE {
        TIMETABLE_NUMBERS
    } else {
        TABLE_NUMBERS
    };
    let many = chance.pick(&[0, 0, 1, 1, 1, 2, 2, 3]);
    let mut numbers: Vec<u64> = (0..many).map(|_| chance.pick(&aims)).collect();
    // The order of marks goes last: the others look for records where they belong.
    numbers.sort_by_key(|&number| std::cmp::Reverse(number));
    for &number in &numbers {
        if kind == TIMETABLE {
            aim_at_timetable(chance, set, &mut records, number);
        } else {
            aim_at_tables(chance, set, &mut records, number);
        }
    }
    if chance.one_in(10) {
        shuffle_records(chance, &mut records);
    }
    if !chance.one_in(40) {
        recount(&mut records);
    }
    let mut image = encode(&records);
    if chance.one_in(20) {
        change_mark(chance, &records, &mut image);
    }
    damage_bytes(chance, &numbers, &records, &mut image);
    image
}

fn damage_bytes(chance: &mut Chance, numbers: &[u64], records: &[Record], image: &mut Vec<u8>) {
    if numbers.contains(&10) {
        spoil_end(chance, image);
    }
    if numbers.contains(&1) {
        truncate(chance, records, image);
    }
    if chance.one_in(12) {
        for _ in 0..chance.between(1, 3) {
            change_byte(chance, image);
        }
    }
}

/// Gives a record another mark, or one letter of another.
fn change_mark(chance: &mut Chance, records: &[Record], image: &mut [u8]) {
    let at = chance.index(records.len());
    let lengths = records[..at]
        .iter()
        .map(|record| record_length(record.mark()));
    let border: usize = lengths.sum();
    let other = encode(&[random_record(chance)]);
    match chance.below(4) {
        0 => image[border] = other[0],
        1 => image[border + 1] = other[1],
        2 => image[border..border + 2].copy_from_slice(&other[..2]),
        _ => image.swap(border, border + 1),
    }
}

// ---- What is asked ----

/// The operations on images of this kind, with an output of about the right length.
pub fn asked(chance: &mut Chance, image: &[u8], kind: u64) -> Vec<String> {
    let text = image_text(image);
    let room = room_for(chance, image, kind);
    if kind == TIMETABLE {
        return vec![format!("check1 {text}"), format!("derive {room} {text}")];
    }
    let mut cases = vec![
        format!("check2 {text}"),
        format!("rebuild {room} {text}"),
        format!("begin {text}"),
    ];
    if chance.one_in(6) {
        cases.push(format!("run {} {text}", chance.between(1, 60)));
    }
    cases
}

/// The length of the result, that of the image where there is none.
pub fn right_room(image: &[u8], kind: u64) -> u64 {
    let result = if kind == TIMETABLE {
        TODAY.derive(image, u64::MAX)
    } else {
        TODAY.rebuild(image, u64::MAX)
    };
    result.map_or(image.len(), |result| result.len()) as u64
}

/// A length of the output, about the right one.
pub fn room_for(chance: &mut Chance, image: &[u8], kind: u64) -> u64 {
    let right = right_room(image, kind);
    match chance.below(16) {
        0..=5 => right,
        6 | 7 => right.saturating_sub(1),
        8 => right.saturating_sub(2),
        9 => right + 1,
        10 => right + 2,
        11 => 0,
        12 => chance.below(right + 1),
        13 => right.saturating_sub(chance.pick(&[4, 6, 7, 8, 9, 18])),
        14 => right + chance.below(300),
        _ => 70_000,
    }
}
