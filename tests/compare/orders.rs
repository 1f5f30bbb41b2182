//! Fixed cases for the order of refusals: heads with several faults, and every pair of faults in one
//! image.

use crate::damage::{id, pv, recount, sl};
use crate::edges::{all_operations, by_hand, task};
use crate::form::image_text;
use crate::images::records_of;
use crate::independent::{encode, Record, TABLES, TIMETABLE};

/// Heads with every mixture of wrong edition, kind and n: alone, cut, and with the rest of an image.
pub fn heads() -> Vec<String> {
    let (set, entries) = by_hand();
    let rest = encode(&records_of(&set, &entries, TABLES)[1..]);
    let mut cases = Vec::new();
    for edition in [0, 1, 2, 255] {
        for kind in [0, 1, 2, 3, 255] {
            for n in [0, 1, 3, 16, 17, 255] {
                let head = encode(&[Record::Ts { edition, kind, n }]);
                let whole = [&head[..], &rest].concat();
                cases.extend(all_operations(&head, 0));
                cases.extend(all_operations(&whole, 200));
                cases.extend(all_operations(&head[..4], 0));
            }
        }
    }
    cases
}

/// A fault that is put into the records of P2, or of its timetable.
type Fault = fn(&mut Vec<Record>);

const HEAD_FAULTS: [Fault; 9] = [
    |records| change_head(records, |edition, _, _| *edition = 2),
    |records| change_head(records, |_, kind, _| *kind = 3),
    |records| change_head(records, |_, _, n| *n = 0),
    |records| change_head(records, |_, _, n| *n = 4),
    |records| records[2] = Record::Tk(task(9, 2, 10, 2)),
    |records| records[2] = Record::Tk(task(0, 1, 4, 4)),
    |records| records[3] = Record::Tk(task(0, 6, 65_535, 20)),
    |records| records[3] = Record::Tk(task(0, 6, 20_480, 20)),
    |records| records[3] = Record::Tk(task(0, 6, 5, 20)),
];

const ENTRY_FAULTS: [Fault; 11] = [
    |records| records[5] = sl(3, 1),
    |records| records[7] = sl(2, 9),
    |records| records[8] = sl(0, 9),
    |records| records.splice(5..7, [sl(2, 4), sl(1, 9)]).for_each(drop),
    |records| records[6] = sl(1, 6),
    |records| records[7] = sl(0, 10),
    |records| records[7] = sl(0, 4),
    |records| records[9] = sl(1, 19),
    |records| _ = records.remove(10),
    |records| records.insert(4, id(0, 1)),
    |records| records.insert(11, sl(0, 16)),
];

const TABLE_FAULTS: [Fault; 11] = [
    |records| records[4] = id(10, 0),
    |records| records[4] = id(10, 5),
    |records| records[4] = id(10, 10),
    |records| records.insert(5, id(12, 1)),
    |records| records.insert(5, id(19, 0)),
    |records| records[5] = pv(3, 0, 7),
    |records| records.insert(5, pv(0, 1, 4)),
    |records| records.insert(6, id(12, 1)),
    |records| records.swap(5, 6),
    |records| records.insert(7, pv(2, 0, 1)),
    |records| records.insert(5, sl(0, 0)),
];

const END_FAULTS: [fn(&mut Vec<u8>); 6] = [
    |_| {},
    |image| image.push(b'E'),
    |image| _ = image.pop(),
    |image| image.truncate(image.len() - 5),
    |image| {
        image.truncate(image.len() - 6);
        image.extend(b"TK\x00");
    },
    |image| *image.last_mut().expect("an image has bytes") += 1,
];

fn change_head(records: &mut [Record], change: fn(&mut u64, &mut u64, &mut u64)) {
    if let Record::Ts { edition, kind, n } = &mut records[0] {
        change(edition, kind, n);
    }
}

/// Every pair of faults in one image, each with every fault of its end.
pub fn pairs_of_faults() -> Vec<String> {
    let (set, entries) = by_hand();
    let mut cases = Vec::new();
    for (kind, own) in [(TIMETABLE, ENTRY_FAULTS), (TABLES, TABLE_FAULTS)] {
        // Those of later records first, so that a fault mostly finds the record that it is meant for.
        let faults: Vec<Fault> = own.into_iter().rev().chain(HEAD_FAULTS).collect();
        for first in 0..faults.len() {
            for second in first..faults.len() {
                let mut records = records_of(&set, &entries, kind);
                faults[first](&mut records);
                if second > first {
                    faults[second](&mut records);
                }
                recount(&mut records);
                cases.extend(with_each_end(&encode(&records), kind));
            }
        }
    }
    cases
}

fn with_each_end(image: &[u8], kind: u64) -> Vec<String> {
    let mut cases = Vec::new();
    for spoil in END_FAULTS {
        let mut image = image.to_vec();
        spoil(&mut image);
        let text = image_text(&image);
        let names = if kind == TIMETABLE {
            ["check1", "derive 0"]
        } else {
            ["check2", "rebuild 0"]
        };
        cases.extend(names.map(|name| format!("{name} {text}")));
    }
    cases
}
