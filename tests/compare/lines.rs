//! Cases of lines of table images: fixed ones about what stands behind an image, the room for its figures,
//! the sets whose intervals are told apart, and the report's limits; and random lines.

use crate::chance::Chance;
use crate::damage::{id, pv};
use crate::form::{image_from, image_text};
use crate::images::{records_of, tables};
use crate::independent::{
    encode, table_records, Record, Set, Tables, Task, TABLES, TIMETABLE, TODAY,
};
use crate::sets::longest_tables;
use crate::shapes::some_timetable;

/// There is a random line for so many random cases.
pub const ONE_IN: u64 = 200;

/// The most images of a line, and the most bytes of each that are framed.
const MOST_IMAGES: usize = 10_000;
const LONGEST: usize = 65_536;

/// Images of random lines are at most this long, but for the last of a line.
const LONGEST_BEFORE: usize = 2_000;

/// Document 01's image of P2, and that of P9.
const P2: &str = "5453010203544b00000000000000010000000500000005544b00000000000000020000000a0000000a\
                  544b0000000000000006000000140000001449440000000a0002505601000000000007505602000000\
                  000001454e00000007";
const P9: &str = "5453010201544b00000000000000010000000100000001454e00000002";

fn bytes(text: &str) -> Vec<u8> {
    image_from(text).expect("an image in hex")
}

// ---- Fixed cases ----

/// All fixed cases.
pub fn cases() -> Vec<String> {
    [
        rooms(),
        refused(),
        behind(),
        damaged_lines(),
        small_sets(),
        counts(),
        lengths(),
        longest(),
    ]
    .concat()
}

fn figures(room: usize, images: &[u8]) -> String {
    format!("figures {room} {}", image_text(images))
}

fn report(images: &[u8]) -> String {
    format!("report {}", image_text(images))
}

/// The image of a set without records, whether it is accepted or not.
fn without_records(tasks: &[[u64; 4]]) -> Vec<u8> {
    let task = |&[offset, time, period, deadline]: &[u64; 4]| Task {
        offset,
        time,
        period,
        deadline,
    };
    let tasks: Vec<Task> = tasks.iter().map(task).collect();
    let set = Set {
        tasks,
        hyperperiod: 0,
    };
    encode(&table_records(&set, &Tables::default()))
}

/// Worked examples with rooms from none to two more than is needed: P2, document 02's others, and sets
/// whose intervals have a stretch before them, behind them, or none.
fn rooms() -> Vec<String> {
    let mut cases = Vec::new();
    let images = [
        bytes(P2),
        bytes(P9),
        without_records(&[[2, 1, 10, 3]]),
        without_records(&[[0, 1, 16, 5], [0, 3, 16, 7], [7, 2, 16, 4], [13, 1, 16, 3]]),
        without_records(&[[0, 1, 5, 5], [0, 2, 10, 10], [0, 6, 20, 20]]),
        without_records(&[[5, 1, 10, 5]]),
        without_records(&[[0, 65_535, 65_535, 65_535]]),
        without_records(&[[0, 1, 65_535, 65_535]]),
        without_records(&[[65_534, 1, 65_535, 1]]),
    ];
    for image in images {
        let count = right_figures(&image);
        cases.extend((0..=count + 2).map(|room| figures(room, &image)));
        cases.push(report(&image));
        cases.push(report(&[&image[..], &image].concat()));
    }
    cases
}

/// Sets that are refused, and an EN with another number, alone and behind P2.
fn refused() -> Vec<String> {
    let mut cases = Vec::new();
    let images = [
        without_records(&[[0, 0, 5, 5]]),
        without_records(&[[0, 1, 5, 5], [0, 1, 4, 4]]),
        without_records(&[[0, 1, 2, 2], [0, 1, 65_535, 65_535]]),
        without_records(&[[0, 1, 3, 3], [0, 1, 65_535, 65_535]]),
        without_records(&[[0, 2, 3, 3], [0, 2, 3, 3]]),
        [&bytes(P9)[..28], &[3]].concat(),
        [&bytes(P2)[..90], &[8]].concat(),
    ];
    for image in images {
        cases.push(figures(0, &image));
        cases.push(figures(64, &image));
        cases.push(report(&image));
        cases.push(report(&[&bytes(P2)[..], &image, &bytes(P9)].concat()));
    }
    cases
}

/// How many figures the image at the front has; 7 where it is refused.
fn right_figures(images: &[u8]) -> usize {
    let answer = TODAY.figures(images, u64::MAX);
    answer.map_or(7, |(figures, _)| figures.len())
}

/// P2 with something behind it: single bytes, marks, records, images of both kinds, and P2 cut at each byte.
fn behind() -> Vec<String> {
    let p2 = bytes(P2);
    let timetable = [&p2[..3], &[TIMETABLE as u8], &p2[4..59], b"EN\0\0\0\x04"].concat();
    let mut tails: Vec<Vec<u8>> = (0..=p2.len()).map(|end| p2[..end].to_vec()).collect();
    tails.extend((0..=255).map(|byte| vec![byte]));
    tails.extend([&b"EN"[..], b"EN\0\0\0\x07", b"ID", b"PV", b"SL"].map(|tail| tail.to_vec()));
    tails.extend([bytes(P9), timetable.clone(), [&timetable[..], &p2].concat()]);
    let mut cases = Vec::new();
    for tail in tails {
        let images = [&p2[..], &tail].concat();
        cases.push(figures(10, &images));
        cases.push(figures(9, &images));
        cases.push(report(&images));
        cases.push(report(&tail));
    }
    cases.push(figures(10, &[]));
    cases
}

/// A line of three images with each byte one higher, and with each byte missing.
fn damaged_lines() -> Vec<String> {
    let line = [bytes(P9), bytes(P2), bytes(P9)].concat();
    let mut cases = Vec::new();
    for at in 0..line.len() {
        let mut changed = line.clone();
        changed[at] = changed[at].wrapping_add(1);
        cases.push(report(&changed));
        changed.remove(at);
        cases.push(report(&changed));
    }
    cases
}

/// Every set of one task with a short period, and of two.
fn small_sets() -> Vec<String> {
    let mut sets: Vec<Vec<[u64; 4]>> = Vec::new();
    for period in 1..=6 {
        sets.extend(every_task(period).map(|task| vec![task]));
    }
    for (shorter, longer) in [(2, 4), (3, 4), (3, 6)] {
        for first in every_task(shorter) {
            sets.extend(every_task(longer).map(|second| vec![first, second]));
        }
    }
    let images = sets.iter().map(|tasks| without_records(tasks));
    images.map(|image| figures(64, &image)).collect()
}

/// Every task with this period that keeps its rule.
fn every_task(period: u64) -> impl Iterator<Item = [u64; 4]> {
    let deadlines = 1..=period;
    deadlines.flat_map(move |deadline| {
        let offsets = 0..=period - deadline;
        offsets.flat_map(move |offset| {
            (1..=deadline).map(move |time| [offset, time, period, deadline])
        })
    })
}

/// As many images as there may be, one more, a byte more, and one less with a cut one behind it.
fn counts() -> Vec<String> {
    let most = bytes(P9).repeat(MOST_IMAGES);
    let one_less = &most[..most.len() - P9.len() / 2];
    vec![
        report(&most),
        report(&[&most[..], &bytes(P9)].concat()),
        report(&[&most[..], b"T"].concat()),
        report(&[one_less, b"TS"].concat()),
    ]
}

/// Images of about the most bytes that are framed, which keep no rule behind framing: their records end
/// where a whole EN fits behind them, or all but its last byte, its mark alone, one byte or none of it; there
/// stands nothing, a byte, an EN or another mark. With the whole EN also behind P2: an image's own bytes count.
pub fn lengths() -> Vec<String> {
    let mut cases = Vec::new();
    for end in [6, 5, 2, 1, 0].map(|fits| LONGEST - fits) {
        let (image, records) = framed(end);
        let en = encode(&[Record::En(records)]);
        for tail in [&b""[..], b"E", b"ID", &en[..5], &en] {
            cases.push(report(&[&image[..], tail].concat()));
        }
        cases.push(report(&[&bytes(P2)[..], &image, &en, b"T"].concat()));
    }
    cases
}

/// The bytes of TS, a TK, IDs and at most eight PVs that end there, and how many records they are.
fn framed(end: usize) -> (Vec<u8>, u64) {
    let (kind, n) = (TABLES, 1);
    let mut records = vec![Record::Ts {
        edition: 1,
        kind,
        n,
    }];
    let (time, period, deadline) = (1, 1, 1);
    records.push(Record::Tk(Task {
        offset: 0,
        time,
        period,
        deadline,
    }));
    let left = end - encode(&records).len();
    let pvs = left % 8;
    records.extend(vec![id(0, 1); (left - 9 * pvs) / 8]);
    records.extend(vec![pv(0, 0, 0); pvs]);
    (encode(&records), records.len() as u64)
}

/// Accepted images of 65,528, 65,536 and 65,544 bytes, alone and with something behind them.
pub fn longest() -> Vec<String> {
    let mut cases = Vec::new();
    for idles in 3_855..=3_857 {
        let (set, entries) = longest_tables(idles);
        let image = encode(&records_of(&set, &entries, TABLES));
        let count = right_figures(&image);
        cases.push(figures(count, &image));
        cases.push(figures(count - 1, &image));
        cases.push(report(&image));
        cases.push(report(&[&image[..], b"T"].concat()));
        cases.push(report(&[&bytes(P9)[..], &image, &bytes(P2)].concat()));
    }
    cases
}

// ---- Random lines ----

/// The random lines beside so many random cases; they depend on the seed alone.
pub fn random(seed: u64, cases: u64) -> impl Iterator<Item = String> {
    let mut chance = Chance::new(seed);
    (0..cases / ONE_IN).map(move |_| {
        if chance.one_in(2) {
            line(&mut chance)
        } else {
            front(&mut chance)
        }
    })
}

/// A report over a few good images and one that is good or damaged.
pub fn line(chance: &mut Chance) -> String {
    let mut images = Vec::new();
    for _ in 0..chance.pick(&[0, 0, 1, 2, 3, 5]) {
        images.extend(good_image(chance));
    }
    images.extend(last_image(chance));
    report(&images)
}

/// The figures of an image that is good or damaged, with about the right room; at times with bytes behind it.
fn front(chance: &mut Chance) -> String {
    let mut images = last_image(chance);
    let right = right_figures(&images);
    match chance.below(4) {
        0 => images.extend(good_image(chance)),
        1 => images.push(chance.below(256) as u8),
        _ => {}
    }
    let room = match chance.below(8) {
        0..=3 => right,
        4 | 5 => right - 1,
        6 => chance.index(right + 1),
        _ => right + chance.index(100),
    };
    figures(room, &images)
}

/// The table image of a valid timetable.
fn good_image(chance: &mut Chance) -> Vec<u8> {
    loop {
        let (set, entries) = some_timetable(chance);
        let image = encode(&records_of(&set, &entries, TABLES));
        if image.len() <= LONGEST_BEFORE {
            return image;
        }
    }
}

/// An image of a line that is good, damaged or a timetable's.
fn last_image(chance: &mut Chance) -> Vec<u8> {
    if chance.one_in(12) {
        let (set, entries) = some_timetable(chance);
        return encode(&records_of(&set, &entries, TIMETABLE));
    }
    if chance.one_in(3) {
        return good_image(chance);
    }
    tables(chance)
}
