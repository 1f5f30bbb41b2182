//! Cases of an intake: fixed ones about what fits, forged numbers and what comes behind a close, and
//! journeys of random calls.

use crate::chance::Chance;
use crate::edges::by_hand;
use crate::form::image_text;
use crate::images::{records_of, room_for, tables};
use crate::independent::{encode, TABLES};

/// Counts and lengths that are right in 32 bits only, and those about the ends of 32 and 64.
const FAR: [u64; 8] = [
    (1 << 32) - 1,
    1 << 32,
    (1 << 32) + 1,
    (1 << 32) + 91,
    1 << 63,
    u64::MAX - 91,
    u64::MAX - 1,
    u64::MAX,
];

/// Numbers that do not say that an intake is open, though a part of them may.
const SHUT: [u64; 9] = [
    0,
    2,
    255,
    256,
    257,
    65_537,
    (1 << 32) + 1,
    (1 << 63) + 1,
    u64::MAX,
];

/// There is a journey for so many random cases.
pub const ONE_IN: u64 = 50;

/// Images for journeys are at most this long.
const LONGEST: usize = 400;

// ---- Fixed cases ----

/// All fixed cases, over P2: its image has 91 bytes, its timetable 114.
pub fn cases() -> Vec<String> {
    let (set, entries) = by_hand();
    let image = encode(&records_of(&set, &entries, TABLES));
    let mut cases = fitting(&image);
    cases.extend(forged_counts(&image));
    cases.extend(forged_opens(&image));
    cases.extend(behind(&image));
    cases.extend(rooms(&image));
    cases
}

/// Fragments that fill the buffer exactly, or to one byte less or more, alone and behind another.
fn fitting(image: &[u8]) -> Vec<String> {
    let mut cases = Vec::new();
    for length in [0, 1, 2, 3, 90, 91, 92, 128] {
        for end in [0, 1, 2, 3, 89, 90, 91] {
            let (front, rest) = image.split_at(end);
            let (front, rest) = (image_text(front), image_text(rest));
            for close in ["c", "r"] {
                cases.push(format!("intake {length} 114 f{front} {close}"));
                cases.push(format!("intake {length} 114 f{front} f{rest} {close}"));
                cases.push(format!(
                    "intake {length} 114 f{front} f- f{rest} f- {close} b f{front} {close}"
                ));
            }
        }
    }
    cases
}

/// A count that the caller puts there, about the buffer's length and far off, and each call on it.
fn forged_counts(image: &[u8]) -> Vec<String> {
    let mut cases = Vec::new();
    let text = image_text(image);
    for length in [0u64, 1, 4, 90, 91, 95] {
        let near = [0, 1, 2, 90, 91, 92].into_iter();
        let about = [length, length + 1]
            .into_iter()
            .chain(length.checked_sub(1));
        for count in near.chain(about).chain(FAR) {
            for calls in ["f-", "f00", "f0001", "c", "r"] {
                cases.push(format!("intake {length} 114 n{count} {calls} f- c"));
            }
            for calls in ["f-", "c", "r"] {
                cases.push(format!(
                    "intake {length} 114 f{text} n{count} {calls} {calls}"
                ));
            }
        }
    }
    cases
}

/// A number other than 1 in the place of the one that says open, with 1 put there again.
fn forged_opens(image: &[u8]) -> Vec<String> {
    let text = image_text(image);
    let mut cases = Vec::new();
    for open in SHUT {
        for call in ["f-", "f00", "c", "r"] {
            cases.push(format!("intake 92 114 f{text} o{open} {call} f- c"));
            cases.push(format!("intake 92 114 f{text} o{open} {call} o1 {call}"));
            cases.push(format!("intake 92 114 f{text} o{open} o1 {call} c"));
            cases.push(format!("intake 92 114 o{open} {call} b f{text} r"));
        }
    }
    cases
}

/// Two calls behind a close and behind a fragment that does not fit, and a new beginning, which leaves
/// the buffer as it is.
fn behind(image: &[u8]) -> Vec<String> {
    let text = image_text(image);
    let mut cases = Vec::new();
    for last in ["c", "r", "f0000"] {
        for first in ["f-", "f00", "c", "r", "b", "o1", "n91", "o1 n91"] {
            for second in ["f-", "f00", "c", "r", "b c", "b n91 r", "o1 n92 c"] {
                cases.push(format!("intake 92 114 f{text} {last} {first} {second}"));
            }
        }
    }
    cases
}

/// Outputs about the right length: a close that lacks room shuts too.
fn rooms(image: &[u8]) -> Vec<String> {
    let text = image_text(image);
    let around = (0..4).chain(110..118);
    around
        .map(|room| format!("intake 91 {room} f{text} r r c o1 n91 c"))
        .collect()
}

// ---- Journeys ----

/// The journeys beside so many random cases; they depend on the seed alone.
pub fn journeys(seed: u64, cases: u64) -> impl Iterator<Item = String> {
    let mut chance = Chance::new(seed);
    (0..cases / ONE_IN).map(move |_| journey(&mut chance))
}

/// The calls of one intake: an image in fragments that mostly fit, at times a forged number, a close or
/// a beginning between them; then a close, and at times calls behind it and the image once more.
fn journey(chance: &mut Chance) -> String {
    let image = some_image(chance);
    let length = match chance.below(8) {
        0..=3 => image.len(),
        4 => image.len() + 1,
        5 => image.len().saturating_sub(1),
        6 => image.len() + chance.index(40),
        _ => chance.index(image.len() + 1),
    };
    let calm = chance.one_in(3);
    let mut tokens = Vec::new();
    for _ in 0..chance.between(1, 2) {
        send(chance, &image, length, calm, &mut tokens);
        tokens.push(chance.pick(&["c", "r"]).to_string());
        for _ in 0..chance.pick(&[0, 0, 1, 3]) {
            tokens.push(some_call(chance, length));
        }
        tokens.push("b".to_string());
    }
    tokens.pop();
    let room = room_for(chance, &image, TABLES);
    format!("intake {length} {room} {}", tokens.join(" "))
}

fn some_image(chance: &mut Chance) -> Vec<u8> {
    loop {
        let image = tables(chance);
        if image.len() <= LONGEST {
            return image;
        }
    }
}

/// Puts the image's fragments behind the tokens, and where it is not calm rarely another call.
fn send(chance: &mut Chance, image: &[u8], length: usize, calm: bool, tokens: &mut Vec<String>) {
    let most = chance
        .pick(&[1, 4, 16, 64, image.len() as u64 + 1])
        .max(image.len() as u64 / 24);
    let mut rest = image;
    while !rest.is_empty() {
        let (front, behind) = rest.split_at(chance.below(most + 1).min(rest.len() as u64) as usize);
        tokens.push(format!("f{}", image_text(front)));
        rest = behind;
        if !calm && chance.one_in(12) {
            tokens.push(some_call(chance, length));
        }
    }
}

/// Any call, or a number that the caller puts into the intake.
fn some_call(chance: &mut Chance, length: usize) -> String {
    let length = length as u64;
    match chance.below(12) {
        0 => "b".to_string(),
        1 => "c".to_string(),
        2 => "r".to_string(),
        3 => "f-".to_string(),
        4 => format!(
            "f{}",
            image_text(&vec![0x45; chance.index(length as usize + 3)])
        ),
        5 => format!("o{}", chance.pick(&SHUT)),
        6 | 7 => "o1".to_string(),
        8 => format!("n{}", chance.pick(&FAR)),
        9 => format!("n{}", chance.pick(&[0, length, length + 1])),
        10 => format!("n{}", u64::MAX - chance.below(length + 1)),
        _ => format!("n{}", chance.below(length + 2)),
    }
}
