//! Sweeps: one small image or one state, with every damage of one kind in turn.

use crate::chance::Chance;
use crate::damage::{random_record, recount};
use crate::dispatcher::{State, NUMBERS};
use crate::form::image_text;
use crate::images::{asked, records_of, right_room};
use crate::independent::{encode, Record, Set, TABLES, TIMETABLE, TODAY};
use crate::shapes::small_timetable;

/// The cases of one sweep.
pub fn cases(chance: &mut Chance) -> Vec<String> {
    let kind = chance.pick(&[TIMETABLE, TABLES]);
    let (set, entries) = small_timetable(chance);
    let records = records_of(&set, &entries, kind);
    match chance.below(6) {
        0 => of_images(chance, kind, truncations(&encode(&records))),
        1 => {
            let images = changed_bytes(chance, &encode(&records));
            of_images(chance, kind, images)
        }
        2 => {
            let images = changed_records(chance, &records);
            of_images(chance, kind, images)
        }
        3 => rooms(&encode(&records), kind),
        4 => {
            let records = records_of(&set, &entries, TABLES);
            images_under_a_state(chance, &set, &records)
        }
        _ => {
            let image = encode(&records_of(&set, &entries, TABLES));
            numbers_and_ends(chance, &set, &image)
        }
    }
}

fn of_images(chance: &mut Chance, kind: u64, images: Vec<Vec<u8>>) -> Vec<String> {
    images
        .iter()
        .flat_map(|image| asked(chance, image, kind))
        .collect()
}

/// Every beginning of an image.
fn truncations(image: &[u8]) -> Vec<Vec<u8>> {
    (0..image.len()).map(|end| image[..end].to_vec()).collect()
}

/// Each byte changed in three ways.
fn changed_bytes(chance: &mut Chance, image: &[u8]) -> Vec<Vec<u8>> {
    let mut images = Vec::new();
    for at in 0..image.len() {
        let byte = image[at];
        let bit = byte ^ (1 << chance.below(8));
        for other in [byte.wrapping_add(1), byte.wrapping_sub(1), bit] {
            let mut changed = image.to_vec();
            changed[at] = other;
            images.push(changed);
        }
    }
    images
}

/// Each record dropped, doubled, swapped with the next one, put last, and a stranger in front of it
/// and in its place; with EN's number put right and without.
fn changed_records(chance: &mut Chance, records: &[Record]) -> Vec<Vec<u8>> {
    let mut images = Vec::new();
    for at in 0..records.len() {
        let stranger = random_record(chance);
        let change = |edit: &dyn Fn(&mut Vec<Record>)| {
            let mut changed = records.to_vec();
            edit(&mut changed);
            changed
        };
        let mut lists = vec![
            change(&|list| _ = list.remove(at)),
            change(&|list| list.insert(at, list[at])),
            change(&|list| list.insert(at, stranger)),
            change(&|list| list[at] = stranger),
        ];
        if at + 1 < records.len() {
            lists.push(change(&|list| list.swap(at, at + 1)));
            lists.push(change(&|list| {
                let moved = list.remove(at);
                list.push(moved);
            }));
        }
        for mut list in lists {
            if !chance.one_in(6) {
                recount(&mut list);
            }
            images.push(encode(&list));
        }
    }
    images
}

/// Outputs of every length around the right one, and at the front.
fn rooms(image: &[u8], kind: u64) -> Vec<String> {
    let text = image_text(image);
    let right = right_room(image, kind);
    let operation = if kind == TIMETABLE {
        "derive"
    } else {
        "rebuild"
    };
    let around = right.saturating_sub(20)..=right + 20;
    (0..=7)
        .chain(around)
        .map(|room| format!("{operation} {room} {text}"))
        .collect()
}

// ---- Going on ----

/// A state that dispatching reaches within three cycles, each end being the latest.
pub fn reached(chance: &mut Chance, set: &Set, image: &[u8]) -> State {
    let (mut state, _) = TODAY.begin(image);
    for _ in 0..chance.below(3 * set.all_jobs()) {
        state = TODAY.go_on(image, &state, latest_end(set, &state)).0;
    }
    state
}

/// The running job's absolute start.
pub fn running_start(set: &Set, state: &State) -> u64 {
    state.cycle * set.hyperperiod + state.running.start
}

fn latest_end(set: &Set, state: &State) -> u64 {
    running_start(set, state) + set.tasks[state.running.task as usize].time
}

/// One state, and the image under it truncated everywhere, with each byte and each record changed.
fn images_under_a_state(chance: &mut Chance, set: &Set, records: &[Record]) -> Vec<String> {
    let image = encode(records);
    let state = reached(chance, set, &image);
    let end = latest_end(set, &state);
    let mut images = truncations(&image);
    images.extend(changed_bytes(chance, &image));
    images.extend(changed_records(chance, records));
    images.iter().map(|image| go(image, &state, end)).collect()
}

/// One state with each of its numbers changed, and with every end about the running job.
fn numbers_and_ends(chance: &mut Chance, set: &Set, image: &[u8]) -> Vec<String> {
    let mut state = reached(chance, set, image);
    state.cycle += chance.pick(&[0, 0, 1 << 16, 1 << 31]);
    let end = latest_end(set, &state);
    let mut cases = Vec::new();
    for at in 0..NUMBERS {
        let number = state.numbers()[at];
        let most = u64::from(u32::MAX);
        for other in [0, 1, number + 1, number.saturating_sub(1), most] {
            let mut numbers = state.numbers();
            numbers[at] = other.min(most);
            cases.push(go(image, &State::from_numbers(&numbers), end));
        }
    }
    let first = running_start(set, &state).saturating_sub(3);
    cases.extend((first..=end + 3).map(|end| go(image, &state, end)));
    cases
}

pub fn go(image: &[u8], state: &State, end: u64) -> String {
    format!("go {} {} {end}", image_text(image), TODAY.state_text(state))
}
