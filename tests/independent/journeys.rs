//! Journeys: the calls of one dispatcher from a beginning on, over several cycles, each with the
//! state that the call before it left.

use crate::cases::{go_text, random_tables};
use crate::chance::Chance;
use crate::damage::change_byte;
use crate::dispatcher::{State, LAST_CYCLE};
use crate::form::image_text;
use crate::independent::TODAY;
use crate::rides::{change_number, reported_end};

const MOST_CALLS: u64 = 150;

/// The cases of a journey. In a calm one every end is honest and nothing is changed under it.
pub fn journey(chance: &mut Chance) -> Vec<String> {
    let calm = chance.one_in(2);
    let (set, mut image) = random_tables(chance);
    let calls = (4 * set.all_jobs() + 2).min(MOST_CALLS);
    let mut state = State::default();
    let mut over = true;
    let mut cases = Vec::new();
    for _ in 0..calls {
        if over && !chance.one_in(3) {
            if chance.one_in(3) {
                image = random_tables(chance).1;
            }
            cases.push(format!("begin {}", image_text(&image)));
            state = TODAY.begin(&image).0;
            over = state == State::default();
            if !over && !calm && chance.one_in(3) {
                state.cycle = LAST_CYCLE - chance.below(3);
            }
            continue;
        }
        if !calm && chance.one_in(25) {
            disturb(chance, &mut image, &mut state);
        }
        let end = some_end(chance, &state, calm);
        cases.push(go_text(&image, &state, end));
        let (after, answer) = TODAY.go_on(&image, &state, end);
        state = after;
        over = answer.is_err_and(|refusal| refusal.number != 21);
    }
    cases
}

/// An end that is exact or early, and where it is not calm, rarely one before the start or late.
fn some_end(chance: &mut Chance, state: &State, calm: bool) -> u64 {
    let number = match chance.below(60) {
        0 | 1 if !calm => 21,
        2 if !calm => 22,
        _ => 0,
    };
    reported_end(chance, state, number)
}

/// Changes or cuts the image, or changes a number of the state.
fn disturb(chance: &mut Chance, image: &mut Vec<u8>, state: &mut State) {
    match chance.below(4) {
        0 => change_number(chance, state),
        1 => image.truncate(chance.index(image.len() + 1)),
        _ => change_byte(chance, image),
    }
}
