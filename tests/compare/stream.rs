//! The stream of random cases, drawn in groups: images, single cases, calls of going on, journeys
//! and sweeps. It depends on the seed alone.

use crate::cases;
use crate::chance::Chance;
use crate::images;
use crate::journeys;
use crate::states;
use crate::sweeps;
use crate::written::{operation, OPERATIONS};
use std::collections::VecDeque;

pub struct Stream {
    chance: Chance,
    drawn: VecDeque<String>,
}

impl Stream {
    pub fn new(seed: u64) -> Stream {
        Stream {
            chance: Chance::new(seed),
            drawn: VecDeque::new(),
        }
    }

    fn group(&mut self) -> Vec<String> {
        let chance = &mut self.chance;
        match chance.below(1_000) {
            0..=4 => sweeps::cases(chance),
            5..=9 => journeys::journey(chance),
            10..=499 => images::cases(chance),
            500..=749 => states::cases(chance),
            _ => vec![cases::case(chance)],
        }
    }
}

impl Iterator for Stream {
    type Item = String;

    fn next(&mut self) -> Option<String> {
        loop {
            if let Some(case) = self.drawn.pop_front() {
                return Some(case);
            }
            let known = |case: &String| OPERATIONS.contains(&operation(case));
            let group = self.group();
            self.drawn.extend(group.into_iter().filter(known));
        }
    }
}
