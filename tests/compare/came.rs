//! What came: how often each operation gave each number, and at how many places.

use crate::written::calls;
use std::collections::{BTreeMap, BTreeSet};

/// For each operation the numbers that it can give, 0 where nothing is refused; an intake's fragments
/// and its two closes count by themselves.
const NUMBERS: [(&str, &[u32]); 13] = [
    ("set", &[0, 5, 6, 7, 8, 9]),
    ("check1", &TIMETABLE),
    ("derive", &DERIVE),
    ("check2", &TABLES),
    ("rebuild", &REBUILD),
    ("begin", &TABLES),
    ("go", &[0, 21, 22, 23, 24, 25]),
    ("run", &[0]),
    ("intake-f", &[0, 20]),
    ("intake-c", &REBUILD),
    ("intake-r", &REBUILD),
    ("figures", &REBUILD),
    ("report", &REBUILD),
];

const TIMETABLE: [u32; 17] = [0, 1, 2, 3, 4, 5, 6, 7, 8, 9, 10, 11, 12, 13, 14, 15, 16];
const DERIVE: [u32; 18] = [0, 1, 2, 3, 4, 5, 6, 7, 8, 9, 10, 11, 12, 13, 14, 15, 16, 20];
const TABLES: [u32; 14] = [0, 1, 2, 3, 4, 5, 6, 7, 8, 9, 10, 17, 18, 19];
const REBUILD: [u32; 15] = [0, 1, 2, 3, 4, 5, 6, 7, 8, 9, 10, 17, 18, 19, 20];

/// The numbers that come at more places than one.
const AT_PLACES: [u32; 13] = [1, 2, 6, 7, 10, 11, 12, 13, 14, 15, 16, 17, 18];

/// CASES/PLACES, or CASES where there is no place.
fn cell_of(cases: u64, places: usize) -> String {
    if places == 0 {
        return cases.to_string();
    }
    format!("{cases}/{places}")
}

/// For an operation and a number: how often it came and at which places.
#[derive(Default)]
pub struct Came {
    seen: BTreeMap<(String, u32), (u64, BTreeSet<u64>)>,
}

impl Came {
    /// Notes the number and the place of an answer, or of each call's.
    pub fn note(&mut self, case: &str, answer: &str) {
        for (name, line) in calls(case, answer) {
            let mut words = line.split_whitespace();
            let (number, place) = match words.next() {
                Some("refused") => {
                    let mut figure = || words.next().and_then(|word| word.parse::<u64>().ok());
                    (figure().unwrap_or(0) as u32, figure())
                }
                _ => (0, None),
            };
            self.note_number(name, number, place);
        }
    }

    /// Notes that an operation gave a number, at a place where it is refused.
    pub fn note_number(&mut self, operation: &str, number: u32, place: Option<u64>) {
        let key = (operation.to_string(), number);
        let (count, places) = self.seen.entry(key).or_default();
        *count += 1;
        places.extend(place);
    }

    /// Prints a row for each number, 0 where nothing was refused: all operations together, then each
    /// by itself, as CASES or CASES/PLACES.
    pub fn print(&self) {
        let cell = |operation: &str, number: u32| match self.seen.get(&(operation.into(), number)) {
            None => String::new(),
            Some((cases, places)) => cell_of(*cases, places.len()),
        };
        let row = |head: &str, cells: Vec<String>| {
            let cells: String = cells.iter().map(|cell| format!("{cell:>12}")).collect();
            println!("{head:>6}{cells}");
        };
        println!("how often each number came, and at how many places:");
        let heads = NUMBERS.iter().map(|(operation, _)| operation.to_string());
        row(
            "number",
            ["all".to_string()].into_iter().chain(heads).collect(),
        );
        let last = NUMBERS.iter().flat_map(|(_, numbers)| numbers.iter()).max();
        for number in 0..=*last.expect("an operation gives numbers") {
            let each = NUMBERS.iter().map(|(operation, _)| cell(operation, number));
            let all = std::iter::once(self.all(number));
            row(&number.to_string(), all.chain(each).collect());
        }
    }

    /// How often a number came over all operations, and at how many places.
    fn all(&self, number: u32) -> String {
        let of_number = self.seen.iter().filter(|((_, other), _)| *other == number);
        let mut cases = 0;
        let mut places: BTreeSet<u64> = BTreeSet::new();
        for (_, (count, at)) in of_number {
            cases += count;
            places.extend(at);
        }
        cell_of(cases, places.len())
    }

    /// What should have come and did not: a number of an operation, or a second place of one.
    pub fn missing(&self) -> Vec<String> {
        let mut missing = Vec::new();
        for (operation, numbers) in NUMBERS {
            for number in numbers {
                match self.seen.get(&(operation.to_string(), *number)) {
                    None => missing.push(format!("{operation} never gave {number}")),
                    Some((_, places)) if AT_PLACES.contains(number) && places.len() < 2 => {
                        missing.push(format!("{operation} gave {number} at one place only"));
                    }
                    Some(_) => {}
                }
            }
        }
        missing
    }
}
