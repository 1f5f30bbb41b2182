//! A case asked of both: of the archive, between guards, and of the second opinion.

use crate::came::Came;
use crate::cuts::{Bus, Fed};
use crate::watch;
use crate::written::archive_answer;
use crate::Opinion;
use std::panic::{catch_unwind, AssertUnwindSafe};
use std::time::{Duration, Instant};

const BETWEEN_LINES: Duration = Duration::from_secs(5);

/// What was asked so far, and what came of it.
pub struct Asking {
    pub cases: u64,
    pub differ: u64,
    pub came: Came,
    pub bus: Bus,
    second: Opinion,
    most: u64,
    wanted: u64,
    told: Instant,
}

impl Asking {
    /// At most so many differences are looked for; so many cases are wanted, for the line of
    /// progress.
    pub fn new(second: Opinion, most: u64, wanted: u64) -> Asking {
        Asking {
            cases: 0,
            differ: 0,
            came: Came::default(),
            bus: Bus::default(),
            second,
            most,
            wanted,
            told: Instant::now(),
        }
    }

    /// Whether as many differences as are looked for were found.
    pub fn over(&self) -> bool {
        self.differ >= self.most
    }

    /// Asks these cases, as long as it is not over.
    pub fn ask_each(&mut self, cases: impl Iterator<Item = String>) {
        for case in cases {
            if self.over() {
                return;
            }
            self.ask(&case);
        }
    }

    /// Asks both, tells where they differ, and gives the archive's answer. A table image is also fed to
    /// the archive in fragments.
    pub fn ask(&mut self, case: &str) -> String {
        let second = || (self.second)(case).expect("the case can be read");
        let expected = self.watched(case, "the second opinion", second);
        let archive = || archive_answer(case).expect("the case can be read");
        let answer = self.watched(&format!("{case} => {expected}"), "the archive", archive);
        self.came.note(case, &expected);
        self.compare(case, &expected, &answer);
        if answer == expected {
            self.feed(case, &expected);
        }
        answer
    }

    /// Feeds the archive the table image that a case with this answer asks about.
    fn feed(&mut self, case: &str, answer: &str) {
        let Some(fed) = Fed::of(case, answer) else {
            return;
        };
        let line = format!("{case} in fragments");
        let mut bus = std::mem::take(&mut self.bus);
        let fault = self.watched(&line, "the archive", || bus.feed(case, &fed));
        self.bus = bus;
        let (number, place) = fed.number_and_place();
        self.came.note_number(fed.close(), number, place);
        if !fault.is_empty() {
            self.tell(&line, &fed.expected_text(), &fault);
        }
    }

    /// Counts the case, and tells it where the answer is not the one expected.
    pub fn compare(&mut self, case: &str, expected: &str, answer: &str) {
        self.cases += 1;
        if answer != expected {
            self.tell(case, expected, answer);
        }
        if self.cases % 1_024 == 0 && self.told.elapsed() > BETWEEN_LINES {
            self.told = Instant::now();
            let (cases, wanted, differ) = (self.cases, self.wanted, self.differ);
            eprintln!("{cases} of about {wanted} cases, {differ} differ");
        }
    }

    /// Counts and tells a difference.
    fn tell(&mut self, case: &str, expected: &str, answer: &str) {
        self.differ += 1;
        println!("{case} => {expected}");
        eprintln!("  archive: {answer}");
    }

    /// The answer of a call; a panic is told as an answer, and where the program ends in the call,
    /// the line is told with the count.
    fn watched(&self, line: &str, name: &str, call: impl FnOnce() -> String) -> String {
        let count = format!("{} cases, {} differ", self.cases + 1, self.differ + 1);
        let text = format!("{line}\n{name} died or did not come back\n{count}\n");
        watch::over(&text, || {
            catch_unwind(AssertUnwindSafe(call)).unwrap_or_else(|panic| {
                let fault = panic.downcast_ref::<String>().cloned();
                fault.unwrap_or_else(|| format!("{name} panicked"))
            })
        })
    }
}
