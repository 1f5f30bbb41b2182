//! Asks the stored cases on standard input, one a line, of the implementation written for speed and of
//! the archive, and tells where the two, or either and the stored answer, differ. It fails too where an
//! operation, a success or a refusal of one of its calls, or one of document 01's numbers never came.

mod archive;
mod fast;
#[allow(dead_code)]
mod written;

use archive::{Closed, Figures, Intake, Refusal, State, Step, NUMBERS};
use fast::{dispatcher, intake, spare, unlimited};
use std::collections::BTreeMap;
use std::io::{stdin, BufRead};
use std::process::ExitCode;
use written::{
    archive_answer, bytes_from, calls, check_answer, figures_answer, go_answer, intake_answer,
    operation, report_answer, run_answer, step_text, turn_answer, Calls,
};

/// The operations that both have; a run is a beginning and going on, a report the figures of image after
/// image.
const BOTH: [&str; 10] = [
    "check1", "derive", "check2", "rebuild", "begin", "go", "run", "intake", "figures", "report",
];

/// Their calls.
const CALLS: [&str; 12] = [
    "check1", "derive", "check2", "rebuild", "begin", "go", "run", "intake-f", "intake-c",
    "intake-r", "figures", "report",
];
const LAST_NUMBER: u32 = 25;
const FILLING: u8 = 0x5A;

fn main() -> ExitCode {
    let mut came: BTreeMap<(String, u32), u64> = BTreeMap::new();
    let (mut cases, mut differ) = (0, 0);
    for line in stdin().lock().lines() {
        let line = line.expect("standard input can be read");
        let Some((case, stored)) = line.split_once(" => ") else {
            continue;
        };
        if !BOTH.contains(&operation(case)) {
            continue;
        }
        let fast = fast_answer(case).expect("a stored case can be read");
        let archive = archive_answer(case).expect("a stored case can be read");
        cases += 1;
        if fast != archive || fast != stored {
            differ += 1;
            println!("{line}\n  archive: {archive}\n  fast: {fast}");
        }
        for (name, line) in calls(case, &fast) {
            *came.entry((name.to_string(), number_of(line))).or_default() += 1;
        }
    }
    let missing = missing(&came);
    for line in &missing {
        println!("{line}");
    }
    println!("{cases} cases of the implementation written for speed, {differ} differ");
    ExitCode::from(u8::from(cases == 0 || differ > 0 || !missing.is_empty()))
}

/// The number of a refusal, 0 for a success.
fn number_of(answer: &str) -> u32 {
    let refused = answer.strip_prefix("refused ");
    let number = refused.and_then(|rest| rest.split(' ').next()?.parse().ok());
    number.unwrap_or(0)
}

/// What never came.
fn missing(came: &BTreeMap<(String, u32), u64>) -> Vec<String> {
    let mut missing = Vec::new();
    for name in CALLS {
        let of_it = |refused: bool| {
            came.keys()
                .any(|(other, number)| other == name && refused == (*number > 0))
        };
        if !of_it(false) {
            missing.push(format!("{name} never succeeded"));
        }
        if !of_it(true) && name != "run" {
            missing.push(format!("{name} never refused"));
        }
    }
    for number in 1..=LAST_NUMBER {
        if !came.keys().any(|(_, other)| *other == number) {
            missing.push(format!("no case gave {number}"));
        }
    }
    missing
}

// ---- The answers ----

/// What the implementation written for speed answers to a case; none where it cannot be read.
fn fast_answer(case: &str) -> Option<String> {
    let words: Vec<&str> = case.split_whitespace().collect();
    match words[..] {
        ["check1", image] => check_answer(image, |image| told(fast::check_timetable(image))),
        ["check2", image] => check_answer(image, |image| {
            let checked = fast::check_tables(image);
            let other = unlimited::check_tables(image);
            assert_eq!(checked, other, "with and without limits: {case}");
            told(checked)
        }),
        ["derive", room, image] => turn_answer(room, image, |room, image| {
            turned(room, |out| fast::derive(image, out))
        }),
        ["rebuild", room, image] => turn_answer(room, image, |room, image| {
            turned(room, |out| fast::rebuild(image, out))
        }),
        ["begin", image] => bytes_from(image).map(|image| step_text(&begin(&image))),
        ["go", image, state, end] => go_answer(image, state, end, go_on),
        ["run", steps, image] => run_answer(steps, image, begin, go_on),
        ["intake", length, room, ref tokens @ ..] => intake_answer(&Fast, length, room, tokens),
        ["figures", room, images] => figures_answer(room, images, figures),
        ["report", images] => report_answer(images, figures),
        _ => None,
    }
}

fn told<T>(answer: Result<T, fast::Refusal>) -> Result<T, Refusal> {
    answer.map_err(|refusal| Refusal {
        number: refusal.number,
        place: refusal.place,
        offset: refusal.offset,
    })
}

/// The result in an output of so many bytes or figures, which has to keep those behind it, and all of
/// them on a refusal.
fn turned<T: Copy + PartialEq + From<u8>>(
    room: usize,
    turn: impl FnOnce(&mut [T]) -> Result<usize, fast::Refusal>,
) -> Result<Vec<T>, Refusal> {
    let mut out = vec![T::from(FILLING); room];
    let answer = told(turn(&mut out));
    let written = answer.unwrap_or(0);
    let kept = out[written..].iter().all(|unit| *unit == T::from(FILLING));
    assert!(kept, "written behind the result, or on a refusal");
    out.truncate(written);
    answer.map(|_| out)
}

/// The figures in an output of so many.
fn figures(room: usize, images: &[u8]) -> Result<Figures, Refusal> {
    let mut used = 0;
    let figures = turned(room, |out| {
        let (count, length) = spare::figures(images, out)?;
        used = length;
        Ok(count)
    })?;
    Ok((figures, used))
}

fn begin(image: &[u8]) -> Step {
    let mut state = [1; NUMBERS];
    let answer = told(dispatcher::begin(&mut state, image));
    (state, answer)
}

fn go_on(image: &[u8], before: &State, end: u64) -> Step {
    let mut state = *before;
    let answer = dispatcher::go_on(&mut state, image, end);
    (state, answer.map_err(Refusal::of_no_record))
}

/// The calls of the intake.
struct Fast;

impl Calls for Fast {
    fn begin(&self) -> Intake {
        intake::begin()
    }

    fn take(&self, taken: &mut Intake, buffer: &mut [u8], fragment: &[u8]) -> Result<(), Refusal> {
        told(intake::take(taken, buffer, fragment))
    }

    fn close(
        &self,
        taken: &mut Intake,
        buffer: &[u8],
        room: Option<usize>,
    ) -> Result<Closed, Refusal> {
        let Some(room) = room else {
            let length = told(intake::close(taken, buffer))?;
            return Ok((length as u64, Vec::new()));
        };
        let out = turned(room, |out| intake::close_rebuilding(taken, buffer, out))?;
        Ok((out.len() as u64, out))
    }
}
