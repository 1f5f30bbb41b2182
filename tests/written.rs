//! Cases in their written form, `OP ARGUMENTS [=> ANSWER]`, and what the archive answers to them.

#[path = "hex.rs"]
mod hex;

use crate::archive::{
    begin, check_tables, check_timetable, derive, figures, go_on, intake_begin, intake_close,
    intake_take, judge_set, rebuild, Closed, Figures, Intake, Refusal, Start, State, Step, SLOTS,
    TASKS, TASK_NUMBERS,
};
pub use hex::{bytes_from, text_of};

/// The operations that the archive has; a run is a row of its calls, and so is a report.
pub const OPERATIONS: [&str; 11] = [
    "set", "check1", "check2", "derive", "rebuild", "begin", "go", "run", "intake", "figures",
    "report",
];

/// The most figures that an image has: three, those of 16 tasks and of 4,096 jobs with stretches before,
/// between and behind their intervals.
const MOST_FIGURES: usize = 3 + SLOTS + 4_096 + 4_097;

/// The most bytes of an image that a report frames, and the most images of its line.
const LONGEST_REPORTED: usize = 65_536;
const MOST_IMAGES: usize = 10_000;

/// So many bytes are held at first to report an image, and so many of its figures.
const FEW_BYTES: usize = 128;
const FEW_FIGURES: usize = 32;

/// What the buffer of an intake holds at first.
const DIRT: u8 = 0xA5;

/// The operation of a case.
pub fn operation(case: &str) -> &str {
    case.split_whitespace().next().unwrap_or("")
}

/// The calls of a case, by name, each with what it told: one, but for an intake every fragment and every
/// close; a report told at last whether it was refused.
pub fn calls<'a>(case: &'a str, answer: &'a str) -> Vec<(&'a str, &'a str)> {
    match operation(case) {
        "intake" => {}
        "report" => return vec![("report", answer.rsplit('|').next().unwrap_or(answer))],
        operation => return vec![(operation, answer)],
    }
    let name = |token: &str| match token.as_bytes().first() {
        Some(b'f') => Some("intake-f"),
        Some(b'c') => Some("intake-c"),
        Some(b'r') => Some("intake-r"),
        _ => None,
    };
    let tokens = case.split_whitespace().skip(3).map(name);
    let told = tokens.zip(answer.split('|'));
    told.filter_map(|(name, line)| Some((name?, line)))
        .collect()
}

/// The archive's answer to a case; an error where it is none that the archive can be asked.
pub fn archive_answer(case: &str) -> Result<String, String> {
    let words: Vec<&str> = case.split_whitespace().collect();
    let known = match words[..] {
        ["set", n, ref tasks @ ..] => set_answer(case, n, tasks),
        ["check1", image] => check_answer(image, |image| check_timetable(&case, image)),
        ["check2", image] => check_answer(image, |image| check_tables(&case, image)),
        ["derive", room, image] => {
            turn_answer(room, image, |room, image| derive(&case, room, image))
        }
        ["rebuild", room, image] => {
            turn_answer(room, image, |room, image| rebuild(&case, room, image))
        }
        ["begin", image] => bytes_from(image).map(|image| step_text(&begin(&case, &image))),
        ["go", image, state, end] => go_answer(image, state, end, |image, state, end| {
            go_on(&case, image, state, end)
        }),
        ["run", steps, image] => run_answer(
            steps,
            image,
            |image| begin(&case, image),
            |image, state, end| go_on(&case, image, state, end),
        ),
        ["intake", length, room, ref tokens @ ..] => {
            intake_answer(&Guarded { case }, length, room, tokens)
        }
        ["figures", room, images] => {
            figures_answer(room, images, |room, images| figures(&case, room, images))
        }
        ["report", images] => report_answer(images, |room, images| figures(&case, room, images)),
        _ if OPERATIONS.contains(&operation(case)) => None,
        _ => {
            return Err(format!(
                "the archive has no operation '{}'",
                operation(case)
            ))
        }
    };
    known.ok_or_else(|| format!("the arguments cannot be read: {case}"))
}

fn set_answer(case: &str, n: &str, tasks: &[&str]) -> Option<String> {
    let tasks: Vec<[u32; 4]> = tasks
        .iter()
        .map(|task| task_from(task))
        .collect::<Option<_>>()?;
    if tasks.len() > SLOTS {
        return None;
    }
    Some(match judge_set(&case, n.parse().ok()?, &tasks) {
        Ok((hyperperiod, jobs)) => format!("ok {hyperperiod} {jobs}"),
        Err((number, place)) => format!("refused {number} {place}"),
    })
}

/// The answer of a function that checks an image.
pub fn check_answer(
    image: &str,
    check: impl FnOnce(&[u8]) -> Result<(), Refusal>,
) -> Option<String> {
    Some(match check(&bytes_from(image)?) {
        Ok(()) => "ok".to_string(),
        Err(refusal) => refusal_text(refusal),
    })
}

/// The answer of a function that turns an image into an output of so many bytes.
pub fn turn_answer(
    room: &str,
    image: &str,
    turn: impl FnOnce(usize, &[u8]) -> Result<Vec<u8>, Refusal>,
) -> Option<String> {
    Some(match turn(room.parse().ok()?, &bytes_from(image)?) {
        Ok(result) => format!("ok {} {}", result.len(), text_of(&result)),
        Err(refusal) => refusal_text(refusal),
    })
}

/// The answer of a function that goes on.
pub fn go_answer(
    image: &str,
    state: &str,
    end: &str,
    go_on: impl Fn(&[u8], &State, u64) -> Step,
) -> Option<String> {
    let state: State = numbers_from(state)?.try_into().ok()?;
    let step = go_on(&bytes_from(image)?, &state, end.parse().ok()?);
    Some(step_text(&step))
}

/// The starts of a beginning and of going on after it, each job reporting start + C; the first
/// refusal ends the run.
pub fn run_answer(
    steps: &str,
    image: &str,
    begin: impl Fn(&[u8]) -> Step,
    go_on: impl Fn(&[u8], &State, u64) -> Step,
) -> Option<String> {
    let image = bytes_from(image)?;
    let mut step = begin(&image);
    let mut told = vec![answer_text(&step.1)];
    for _ in 1..steps.parse::<u64>().ok()? {
        let (state, Ok(start)) = step else {
            break;
        };
        let [task, .., time] = start;
        let declared = state[TASKS + TASK_NUMBERS * (task as usize % SLOTS) + 1];
        step = go_on(&image, &state, time + u64::from(declared));
        told.push(answer_text(&step.1));
    }
    Some(told.join("|"))
}

/// The answer of a function that gives the figures of the image at the front.
pub fn figures_answer(
    room: &str,
    images: &str,
    figures: impl FnOnce(usize, &[u8]) -> Result<Figures, Refusal>,
) -> Option<String> {
    Some(match figures(room.parse().ok()?, &bytes_from(images)?) {
        Ok((figures, used)) => {
            let told: Vec<String> = figures.iter().map(i64::to_string).collect();
            format!("ok {} {used} {}", figures.len(), told.join(" "))
        }
        Err(refusal) => refusal_text(refusal),
    })
}

/// The report that such a function gives over a line of images, called image by image under the report's
/// limits; the first refusal ends it.
pub fn report_answer(
    images: &str,
    figures: impl Fn(usize, &[u8]) -> Result<Figures, Refusal>,
) -> Option<String> {
    let images = bytes_from(images)?;
    let mut rest = &images[..];
    let mut told: Vec<String> = Vec::new();
    for reported in 0.. {
        let answer = match reported {
            MOST_IMAGES => Err(Refusal::of_no_record(20)),
            _ => next_figures(rest, &figures),
        };
        match answer {
            Ok((figures, used)) => {
                told.extend(figures.iter().map(i64::to_string));
                rest = &rest[used..];
            }
            Err(refusal) => {
                told.push(refusal_text(refusal));
                break;
            }
        }
        if rest.is_empty() {
            break;
        }
    }
    Some(told.join("|"))
}

/// The figures of the next image, asked for as by one who reads a stream: with more and more of its bytes
/// as long as they end inside it, and with room for all figures where there are not few.
fn next_figures(
    rest: &[u8],
    figures: &impl Fn(usize, &[u8]) -> Result<Figures, Refusal>,
) -> Result<Figures, Refusal> {
    let most = rest.len().min(LONGEST_REPORTED);
    let mut held = most.min(FEW_BYTES);
    let mut room = FEW_FIGURES;
    loop {
        match figures(room, &rest[..held]) {
            Err(Refusal { number: 1, .. }) if held < most => held = most.min(8 * held),
            Err(Refusal { number: 1, .. }) if held < rest.len() => {
                return Err(Refusal::of_no_record(20))
            }
            Err(Refusal { number: 20, .. }) if room < MOST_FIGURES => room = MOST_FIGURES,
            answer => return answer,
        }
    }
}

/// The calls of an intake.
pub trait Calls {
    fn begin(&self) -> Intake;
    fn take(&self, intake: &mut Intake, buffer: &mut [u8], fragment: &[u8]) -> Result<(), Refusal>;
    /// Closes; with a room it rebuilds.
    fn close(
        &self,
        intake: &mut Intake,
        buffer: &[u8],
        room: Option<usize>,
    ) -> Result<Closed, Refusal>;
}

/// Those of the archive, for a case.
struct Guarded<'a> {
    case: &'a str,
}

impl Calls for Guarded<'_> {
    fn begin(&self) -> Intake {
        intake_begin(&self.case)
    }

    fn take(&self, intake: &mut Intake, buffer: &mut [u8], fragment: &[u8]) -> Result<(), Refusal> {
        intake_take(&self.case, intake, buffer, fragment)
    }

    fn close(
        &self,
        intake: &mut Intake,
        buffer: &[u8],
        room: Option<usize>,
    ) -> Result<Closed, Refusal> {
        intake_close(&self.case, intake, buffer, room)
    }
}

/// The answers to an intake's tokens, each with the intake's numbers after it, and the buffer.
pub fn intake_answer(
    calls: &impl Calls,
    length: &str,
    room: &str,
    tokens: &[&str],
) -> Option<String> {
    let mut buffer = vec![DIRT; length.parse().ok()?];
    let room = room.parse().ok()?;
    let mut intake = calls.begin();
    let mut told = Vec::new();
    for token in tokens {
        let line = token_answer(calls, &mut intake, &mut buffer, room, token)?;
        let [open, count] = intake;
        told.push(format!("{line} [{open},{count}]"));
    }
    told.push(format!("buffer {}", text_of(&buffer)));
    Some(told.join("|"))
}

/// The answer to one token.
fn token_answer(
    calls: &impl Calls,
    intake: &mut Intake,
    buffer: &mut [u8],
    room: usize,
    token: &str,
) -> Option<String> {
    match (token.get(..1)?, &token[1..]) {
        ("b", "") => {
            *intake = calls.begin();
            Some("begun".to_string())
        }
        ("o", open) => {
            intake[0] = open.parse().ok()?;
            Some("forged".to_string())
        }
        ("n", count) => {
            intake[1] = count.parse().ok()?;
            Some("forged".to_string())
        }
        ("f", fragment) => {
            let taken = calls.take(intake, buffer, &bytes_from(fragment)?);
            Some(taken.map_or_else(refusal_text, |()| "taken".to_string()))
        }
        ("c", "") => Some(closed_text(calls.close(intake, buffer, None), false)),
        ("r", "") => Some(closed_text(calls.close(intake, buffer, Some(room)), true)),
        _ => None,
    }
}

/// What a close told; the output where it rebuilt.
pub fn closed_text(answer: Result<Closed, Refusal>, rebuilt: bool) -> String {
    match answer {
        Ok((length, out)) if rebuilt => format!("ok {length} {}", text_of(&out)),
        Ok((length, _)) => format!("ok {length}"),
        Err(refusal) => refusal_text(refusal),
    }
}

/// A dispatcher's answer with the state after it; a start is named as such.
pub fn step_text((state, answer): &Step) -> String {
    let named = if answer.is_ok() { "start " } else { "" };
    let numbers: Vec<String> = state.iter().map(u32::to_string).collect();
    format!("{named}{} state {}", answer_text(answer), numbers.join(","))
}

fn answer_text(answer: &Result<Start, Refusal>) -> String {
    match answer {
        Ok([task, job, cycle, time]) => format!("{task} {job} {cycle} {time}"),
        Err(refusal) => refusal_text(*refusal),
    }
}

/// The refusal of an image.
fn refusal_text(refusal: Refusal) -> String {
    let Refusal {
        number,
        place,
        offset,
    } = refusal;
    format!("refused {number} {place} {offset}")
}

fn task_from(text: &str) -> Option<[u32; 4]> {
    numbers_from(text)?.try_into().ok()
}

/// Numbers separated by commas.
fn numbers_from(text: &str) -> Option<Vec<u32>> {
    text.split(',').map(|number| number.parse().ok()).collect()
}
