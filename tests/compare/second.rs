//! The second opinion: what the independent implementation answers to a case in its written form, at
//! any stage. It is a crate of its own and meets the generators of cases only through that form, so
//! that a slip in it changes answers and not what is asked.

#[allow(dead_code)]
#[path = "../independent/dispatcher.rs"]
mod dispatcher;
#[allow(dead_code)]
#[path = "../independent/form.rs"]
mod form;
#[allow(dead_code)]
#[path = "../independent/independent.rs"]
mod independent;
#[path = "../independent/intake.rs"]
mod intake;
#[path = "../independent/landed.rs"]
pub mod landed;
#[path = "../independent/spare.rs"]
mod spare;

use dispatcher::{Start, SLOTS};
use form::{image_from, image_text, task_from};
use independent::{Refusal, Rules, Task};
use intake::Intake;
use landed::Landed;

/// The answer to a case with these requests landed; none where the case cannot be read.
pub fn answer(landed: Landed, case: &str) -> Option<String> {
    let rules = Rules { landed };
    let words: Vec<&str> = case.split_whitespace().collect();
    match words[..] {
        ["set", n, ref tasks @ ..] => set_answer(rules, n, tasks),
        ["check1", image] => {
            let image = image_from(image)?;
            check_answer(rules, &image, rules.check_timetable(&image))
        }
        ["check2", image] => {
            let image = image_from(image)?;
            check_answer(rules, &image, rules.check_tables(&image))
        }
        ["derive", room, image] => {
            let image = image_from(image)?;
            turn_answer(rules, &image, rules.derive(&image, room.parse().ok()?))
        }
        ["rebuild", room, image] => {
            let image = image_from(image)?;
            turn_answer(rules, &image, rules.rebuild(&image, room.parse().ok()?))
        }
        ["list", image] => Some(rules.listing(&image_from(image)?).join("|")),
        ["begin", image] => {
            let image = image_from(image)?;
            Some(rules.step_text(&rules.begin(&image), &image))
        }
        ["go", image, state, end] => {
            let (image, state) = (image_from(image)?, rules.state_from(state)?);
            let step = rules.go_on(&image, &state, end.parse().ok()?);
            Some(rules.step_text(&step, &image))
        }
        ["run", steps, image] => run_answer(rules, steps.parse().ok()?, &image_from(image)?),
        ["intake", length, room, ref tokens @ ..] if landed.has(1) => {
            intake_answer(rules, length.parse().ok()?, room.parse().ok()?, tokens)
        }
        ["figures", room, images] if landed.has(4) => {
            figures_answer(rules, room.parse().ok()?, &image_from(images)?)
        }
        ["report", images] if landed.has(4) => Some(rules.report(&image_from(images)?).join("|")),
        _ => None,
    }
}

/// A case of one stage as it is written at another: a state has other numbers there, those that are
/// new to it being what they are where nothing is said of them. None where the case cannot be read.
pub fn carried(from: Landed, to: Landed, case: &str) -> Option<String> {
    let [from, to] = [from, to].map(|landed| Rules { landed });
    let words: Vec<&str> = case.split_whitespace().collect();
    match words[..] {
        ["go", image, state, end] => {
            let state = to.state_text(&from.state_from(state)?);
            Some(format!("go {image} {state} {end}"))
        }
        _ => Some(case.to_string()),
    }
}

fn set_answer(rules: Rules, n: &str, tasks: &[&str]) -> Option<String> {
    let mut slots: Vec<Task> = tasks
        .iter()
        .map(|task| task_from(task))
        .collect::<Option<_>>()?;
    slots.resize(SLOTS, Task::default());
    Some(match rules.judge_set(n.parse().ok()?, &slots) {
        Ok(set) => format!("ok {} {}", set.hyperperiod, set.all_jobs()),
        Err(refusal) => refusal.text(),
    })
}

fn check_answer<T>(rules: Rules, image: &[u8], answer: Result<T, Refusal>) -> Option<String> {
    Some(match answer {
        Ok(_) => "ok".to_string(),
        Err(refusal) => rules.refusal_text(refusal, image),
    })
}

fn turn_answer(rules: Rules, image: &[u8], answer: Result<Vec<u8>, Refusal>) -> Option<String> {
    Some(match answer {
        Ok(result) => format!("ok {} {}", result.len(), image_text(&result)),
        Err(refusal) => rules.refusal_text(refusal, image),
    })
}

/// The figures of the image at the front, behind how many they are and how many bytes it has.
fn figures_answer(rules: Rules, room: u64, images: &[u8]) -> Option<String> {
    Some(match rules.figures(images, room) {
        Ok((figures, used)) => {
            let told: Vec<String> = figures.iter().map(i64::to_string).collect();
            format!("ok {} {used} {}", figures.len(), told.join(" "))
        }
        Err(refusal) => rules.refusal_text(refusal, images),
    })
}

/// A beginning and going on after it, each job reporting start + C; the first refusal ends the run.
fn run_answer(rules: Rules, steps: u64, image: &[u8]) -> Option<String> {
    let mut told = Vec::new();
    let (mut state, mut answer) = rules.begin(image);
    for left in (0..steps).rev() {
        match answer {
            Err(refusal) => {
                told.push(rules.refusal_text(refusal, image));
                break;
            }
            Ok(Start {
                task,
                job,
                cycle,
                time,
            }) => {
                told.push(format!("{task} {job} {cycle} {time}"));
                if left > 0 {
                    let end = time + state.tasks[task as usize].time;
                    (state, answer) = rules.go_on(image, &state, end);
                }
            }
        }
    }
    Some(told.join("|"))
}

/// What the holder of an intake, begun over a buffer of so many bytes A5, is told token by token, each
/// with the intake's numbers behind it, and the buffer afterwards.
fn intake_answer(rules: Rules, length: usize, room: u64, tokens: &[&str]) -> Option<String> {
    let mut buffer = vec![0xA5; length];
    let mut intake = Intake::begun();
    let mut told = Vec::new();
    for token in tokens {
        let line = token_answer(rules, &mut intake, &mut buffer, room, token)?;
        told.push(format!("{line} [{},{}]", intake.open, intake.count));
    }
    told.push(format!("buffer {}", image_text(&buffer)));
    Some(told.join("|"))
}

/// What one call on an intake answers, or a change of its numbers.
fn token_answer(
    rules: Rules,
    intake: &mut Intake,
    buffer: &mut [u8],
    room: u64,
    token: &str,
) -> Option<String> {
    let argument = token.get(1..)?;
    let answer = match (&token[..1], argument) {
        ("b", "") => {
            *intake = Intake::begun();
            Ok("begun".to_string())
        }
        ("n", count) => {
            intake.count = count.parse().ok()?;
            Ok("forged".to_string())
        }
        ("o", open) => {
            intake.open = open.parse().ok()?;
            Ok("forged".to_string())
        }
        ("f", fragment) => {
            let taken = intake.take(buffer, &image_from(fragment)?);
            taken.map(|()| "taken".to_string())
        }
        ("c", "") => return closed_answer(rules, intake.close(buffer), None),
        ("r", "") => return closed_answer(rules, intake.close(buffer), Some(room)),
        _ => return None,
    };
    Some(answer.unwrap_or_else(|refusal| rules.refusal_text(refusal, &[])))
}

/// What a close answers for the bytes that were taken: judged alone, or rebuilt into a room.
fn closed_answer(rules: Rules, taken: Result<&[u8], Refusal>, room: Option<u64>) -> Option<String> {
    match (taken, room) {
        (Err(refusal), _) => Some(rules.refusal_text(refusal, &[])),
        (Ok(image), Some(room)) => turn_answer(rules, image, rules.rebuild(image, room)),
        (Ok(image), None) => {
            let length = rules.check_tables(image).map(|_| image.len());
            Some(match length {
                Ok(length) => format!("ok {length}"),
                Err(refusal) => rules.refusal_text(refusal, image),
            })
        }
    }
}
