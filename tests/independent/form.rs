//! The written form of cases: images in hex, tasks, states and refusals.

use crate::dispatcher::{State, Step};
use crate::independent::{Rules, Task};

/// An image as hex, `-` for no bytes.
pub fn image_text(image: &[u8]) -> String {
    if image.is_empty() {
        return "-".to_string();
    }
    let digit = |value: u8| char::from(b"0123456789abcdef"[usize::from(value)]);
    let digits = image.iter().flat_map(|byte| [byte >> 4, byte & 15]);
    digits.map(digit).collect()
}

pub fn image_from(text: &str) -> Option<Vec<u8>> {
    if text == "-" {
        return Some(Vec::new());
    }
    if text.len() % 2 != 0 || !text.bytes().all(|digit| digit.is_ascii_hexdigit()) {
        return None;
    }
    (0..text.len())
        .step_by(2)
        .map(|i| u8::from_str_radix(&text[i..i + 2], 16).ok())
        .collect()
}

/// Numbers separated by commas, each of at most 32 bits.
pub fn numbers_from(text: &str) -> Option<Vec<u64>> {
    text.split(',')
        .map(|number| number.parse::<u32>().ok().map(u64::from))
        .collect()
}

pub fn task_text(task: &Task) -> String {
    format!(
        "{},{},{},{}",
        task.offset, task.time, task.period, task.deadline
    )
}

pub fn task_from(text: &str) -> Option<Task> {
    match numbers_from(text)?[..] {
        [offset, time, period, deadline] => Some(Task {
            offset,
            time,
            period,
            deadline,
        }),
        _ => None,
    }
}

impl Rules {
    pub fn state_text(&self, state: &State) -> String {
        let numbers = self.numbers_of(state);
        let texts: Vec<String> = numbers.iter().map(u64::to_string).collect();
        texts.join(",")
    }

    pub fn state_from(&self, text: &str) -> Option<State> {
        self.state_of(&numbers_from(text)?)
    }

    /// The dispatcher's answer for an image, with the state after it.
    pub fn step_text(&self, (state, answer): &Step, image: &[u8]) -> String {
        let answer = match answer {
            Ok(start) => format!(
                "start {} {} {} {}",
                start.task, start.job, start.cycle, start.time
            ),
            Err(refusal) => self.refusal_text(*refusal, image),
        };
        format!("{answer} state {}", self.state_text(state))
    }
}
