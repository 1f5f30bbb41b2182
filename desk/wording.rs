//! What explanations are put together from: a broken rule, what stands at a place, counts with their nouns.

use crate::archive::Refusal;
use crate::records::{Image, Job, Record, Standing};

/// One way in which a rule is broken, and by how much where that is a number.
pub struct Broken {
    pub text: String,
    // The text has it too; the tests put the image right by this much and ask the archive again.
    #[allow(dead_code)]
    pub by: Option<u64>,
}

pub struct Explanation {
    pub place: String,
    pub rule: String,
    pub broken: Vec<Broken>,
    /// What came right before, where that helps.
    pub before: Option<String>,
}

pub fn explained(place: String, rule: &str, broken: Vec<Broken>) -> Option<Explanation> {
    Some(Explanation {
        place,
        rule: rule.to_string(),
        broken,
        before: None,
    })
}

pub fn by(by: u64, text: String) -> Broken {
    Broken { text, by: Some(by) }
}

pub fn otherwise(text: String) -> Broken {
    Broken { text, by: None }
}

/// A refusal's place that is a record, with the archive's byte for it and what stands there.
pub fn at(image: &Image, refusal: Refusal) -> String {
    let text = match image.standing_at(refusal.offset) {
        Standing::Record(record) => record.text(),
        Standing::Rest(rest) => rest_text(rest.bytes),
        Standing::Nothing => "nothing, the file ends here".to_string(),
    };
    place(refusal.place, refusal.offset, &text)
}

pub fn record_at(record: &Record) -> String {
    place(record.index, record.offset, &record.text())
}

fn place(index: usize, byte: usize, text: &str) -> String {
    format!("record {index}, at byte {byte} ({byte:#X}): {text}")
}

/// Some bytes that are no record, the first of them in hex.
pub fn rest_text(bytes: &[u8]) -> String {
    let shown: Vec<String> = bytes.iter().take(8).map(|b| format!("{b:02X}")).collect();
    let more = if bytes.len() > shown.len() {
        " ..."
    } else {
        ""
    };
    format!(
        "{}: {}{more}",
        many(bytes.len() as u64, "byte"),
        shown.join(" ")
    )
}

pub fn named(job: Job) -> String {
    format!("task {}'s job {}", job.task, job.job)
}

pub fn ticks(count: u64) -> String {
    many(count, "tick")
}

/// A count with its noun.
pub fn many(count: u64, noun: &str) -> String {
    match count {
        1 => format!("1 {noun}"),
        _ => format!("{count} {noun}s"),
    }
}
