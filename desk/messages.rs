//! Verdicts as a person wants them, and the documents' lines for them.

use crate::archive::{derive, Kind, Refusal};
use crate::explain::explain;
use crate::records::{decode, Set};
use crate::rows::rows;
use crate::wording::{many, ticks, Explanation};

/// The kind that an image is asked as, and whether the file or the user named it.
#[derive(Clone, Copy)]
pub struct Asked {
    pub kind: Kind,
    pub named: bool,
}

/// What the listing and the report give by themselves, for what is longer than they take.
pub const TOO_LONG: Refusal = Refusal {
    number: 20,
    place: 0,
    offset: 0,
};

/// The documents' line for a verdict.
pub fn plain(bytes: &[u8], verdict: Result<(), Refusal>) -> String {
    match verdict {
        Ok(()) => format!("ok {}\n", Set::of_accepted(&decode(bytes)).jobs),
        Err(refusal) => refused_line(refusal) + "\n",
    }
}

pub fn refused_line(refusal: Refusal) -> String {
    format!(
        "refused {} {} {}",
        refusal.number, refusal.place, refusal.offset
    )
}

/// A verdict on a named image, in words.
pub fn verdict(name: &str, bytes: &[u8], asked: Asked, verdict: Result<(), Refusal>) -> String {
    match verdict {
        Ok(()) => format!(
            "{name}: accepted as a {} image: {}\n",
            asked.kind.name(),
            summary(asked.kind, bytes)
        ),
        Err(refusal) => refused_as(name, asked, refusal) + &explanation(bytes, asked, refusal),
    }
}

/// The first line about a refusal of a named image.
pub fn refused_as(name: &str, asked: Asked, refusal: Refusal) -> String {
    let (line, kind) = (refused_line(refusal), asked.kind.name());
    format!("{name}: {line}, asked as a {kind} image\n")
}

/// What an accepted image holds.
pub fn summary(kind: Kind, bytes: &[u8]) -> String {
    let derived = match kind {
        Kind::Timetable => derive(bytes).expect("an accepted timetable has tables"),
        Kind::Tables => bytes.to_vec(),
    };
    let tables = decode(&derived);
    let set = Set::of_accepted(&tables);
    format!(
        "{}, {} in a cycle of {}; {}, {}",
        many(set.tasks.len() as u64, "task"),
        many(set.jobs, "job"),
        ticks(set.hyperperiod),
        many(tables.count("ID") as u64, "forced idle"),
        many(tables.count("PV") as u64, "inversion")
    )
}

/// The lines below a refusal's own.
pub fn explanation(bytes: &[u8], asked: Asked, refusal: Refusal) -> String {
    let told = explain(bytes, asked.kind, refusal);
    explained_lines(bytes, asked, refusal, told)
}

pub fn explained_lines(bytes: &[u8], asked: Asked, refusal: Refusal, told: Explanation) -> String {
    let mut lines = vec![format!("  place   {}", told.place)];
    let rows = refusal.byte().map(|byte| rows(bytes, byte));
    let rows = rows.iter().flatten();
    lines.extend(rows.map(|row| format!("  bytes   {row}")));
    lines.push(format!("  rule    {}", told.rule));
    let broken = told.broken.iter();
    lines.extend(broken.map(|broken| format!("  broken  {}", broken.text)));
    lines.extend(told.before.map(|before| format!("  before  {before}")));
    if !asked.named {
        lines.push(
            "  kind    the file does not tell; as a table image unless --kind 1 is given".into(),
        );
    }
    lines.join("\n") + "\n"
}
