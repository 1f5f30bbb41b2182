//! Refusals of framing in words: 1 to 5 and 10.

use crate::archive::{Kind, Refusal};
use crate::records::{Body, Fault, Image, Standing};
use crate::wording::{at, by, explained, many, otherwise, Explanation};

const MOST_TASKS: u64 = 16;

pub fn cut(image: &Image, kind: Kind, refusal: Refusal) -> Explanation {
    let due = due_at(image, kind, refusal.place);
    let broken = match image.standing_at(refusal.offset) {
        Standing::Rest(rest) => match rest.fault {
            Fault::Cut(form) => {
                let (whole, there) = (form.length() as u64, rest.bytes.len() as u64);
                let missing = whole - there;
                let mark = form.mark;
                by(
                    missing,
                    format!("{mark} has {whole} bytes, {there} are there: {missing} missing"),
                )
            }
            _ => by(
                1,
                "a mark has 2 bytes, the file ends after its first: 1 missing".into(),
            ),
        },
        _ => {
            let (mark, length) = (due.least, due.least_length);
            let missing = format!("at least {mark} is missing, {}", many(length, "byte"));
            by(length, missing)
        }
    };
    Explanation {
        place: at(image, refusal),
        rule: "every record is whole, and the last one is EN".into(),
        broken: vec![broken],
        before: None,
    }
}

pub fn stranger(image: &Image, kind: Kind, refusal: Refusal) -> Explanation {
    let due = due_at(image, kind, refusal.place);
    let found = match image.standing_at(refusal.offset) {
        Standing::Record(record) => format!("{} stands here", record.form.mark),
        Standing::Rest(rest) => match rest.fault {
            Fault::Cut(form) => format!("{} begins here", form.mark),
            _ => format!("{:02X} {:02X} is no mark", rest.bytes[0], rest.bytes[1]),
        },
        Standing::Nothing => "nothing stands here".to_string(),
    };
    Explanation {
        place: at(image, refusal),
        rule: format!("here comes {}{}", due.marks, due.because),
        broken: vec![otherwise(found)],
        before: None,
    }
}

/// What may stand at a place, and the shortest way to the end from there.
struct Due {
    marks: &'static str,
    because: String,
    least: &'static str,
    least_length: u64,
}

fn due_at(image: &Image, kind: Kind, place: usize) -> Due {
    let n = match image.records.first().map(|first| first.body) {
        Some(Body::Ts { n, .. }) if place > 0 => n,
        _ => {
            return Due {
                marks: "TS",
                because: ", the first record of every image".into(),
                least: "TS",
                least_length: 5,
            }
        }
    };
    if place as u64 <= n {
        return Due {
            marks: "TK",
            because: format!(", the record of task {} of {n}", place - 1),
            least: "TK",
            least_length: 18,
        };
    }
    let after_pv = image.records[place - 1].form.mark == "PV";
    let (marks, because) = match kind {
        Kind::Timetable => ("SL or EN", ": this is a timetable image"),
        Kind::Tables if after_pv => ("PV or EN", ": a PV went before"),
        Kind::Tables => ("ID, PV or EN", ": this is a table image"),
    };
    Due {
        marks,
        because: because.into(),
        least: "EN",
        least_length: 6,
    }
}

pub fn head(image: &Image, wanted: Kind, refusal: Refusal) -> Option<Explanation> {
    let Body::Ts { edition, kind, n } = image.record_at(refusal.offset)?.body else {
        return None;
    };
    let place = at(image, refusal);
    match refusal.number {
        3 => {
            let broken = otherwise(format!("the edition is {edition}"));
            explained(place, "the edition is 1", vec![broken])
        }
        4 => {
            let rule = format!(
                "the kind is {}, as is asked for: a {} image",
                wanted.number(),
                wanted.name()
            );
            let named = match u8::try_from(kind).ok().and_then(Kind::of_byte) {
                Some(kind) => format!(", a {} image", kind.name()),
                None => ", which is no kind".into(),
            };
            let broken = otherwise(format!("the kind is {kind}{named}"));
            explained(place, &rule, vec![broken])
        }
        _ => {
            let (amount, side) = match n {
                0 => (1, "few"),
                _ => (n - MOST_TASKS, "many"),
            };
            let broken = by(amount, format!("n is {n}: {amount} too {side}"));
            explained(place, "a set has 1 to 16 tasks", vec![broken])
        }
    }
}

pub fn end(image: &Image, refusal: Refusal) -> Option<Explanation> {
    let Body::En { before } = image.record_at(refusal.offset)?.body else {
        return None;
    };
    let mut broken = Vec::new();
    let (said, there) = (before, refusal.place as u64);
    if said != there {
        let (amount, side) = (
            said.abs_diff(there),
            if said > there { "many" } else { "few" },
        );
        let said = many(said, "record");
        let text = format!("EN says {said} before it, there are {there}: {amount} too {side}");
        broken.push(by(amount, text));
    }
    if let Some(rest) = &image.rest {
        let length = rest.bytes.len() as u64;
        let verb = if length == 1 { "follows" } else { "follow" };
        let text = format!("{} {verb} EN", many(length, "byte"));
        broken.push(by(length, text));
    }
    let rule = "EN says how many records come before it, and nothing follows it";
    explained(at(image, refusal), rule, broken)
}
