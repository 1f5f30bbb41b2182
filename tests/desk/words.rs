//! The words about a refusal: about the record at its place and at the archive's byte, with an amount where
//! the rule has one; that byte marked in the dumps.

use crate::archive::{Kind, Refusal};
use crate::demand;
use crate::independent::{front, offset_of, record_length, Front, Record};
use crate::messages::{explanation, plain, Asked};
use crate::show::dump;
use crate::wording::Explanation;

/// Holds that the words name what stands at the refusal's place, and the byte at which that begins.
pub fn hold(image: &[u8], refusal: Refusal, told: &Explanation) {
    let Refusal { number, place, .. } = refusal;
    let standing = standing(image, refusal);
    let byte = standing.as_ref().map_or(0, |standing| standing.byte);
    let line = format!("refused {number} {place} {byte}\n");
    demand(
        plain(image, Err(refusal)) == line,
        image,
        &format!("{refusal:?} is not {line}"),
    );
    let beginning = match (standing, number) {
        (Some(Standing { text, .. }), _) => {
            format!("record {place}, at byte {byte} (0x{byte:X}): {text}")
        }
        (None, 16) => format!("task {place}, "),
        (None, 18) => format!("start {place} of the cycle"),
        _ => "the set as a whole: periods ".to_string(),
    };
    demand(
        told.place.starts_with(&beginning),
        image,
        &format!("the place is not that of {refusal:?}: {}", told.place),
    );
    demand(
        !told.broken.is_empty(),
        image,
        &format!("nothing is broken: {refusal:?}"),
    );
    for broken in &told.broken {
        let amount = match broken.by {
            Some(by) => by > 0 && broken.text.contains(&by.to_string()),
            None => matches!(number, 2..=4) || broken.text.contains(" is not above "),
        };
        demand(
            amount,
            image,
            &format!("no amount: {refusal:?}: {}", broken.text),
        );
    }
}

/// What stands where a refusal's place names a record: the byte at which it begins, how many bytes of it are
/// there, and how its text begins.
struct Standing {
    byte: usize,
    length: usize,
    text: String,
}

/// None where the place names no record. The byte is not the archive's: it is worked out from the place.
fn standing(image: &[u8], refusal: Refusal) -> Option<Standing> {
    if matches!(refusal.number, 8 | 9 | 16 | 18) {
        return None;
    }
    let byte = offset_of(image, refusal.place);
    let left = image.len() - byte;
    let (length, text) = match front(&image[byte..]) {
        Front::Whole(record) => (record_length(record.mark()), text_of(record)),
        _ if left == 0 => (0, "nothing".to_string()),
        Front::NoMark => (2, format!("{left} byte")),
        _ => (left, format!("{left} byte")),
    };
    Some(Standing { byte, length, text })
}

fn text_of(record: Record) -> String {
    match record {
        Record::Ts { edition, kind, n } => format!("TS edition {edition}, kind {kind}, n {n}"),
        Record::Tk(t) => format!(
            "TK O {}, C {}, T {}, D {}",
            t.offset, t.time, t.period, t.deadline
        ),
        Record::Sl(entry) => format!("SL task {}, start {}", entry.task, entry.start),
        Record::Id(idle) => format!("ID start {}, length {}", idle.start, idle.length),
        Record::Pv(pv) => format!("PV task {}, job {}, delay {}", pv.task, pv.job, pv.delay),
        Record::En(number) => format!("EN records before {number}"),
    }
}

/// Holds that a dump has the image's bytes, all and in their order, and marks the line that begins at the
/// byte of a refusal where its place is a record.
pub fn hold_dump(image: &[u8], refusal: Option<Refusal>) {
    let text = dump(image, refusal);
    let lines: Vec<&str> = text.lines().skip(1).collect();
    let hex: String = lines
        .iter()
        .flat_map(|line| line.chars().skip(27).take(41))
        .collect();
    let hex: String = hex.split_whitespace().collect();
    let bytes: String = image.iter().map(|byte| format!("{byte:02X}")).collect();
    demand(hex == bytes, image, "the dump has other bytes");
    let marked: Vec<&str> = lines
        .into_iter()
        .filter(|line| line.starts_with('>'))
        .collect();
    let held = match refusal.and_then(|refusal| standing(image, refusal)) {
        Some(Standing { byte, .. }) => {
            let bytes = format!("{byte:6}  {:>7}  ", format!("0x{byte:X}"));
            matches!(marked[..], [line] if line[10..].starts_with(&bytes))
        }
        None => marked.is_empty(),
    };
    demand(held, image, "the dump marks another byte");
}

/// Holds that the rows below a place are those of an ordinary hex dump, with brackets around what stands at
/// the place and nothing else.
pub fn hold_rows(kind: Kind, image: &[u8], refusal: Refusal) {
    let text = explanation(image, Asked { kind, named: true }, refusal);
    let rows: Vec<&str> = text
        .lines()
        .filter_map(|line| line.strip_prefix("  bytes   "))
        .collect();
    let Some(Standing { byte, length, .. }) = standing(image, refusal) else {
        demand(rows.is_empty(), image, "rows of bytes for no record");
        return;
    };
    let mut brackets = Vec::new();
    let mut at = byte / 16 * 16;
    for row in rows {
        let (offset, mut row) = row.split_at(8);
        demand(offset == format!("{at:08X}"), image, "a row out of turn");
        let end = image.len().min(at + 16);
        while !row.is_empty() {
            let width = match row.as_bytes()[0] {
                b' ' => 1,
                b'[' | b']' => {
                    brackets.push((&row[..1], at));
                    1
                }
                _ => {
                    let held = at < end && row[..2] == format!("{:02X}", image[at]);
                    demand(held, image, "a row has other bytes");
                    at += 1;
                    2
                }
            };
            row = &row[width..];
        }
        demand(at == end, image, "a row is cut");
    }
    demand(
        brackets == [("[", byte), ("]", byte + length)],
        image,
        "the brackets are around other bytes",
    );
}
