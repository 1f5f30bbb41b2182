//! What a refusal means: for the number, the place and the byte that the archive gave, what stands there,
//! what the rule says, and by how much it is broken. The rules themselves are in the modules `about_*`.

use crate::about_framing::{cut, end, head, stranger};
use crate::about_sets::{cycle, task};
use crate::about_tables::{late, table_record, without_effect};
use crate::about_timetables::{entry, missing};
use crate::archive::{Kind, Refusal};
use crate::records::decode;
use crate::wording::{by, Explanation};

/// The most bytes of an image that is listed or reported.
pub const LONGEST_PRINTED: usize = 65_536;

/// What a refusal of these bytes means.
pub fn explain(bytes: &[u8], kind: Kind, refusal: Refusal) -> Explanation {
    let image = decode(bytes);
    let found = match refusal.number {
        1 => Some(cut(&image, kind, refusal)),
        2 => Some(stranger(&image, kind, refusal)),
        3..=5 => head(&image, kind, refusal),
        6 | 7 => task(&image, refusal),
        8 | 9 => cycle(&image, refusal.number),
        10 => end(&image, refusal),
        11..=15 => entry(&image, refusal),
        16 => missing(&image, refusal.place),
        17 => table_record(&image, refusal),
        18 => late(&image, refusal.place),
        19 => without_effect(&image, refusal),
        20 => Some(too_long(
            "file",
            format!("an image of at most {LONGEST_PRINTED} bytes is listed"),
        )),
        _ => None,
    };
    found.unwrap_or_else(|| unknown(refusal))
}

/// Stands in where the archive's answer does not fit what was decoded; the tests never see it.
fn unknown(refusal: Refusal) -> Explanation {
    Explanation {
        place: format!(
            "{}, at byte {}, which cannot be decoded",
            refusal.place, refusal.offset
        ),
        rule: format!("number {}", refusal.number),
        broken: Vec::new(),
        before: None,
    }
}

/// What is longer than a program takes.
pub fn too_long(what: &str, rule: String) -> Explanation {
    Explanation {
        place: format!("the {what} as a whole"),
        rule,
        broken: vec![by(1, "there are more: at least 1 too many".into())],
        before: None,
    }
}
