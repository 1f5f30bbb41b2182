//! The rows of an ordinary hex dump, 16 bytes each, around the byte that a refusal is about.

use crate::records::{decode, Fault, Rest, Standing};
use std::ops::Range;

const ROW: usize = 16;

/// The rows that hold what stands at a byte, its bytes between brackets.
pub fn rows(image: &[u8], byte: usize) -> Vec<String> {
    let length = match decode(image).standing_at(byte) {
        Standing::Record(record) => record.bytes.len(),
        Standing::Rest(Rest {
            fault: Fault::NoMark,
            ..
        }) => 2,
        Standing::Rest(rest) => rest.bytes.len(),
        Standing::Nothing => 0,
    };
    let (first, last) = (byte, byte + length.saturating_sub(1));
    (first / ROW..=last / ROW)
        .map(|number| row(image, number * ROW, byte..byte + length))
        .collect()
}

fn row(image: &[u8], from: usize, marked: Range<usize>) -> String {
    let to = image.len().min(from + ROW);
    let mut text = format!("{from:08X} ");
    for at in from..=to {
        text += match (at == marked.start, at == marked.end) {
            (true, true) => "[]",
            (true, false) => "[",
            (false, true) => "]",
            (false, false) => " ",
        };
        if at < to {
            text += &format!("{:02X}", image[at]);
        }
    }
    text.trim_end().to_string()
}
