//! The intake written for speed: a fragment is copied behind the others, and a close judges what was
//! copied.

use super::{check_tables, rebuild, Refusal};

/// Open and count; it is open where the first is 1.
pub type Intake = [u64; 2];

const BEGUN: Intake = [1, 0];
const SHUT: Intake = [0, 0];

const REFUSED: Refusal = Refusal {
    number: 20,
    place: 0,
    offset: 0,
};

pub fn begin() -> Intake {
    BEGUN
}

/// Takes a fragment.
#[inline(never)]
pub fn take(intake: &mut Intake, buffer: &mut [u8], fragment: &[u8]) -> Result<(), Refusal> {
    let [open, count] = std::mem::replace(intake, SHUT);
    let free = usize::try_from(count)
        .ok()
        .and_then(|count| buffer.get_mut(count..));
    let into = free.and_then(|free| free.get_mut(..fragment.len()));
    let into = into.filter(|_| open == 1).ok_or(REFUSED)?;
    into.copy_from_slice(fragment);
    *intake = [1, count + fragment.len() as u64];
    Ok(())
}

/// Closes and gives back the length of an accepted image.
pub fn close(intake: &mut Intake, buffer: &[u8]) -> Result<usize, Refusal> {
    let image = taken(intake, buffer)?;
    check_tables(image).map(|()| image.len())
}

/// Closes, rebuilds and gives back the output's length.
pub fn close_rebuilding(
    intake: &mut Intake,
    buffer: &[u8],
    out: &mut [u8],
) -> Result<usize, Refusal> {
    rebuild(taken(intake, buffer)?, out)
}

/// What was taken; the intake is shut.
fn taken<'a>(intake: &mut Intake, buffer: &'a [u8]) -> Result<&'a [u8], Refusal> {
    let [open, count] = std::mem::replace(intake, SHUT);
    let front = usize::try_from(count)
        .ok()
        .and_then(|count| buffer.get(..count));
    front.filter(|_| open == 1).ok_or(REFUSED)
}
