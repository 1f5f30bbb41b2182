//! Offsets at the very end of 32 bits: the one place where a record may stand whole in an image and
//! still end behind byte 4,294,967,295, which only an image of more than 4 GiB shows; and an intake
//! whose buffer is as long, with counts about there. Its bytes are memory that is nearly all never
//! touched. What is expected is written here by hand. Only on a machine that has no such memory may
//! these cases be left out, and then the report says so.

use crate::archive::{
    hv_go_on, hv_intake_close, hv_intake_rebuild, hv_intake_take, NEXT, NOW, NUMBERS, TASKS,
};
use crate::asking::Asking;
use crate::edges::by_hand;
use crate::images::records_of;
use crate::independent::{encode, TABLES};
use std::alloc::{alloc_zeroed, dealloc, Layout};

const BORDER: usize = 1 << 32;
const LENGTH: usize = BORDER + 4_096;

/// A PV of task 1's job 0 with delay 1, an ID at instant 7 that is in its range and is not used,
/// and an EN.
const PV: &[u8] = b"PV\x01\x00\x00\x00\x00\x00\x01";
const ID: &[u8] = b"ID\x00\x00\x00\x07\x00\x01";
const EN: &[u8] = b"EN\x00\x00\x00\x00";

/// The places in the state: ID offset, and task 1's PV offset.
const IDLE: usize = NOW;
const OF_TASK_1: usize = NOW + 2;

/// A fragment, and the counts with which it is taken: across the border, behind it, up to the buffer's
/// end, one byte too far, and above the buffer's length.
const FRAGMENT: &[u8; 8] = b"fragment";
const COUNTS: [usize; 6] = [
    BORDER - 4,
    BORDER,
    BORDER + 91,
    LENGTH - FRAGMENT.len(),
    LENGTH - FRAGMENT.len() + 1,
    LENGTH + 1,
];

/// The cases that there are.
pub const CASES: u64 = 18;

/// For going on, two tasks (0,1,10,10), of which task 0's job runs from 0: task 1's starts at 1.
pub fn compare_all(asking: &mut Asking) {
    let layout = Layout::array::<u8>(LENGTH).expect("an address has 64 bits");
    // SAFETY: the layout is not empty.
    let image = unsafe { alloc_zeroed(layout) };
    if image.is_null() {
        return;
    }
    for (record, number) in [
        (EN, IDLE),
        (EN, OF_TASK_1),
        (ID, IDLE),
        (PV, IDLE),
        (PV, OF_TASK_1),
    ] {
        for ends_at in [BORDER - 1, BORDER] {
            if !asking.over() {
                compare(asking, image, record, number, ends_at);
            }
        }
    }
    for count in COUNTS {
        if !asking.over() {
            compare_take(asking, image, count);
        }
    }
    for rebuilds in [false, true] {
        if !asking.over() {
            compare_close(asking, image, rebuilds);
        }
    }
    // SAFETY: it was allocated with this layout.
    unsafe { dealloc(image, layout) };
}

/// Puts the record so that it ends there, and an EN at the front for the other offsets.
fn compare(asking: &mut Asking, image: *mut u8, record: &[u8], number: usize, ends_at: usize) {
    let at = ends_at - record.len();
    let mut state = state();
    state[number] = at as u32;
    let mut start = [9u64; 4];
    // SAFETY: both records lie in the image, which nothing else refers to; the state and the start
    // have as many numbers as the header asks for.
    let answer = unsafe {
        image.copy_from_nonoverlapping(EN.as_ptr(), EN.len());
        image
            .add(at)
            .copy_from_nonoverlapping(record.as_ptr(), record.len());
        let answer = hv_go_on(state.as_mut_ptr(), image, LENGTH, 1, start.as_mut_ptr());
        image.add(at).write_bytes(0, record.len());
        answer
    };
    let moved = if record == PV && number == OF_TASK_1 {
        ends_at
    } else {
        at
    };
    let expected = if ends_at < BORDER {
        (0, [1, 0, 0, 1], moved as u32)
    } else {
        (25, [9; 4], 0)
    };
    let told = (answer, start, state[number]);
    let mark = String::from_utf8_lossy(&record[..2]);
    let case =
        format!("an image of {LENGTH} bytes, {mark} at {at} for number {number} of the state");
    asking.compare(&case, &format!("{expected:?}"), &format!("{told:?}"));
}

/// Takes the fragment with this count; the buffer's front, where its lower 32 bits are, is to stay 0.
fn compare_take(asking: &mut Asking, buffer: *mut u8, count: usize) {
    let mut intake = [1, count as u64];
    let fits = count + FRAGMENT.len() <= LENGTH;
    let at = if fits { count } else { 0 };
    // SAFETY: the buffer has as many bytes as is said, and nothing else refers to it; all that is read
    // or put back lies in it.
    let (answer, there, kept) = unsafe {
        buffer.write_bytes(0, EN.len());
        let (k, from) = (intake.as_mut_ptr(), FRAGMENT.as_ptr());
        let answer = hv_intake_take(k, buffer, LENGTH, from, FRAGMENT.len());
        let place = buffer.add(at).cast::<[u8; FRAGMENT.len()]>();
        let there = place.read();
        place.write_bytes(0, 1);
        let mut front = 0..2 * (LENGTH - BORDER);
        (answer, there, front.all(|i| buffer.add(i).read() == 0))
    };
    let expected = if fits {
        let after = (count + FRAGMENT.len()) as u64;
        (0, [1, after], *FRAGMENT, true)
    } else {
        (20, [0, 0], [0; FRAGMENT.len()], true)
    };
    let told = (answer, intake, there, kept);
    let case = format!("a fragment with count {count} into a buffer of {LENGTH} bytes");
    asking.compare(&case, &format!("{expected:?}"), &format!("{told:?}"));
}

/// Closes with P2's image of 91 bytes at the buffer's front and a count of 91 and 2^32: bytes follow EN.
fn compare_close(asking: &mut Asking, buffer: *mut u8, rebuilds: bool) {
    let (set, entries) = by_hand();
    let image = encode(&records_of(&set, &entries, TABLES));
    let mut intake = [1, (BORDER + image.len()) as u64];
    let (mut location, mut length, mut out) = ([9; 2], 9, [9; 114]);
    // SAFETY: the image lies in the buffer, which has as many bytes as is said, as the output has, and
    // which nothing else refers to.
    let answer = unsafe {
        buffer.copy_from_nonoverlapping(image.as_ptr(), image.len());
        let (k, at) = (intake.as_mut_ptr(), location.as_mut_ptr());
        let answer = if rebuilds {
            let (to, room) = (out.as_mut_ptr(), out.len());
            hv_intake_rebuild(k, buffer, LENGTH, to, room, at, &mut length)
        } else {
            hv_intake_close(k, buffer, LENGTH, at, &mut length)
        };
        buffer.write_bytes(0, image.len());
        answer
    };
    let told = (answer, location, intake, length, out == [9; 114]);
    let expected = (10, [7, 85], [0, 0], 9, true);
    let case = format!("a close with a count of 2^32 + 91, rebuilding: {rebuilds}");
    asking.compare(&case, &format!("{expected:?}"), &format!("{told:?}"));
}

/// What the report's last line says, given how many of these cases were asked, and whether that
/// will do.
pub fn report(asked: u64) -> (String, bool) {
    if asked == CASES {
        return (format!("{CASES} of them of 4 GiB"), true);
    }
    let without = available().is_some_and(|bytes| bytes <= LENGTH as u64);
    let why = if without {
        "no memory is there for them"
    } else {
        "and there is memory for them"
    };
    let line = format!("NOT RUN: {} cases of 4 GiB, {why}", CASES - asked);
    (line, without)
}

/// The bytes of memory that the machine still has to give; none where it does not say.
fn available() -> Option<u64> {
    let all = std::fs::read_to_string("/proc/meminfo").ok()?;
    let line = all
        .lines()
        .find_map(|line| line.strip_prefix("MemAvailable:"))?;
    let kilobytes = line.trim().strip_suffix("kB")?.trim().parse::<u64>().ok()?;
    Some(kilobytes * 1_024)
}

fn state() -> [u32; NUMBERS] {
    let mut state = [0; NUMBERS];
    state[0] = 2;
    state[TASKS..][..8].copy_from_slice(&[0, 1, 10, 10, 0, 1, 10, 10]);
    state[NEXT] = 1;
    state
}
