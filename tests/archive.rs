//! The archive's C names, and a safe call for each: every lent buffer stands between guards, and a
//! call that changes more than it may is a panic with the case.

use std::fmt::Display;
use std::ops::Range;

extern "C" {
    pub fn hv_judge_set(
        n: u32,
        tasks: *const u32,
        place: *mut u64,
        hyperperiod: *mut u32,
        jobs: *mut u32,
    ) -> u32;
    pub fn hv_check_timetable(image: *const u8, len: usize, location: *mut u64) -> u32;
    pub fn hv_derive(
        image: *const u8,
        len: usize,
        out: *mut u8,
        room: usize,
        location: *mut u64,
        length: *mut u64,
    ) -> u32;
    pub fn hv_check_tables(image: *const u8, len: usize, location: *mut u64) -> u32;
    pub fn hv_rebuild(
        image: *const u8,
        len: usize,
        out: *mut u8,
        room: usize,
        location: *mut u64,
        length: *mut u64,
    ) -> u32;
    pub fn hv_begin(
        state: *mut u32,
        image: *const u8,
        len: usize,
        start: *mut u64,
        location: *mut u64,
    ) -> u32;
    pub fn hv_go_on(
        state: *mut u32,
        image: *const u8,
        len: usize,
        end: u64,
        start: *mut u64,
    ) -> u32;
    pub fn hv_intake_begin(intake: *mut u64);
    pub fn hv_intake_take(
        intake: *mut u64,
        buffer: *mut u8,
        room: usize,
        fragment: *const u8,
        len: usize,
    ) -> u32;
    pub fn hv_intake_close(
        intake: *mut u64,
        buffer: *const u8,
        room: usize,
        location: *mut u64,
        length: *mut u64,
    ) -> u32;
    pub fn hv_intake_rebuild(
        intake: *mut u64,
        buffer: *const u8,
        room: usize,
        out: *mut u8,
        out_room: usize,
        location: *mut u64,
        length: *mut u64,
    ) -> u32;
    pub fn hv_figures(
        images: *const u8,
        len: usize,
        figures: *mut i64,
        room: usize,
        location: *mut u64,
        count: *mut u64,
        used: *mut u64,
    ) -> u32;
}

/// A function that checks an image.
pub type Check = unsafe extern "C" fn(*const u8, usize, *mut u64) -> u32;

/// A function that turns an image into the one of the other kind.
pub type Turn = unsafe extern "C" fn(*const u8, usize, *mut u8, usize, *mut u64, *mut u64) -> u32;

/// The tasks that a set in memory has room for.
pub const SLOTS: usize = 16;

/// The numbers of a task: O, C, T and D.
pub const TASK_NUMBERS: usize = 4;

/// Where the parts of a dispatcher's state begin among its numbers, in the header's order: the tasks
/// behind n, the next jobs, the cycle, the running job's three, the offsets now and as at a cycle's
/// start, of which the ID offset is the first; and how many numbers there are.
pub const TASKS: usize = 1;
pub const NEXT: usize = TASKS + TASK_NUMBERS * SLOTS;
pub const CYCLE: usize = NEXT + SLOTS;
pub const RUNNING: usize = CYCLE + 1;
pub const NOW: usize = RUNNING + 3;
pub const AT_START: usize = NOW + 1 + SLOTS;
pub const NUMBERS: usize = AT_START + 1 + SLOTS;

/// The refusal of an image, with the byte at which the record begins that its place names.
#[derive(Clone, Copy, PartialEq, Eq, Debug)]
pub struct Refusal {
    pub number: u32,
    pub place: u64,
    pub offset: u64,
}

impl Refusal {
    /// A refusal whose place is 0 and names no record.
    pub fn of_no_record(number: u32) -> Refusal {
        let (place, offset) = (0, 0);
        Refusal {
            number,
            place,
            offset,
        }
    }
}

/// The hyperperiod and the jobs of a good set, or the number and the place of its refusal.
pub type Judged = Result<(u32, u32), (u32, u64)>;

/// A dispatcher's state.
pub type State = [u32; NUMBERS];

/// A start: task, job, cycle and absolute time.
pub type Start = [u64; 4];

/// A dispatcher's answer with the state after it.
pub type Step = (State, Result<Start, Refusal>);

/// An intake: open and count.
pub type Intake = [u64; 2];

/// What a close gives: the stored length, and the bytes of the output up to it where one is lent.
pub type Closed = (u64, Vec<u8>);

/// The figures of an image, and how many bytes it has.
pub type Figures = (Vec<i64>, usize);

// ---- The calls ----

/// Judges a set in memory; a slot below n that is not given is 0.
pub fn judge_set(case: &dyn Display, n: u32, tasks: &[[u32; 4]]) -> Judged {
    twice(case, |filling| {
        let mut tasks = Lent::new(&slots(n, tasks, filling), filling);
        let mut place = Lent::<u64>::filled(1, filling);
        let mut hyperperiod = Lent::<u32>::filled(1, filling);
        let mut jobs = Lent::<u32>::filled(1, filling);
        // SAFETY: every pointer is to as many numbers as the header asks for, and none overlap.
        let number = unsafe {
            let (h, j) = (hyperperiod.pointer(), jobs.pointer());
            hv_judge_set(n, tasks.pointer(), place.pointer(), h, j)
        };
        let stored = usize::from(number == 0);
        tasks.demand_kept(0, case, "the tasks");
        hyperperiod.demand_kept(stored, case, "the hyperperiod");
        jobs.demand_kept(stored, case, "the jobs");
        match located(number, &place, case) {
            [_] if number == 0 => Ok((hyperperiod.content()[0], jobs.content()[0])),
            [place] => Err((number, place)),
        }
    })
}

/// Checks a timetable image.
pub fn check_timetable(case: &dyn Display, image: &[u8]) -> Result<(), Refusal> {
    check(case, hv_check_timetable, image)
}

/// Checks a table image.
pub fn check_tables(case: &dyn Display, image: &[u8]) -> Result<(), Refusal> {
    check(case, hv_check_tables, image)
}

/// The table image of a timetable image, derived into an output of `room` bytes.
pub fn derive(case: &dyn Display, room: usize, image: &[u8]) -> Result<Vec<u8>, Refusal> {
    turn(case, hv_derive, room, image)
}

/// The timetable image of a table image, rebuilt into an output of `room` bytes.
pub fn rebuild(case: &dyn Display, room: usize, image: &[u8]) -> Result<Vec<u8>, Refusal> {
    turn(case, hv_rebuild, room, image)
}

/// Begins with an image in a record that holds filling.
pub fn begin(case: &dyn Display, image: &[u8]) -> Step {
    twice(case, |filling| {
        let mut state = Lent::<u32>::filled(NUMBERS, filling);
        let mut lent = Lent::new(image, filling);
        let mut start = Lent::<u64>::filled(4, filling);
        let mut location = Lent::<u64>::filled(2, filling);
        // SAFETY: every pointer is to as much as the header asks for, and none overlap.
        let number = unsafe {
            let (s, l) = (start.pointer(), location.pointer());
            hv_begin(state.pointer(), lent.pointer(), image.len(), s, l)
        };
        lent.demand_kept(0, case, "the image");
        let told = answer(number, &location, case);
        step(case, &state, &start, told)
    })
}

/// Goes on from a state, with the reported end; a refusal names no record.
pub fn go_on(case: &dyn Display, image: &[u8], before: &State, end: u64) -> Step {
    twice(case, |filling| {
        let mut state = Lent::new(before, filling);
        let mut lent = Lent::new(image, filling);
        let mut start = Lent::<u64>::filled(4, filling);
        // SAFETY: every pointer is to as much as the header asks for, and none overlap.
        let number = unsafe {
            let (d, s) = (state.pointer(), start.pointer());
            hv_go_on(d, lent.pointer(), image.len(), end, s)
        };
        lent.demand_kept(0, case, "the image");
        let told = match number {
            0 => Ok(()),
            number => Err(Refusal::of_no_record(number)),
        };
        step(case, &state, &start, told)
    })
}

/// The dispatcher's answer; on a refusal the start keeps its bytes.
fn step(
    case: &dyn Display,
    state: &Lent<u32>,
    start: &Lent<u64>,
    told: Result<(), Refusal>,
) -> Step {
    state.demand_kept(NUMBERS, case, "the state");
    let written = if told.is_ok() { 4 } else { 0 };
    start.demand_kept(written, case, "the start");
    let numbers = state.content().try_into().expect("as many as were lent");
    let start = start.content().try_into().expect("as many as were lent");
    (numbers, told.map(|()| start))
}

fn check(case: &dyn Display, function: Check, image: &[u8]) -> Result<(), Refusal> {
    twice(case, |filling| {
        let mut lent = Lent::new(image, filling);
        let mut location = Lent::<u64>::filled(2, filling);
        // SAFETY: the image has as many bytes as is said, and the two regions do not overlap.
        let number = unsafe { function(lent.pointer(), image.len(), location.pointer()) };
        lent.demand_kept(0, case, "the image");
        answer(number, &location, case)
    })
}

fn turn(case: &dyn Display, function: Turn, room: usize, image: &[u8]) -> Result<Vec<u8>, Refusal> {
    twice(case, |filling| {
        let mut lent = Lent::new(image, filling);
        let mut out = Lent::<u8>::filled(room, filling);
        let mut location = Lent::<u64>::filled(2, filling);
        let mut length = Lent::<u64>::filled(1, filling);
        // SAFETY: image and output have as many bytes as is said, and no two regions overlap.
        let number = unsafe {
            let (at, l) = (location.pointer(), length.pointer());
            function(lent.pointer(), image.len(), out.pointer(), room, at, l)
        };
        lent.demand_kept(0, case, "the image");
        length.demand_kept(usize::from(number == 0), case, "the length");
        let written = if number == 0 { length.content()[0] } else { 0 };
        demand(written <= room as u64, case, "the length is above the room");
        out.demand_kept(written as usize, case, "the output");
        answer(number, &location, case)?;
        Ok(out.content()[..written as usize].to_vec())
    })
}

/// The figures of the table image at the front of some bytes, stored in an output of `room` of them.
pub fn figures(case: &dyn Display, room: usize, images: &[u8]) -> Result<Figures, Refusal> {
    twice(case, |filling| {
        let mut lent = Lent::new(images, filling);
        let mut out = Lent::<i64>::filled(room, filling);
        let mut location = Lent::<u64>::filled(2, filling);
        let mut count = Lent::<u64>::filled(1, filling);
        let mut used = Lent::<u64>::filled(1, filling);
        // SAFETY: images and output have as many bytes and figures as is said, and no two regions overlap.
        let number = unsafe {
            let (from, to, at) = (lent.pointer(), out.pointer(), location.pointer());
            let (c, u) = (count.pointer(), used.pointer());
            hv_figures(from, images.len(), to, room, at, c, u)
        };
        let stored = usize::from(number == 0);
        lent.demand_kept(0, case, "the line of images");
        count.demand_kept(stored, case, "the count");
        used.demand_kept(stored, case, "the image's length");
        let written = if number == 0 { count.content()[0] } else { 0 };
        demand(written <= room as u64, case, "the count is above the room");
        out.demand_kept(written as usize, case, "the figures");
        answer(number, &location, case)?;
        let used = used.content()[0];
        let within = used <= images.len() as u64;
        demand(within, case, "the image is longer than the bytes");
        Ok((out.content()[..written as usize].to_vec(), used as usize))
    })
}

// ---- The intake ----

/// A begun intake.
pub fn intake_begin(case: &dyn Display) -> Intake {
    twice(case, |filling| begin_once(case, filling))
}

/// Begins an intake whose numbers hold filling.
pub fn begin_once(case: &dyn Display, filling: u8) -> Intake {
    let mut numbers = Lent::<u64>::filled(2, filling);
    // SAFETY: the two numbers are there.
    unsafe { hv_intake_begin(numbers.pointer()) };
    intake_of(&numbers, case)
}

/// Takes a fragment into the buffer; the intake and the buffer are as the call leaves them.
pub fn intake_take(
    case: &dyn Display,
    intake: &mut Intake,
    buffer: &mut [u8],
    fragment: &[u8],
) -> Result<(), Refusal> {
    let both = |filling| {
        let (mut after, mut taken) = (*intake, buffer.to_vec());
        let answer = take_once(case, filling, &mut after, &mut taken, fragment);
        (after, taken, answer)
    };
    let (after, taken, answer) = twice(case, both);
    *intake = after;
    buffer.copy_from_slice(&taken);
    answer
}

/// Takes a fragment over one filling: the buffer may change where the fragment belongs, and on a
/// refusal nowhere.
pub fn take_once(
    case: &dyn Display,
    filling: u8,
    intake: &mut Intake,
    buffer: &mut [u8],
    fragment: &[u8],
) -> Result<(), Refusal> {
    let mut numbers = Lent::new(&intake[..], filling);
    let mut lent = Lent::new(buffer, filling);
    let mut taken = Lent::new(fragment, filling);
    // SAFETY: buffer and fragment have as many bytes as is said, and no two regions overlap.
    let number = unsafe {
        let (k, b, f) = (numbers.pointer(), lent.pointer(), taken.pointer());
        hv_intake_take(k, b, buffer.len(), f, fragment.len())
    };
    taken.demand_kept(0, case, "the fragment");
    let [_, count] = *intake;
    let fits = count <= buffer.len() as u64 && fragment.len() as u64 <= buffer.len() as u64 - count;
    demand(number != 0 || fits, case, "taken, though it does not fit");
    let written = match number {
        0 => count as usize..count as usize + fragment.len(),
        _ => 0..0,
    };
    lent.demand_kept_beside(written, case, "the buffer");
    *intake = intake_of(&numbers, case);
    buffer.copy_from_slice(lent.content());
    match number {
        0 => Ok(()),
        number => Err(Refusal::of_no_record(number)),
    }
}

/// Closes an intake; with a room it rebuilds into an output of so many bytes.
pub fn intake_close(
    case: &dyn Display,
    intake: &mut Intake,
    buffer: &[u8],
    room: Option<usize>,
) -> Result<Closed, Refusal> {
    let both = |filling| {
        let mut after = *intake;
        let answer = close_once(case, filling, &mut after, buffer, room);
        (after, answer)
    };
    let (after, answer) = twice(case, both);
    *intake = after;
    answer
}

/// Closes an intake over one filling.
pub fn close_once(
    case: &dyn Display,
    filling: u8,
    intake: &mut Intake,
    buffer: &[u8],
    room: Option<usize>,
) -> Result<Closed, Refusal> {
    let mut numbers = Lent::new(&intake[..], filling);
    let mut lent = Lent::new(buffer, filling);
    let mut out = Lent::<u8>::filled(room.unwrap_or(0), filling);
    let mut location = Lent::<u64>::filled(2, filling);
    let mut length = Lent::<u64>::filled(1, filling);
    // SAFETY: buffer and output have as many bytes as is said, and no two regions overlap.
    let number = unsafe {
        let (k, b, len) = (numbers.pointer(), lent.pointer(), buffer.len());
        let (at, l) = (location.pointer(), length.pointer());
        match room {
            Some(room) => hv_intake_rebuild(k, b, len, out.pointer(), room, at, l),
            None => hv_intake_close(k, b, len, at, l),
        }
    };
    lent.demand_kept(0, case, "the buffer");
    length.demand_kept(usize::from(number == 0), case, "the length");
    let stored = length.content()[0];
    let written = match room {
        Some(room) if number == 0 => {
            demand(stored <= room as u64, case, "the length is above the room");
            stored as usize
        }
        _ => 0,
    };
    out.demand_kept(written, case, "the output");
    *intake = intake_of(&numbers, case);
    answer(number, &location, case)?;
    Ok((stored, out.content()[..written].to_vec()))
}

/// The intake that a call left.
fn intake_of(numbers: &Lent<u64>, case: &dyn Display) -> Intake {
    numbers.demand_kept(2, case, "the intake");
    numbers.content().try_into().expect("as many as were lent")
}

// ---- What is lent and told ----

/// The numbers of a set in memory, filling behind the given tasks and the first n.
fn slots(n: u32, tasks: &[[u32; 4]], filling: u8) -> Vec<u32> {
    let mut numbers = tasks.concat();
    numbers.resize(numbers.len().max(TASK_NUMBERS * SLOTS.min(n as usize)), 0);
    numbers.resize(TASK_NUMBERS * SLOTS, u32::of(filling));
    numbers
}

/// What the returned number and the stored place and offset say of an image.
fn answer(number: u32, location: &Lent<u64>, case: &dyn Display) -> Result<(), Refusal> {
    match located(number, location, case) {
        [_, _] if number == 0 => Ok(()),
        [place, offset] => Err(Refusal {
            number,
            place,
            offset,
        }),
    }
}

/// The numbers that a call stored to say where a refusal is; without a refusal all are 0.
fn located<const N: usize>(number: u32, location: &Lent<u64>, case: &dyn Display) -> [u64; N] {
    location.demand_kept(N, case, "where the refusal is");
    let numbers = location.content().try_into().expect("as many as were lent");
    demand(
        number != 0 || numbers == [0; N],
        case,
        "nothing is refused, but its place or offset is not 0",
    );
    numbers
}

/// The two fillings.
pub const FILLINGS: [u8; 2] = [0x5A, 0xA5];

/// The answer of a call that is made twice, over opposite fillings, and has to be the same.
fn twice<A: PartialEq>(case: &dyn Display, call: impl Fn(u8) -> A) -> A {
    let [first, second] = FILLINGS.map(call);
    demand(
        first == second,
        case,
        "the answer depends on what the buffers held",
    );
    first
}

fn demand(held: bool, case: &dyn Display, fault: &str) {
    assert!(held, "{fault}: {case}");
}

// ---- Guards ----

const GUARD: usize = 16;

/// A byte or a number, all of whose bytes can be the filling.
trait Unit: Copy + PartialEq {
    fn of(filling: u8) -> Self;
}

impl Unit for u8 {
    fn of(filling: u8) -> u8 {
        filling
    }
}

impl Unit for u32 {
    fn of(filling: u8) -> u32 {
        u32::from_ne_bytes([filling; 4])
    }
}

impl Unit for u64 {
    fn of(filling: u8) -> u64 {
        u64::from_ne_bytes([filling; 8])
    }
}

impl Unit for i64 {
    fn of(filling: u8) -> i64 {
        i64::from_ne_bytes([filling; 8])
    }
}

/// Bytes or numbers that are lent to a call, between guards, and how all was before the call.
struct Lent<T> {
    now: Vec<T>,
    before: Vec<T>,
    front: usize,
    length: usize,
}

impl<T: Unit> Lent<T> {
    /// Lends the content; one of the two fillings puts bytes at an odd address.
    fn new(content: &[T], filling: u8) -> Lent<T> {
        let front = GUARD + usize::from(filling & 1);
        let mut now = vec![T::of(filling); front];
        now.extend_from_slice(content);
        now.resize(now.len() + GUARD, T::of(filling));
        let before = now.clone();
        let length = content.len();
        Lent {
            now,
            before,
            front,
            length,
        }
    }

    /// Lends that many units of filling.
    fn filled(length: usize, filling: u8) -> Lent<T> {
        Lent::new(&vec![T::of(filling); length], filling)
    }

    fn pointer(&mut self) -> *mut T {
        self.now.as_mut_ptr().wrapping_add(self.front)
    }

    fn content(&self) -> &[T] {
        &self.now[self.front..][..self.length]
    }

    /// Demands that all is as it was, but for so many units at the front of the content.
    fn demand_kept(&self, written: usize, case: &dyn Display, name: &str) {
        self.demand_kept_beside(0..written, case, name);
    }

    /// Demands that all is as it was, but for these units of the content.
    fn demand_kept_beside(&self, written: Range<usize>, case: &dyn Display, name: &str) {
        let (before, behind) = (self.front + written.start, self.front + written.end);
        let front = self.now[..self.front] == self.before[..self.front];
        let rest = self.now[self.front..before] == self.before[self.front..before]
            && self.now[behind..] == self.before[behind..];
        assert!(front, "written in front of {name}: {case}");
        assert!(
            rest,
            "{name} changed where it is to be kept, or behind it: {case}"
        );
    }
}
