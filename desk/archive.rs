//! The archive's border: its C names, and a safe call for each that this program asks. Every verdict of
//! the program is an answer from here.

extern "C" {
    fn hv_judge_set(
        n: u32,
        tasks: *const u32,
        place: *mut u64,
        hyperperiod: *mut u32,
        jobs: *mut u32,
    ) -> u32;
    fn hv_check_timetable(image: *const u8, len: usize, told: *mut Where) -> u32;
    fn hv_derive(
        image: *const u8,
        len: usize,
        out: *mut u8,
        room: usize,
        told: *mut Where,
        length: *mut u64,
    ) -> u32;
    fn hv_check_tables(image: *const u8, len: usize, told: *mut Where) -> u32;
    fn hv_rebuild(
        image: *const u8,
        len: usize,
        out: *mut u8,
        room: usize,
        told: *mut Where,
        length: *mut u64,
    ) -> u32;
    fn hv_figures(
        images: *const u8,
        len: usize,
        figures: *mut i64,
        room: usize,
        told: *mut Where,
        count: *mut u64,
        used: *mut u64,
    ) -> u32;
}

type Turn = unsafe extern "C" fn(*const u8, usize, *mut u8, usize, *mut Where, *mut u64) -> u32;

/// A refusal's place, and the byte offset of the record that it names.
type Where = [u64; 2];

/// No accepted image is longer: TS, 16 TK, an ID and a PV for each of 4,096 jobs, EN.
pub const LONGEST_ACCEPTED: usize = 5 + 16 * 18 + 4_096 * (8 + 9) + 6;

const SLOTS: usize = 16;

/// No image has more figures: three of its ticks, one a task, an interval with jobs and one without for each
/// of 4,096 jobs, and one without at the end.
const MOST_FIGURES: usize = 3 + SLOTS + 2 * 4_096 + 1;

#[derive(Clone, Copy, PartialEq, Eq, Debug)]
pub enum Kind {
    Timetable,
    Tables,
}

impl Kind {
    /// The kind that a TS record's byte names.
    pub fn of_byte(byte: u8) -> Option<Kind> {
        match byte {
            1 => Some(Kind::Timetable),
            2 => Some(Kind::Tables),
            _ => None,
        }
    }

    pub fn number(self) -> u64 {
        match self {
            Kind::Timetable => 1,
            Kind::Tables => 2,
        }
    }

    pub fn name(self) -> &'static str {
        match self {
            Kind::Timetable => "timetable",
            Kind::Tables => "table",
        }
    }
}

/// A refusal of an image: its number, its place, and the byte at which the record begins, or would begin,
/// that the place names; 0 where the place is no record.
#[derive(Clone, Copy, PartialEq, Eq, Debug)]
pub struct Refusal {
    pub number: u32,
    pub place: usize,
    pub offset: usize,
}

impl Refusal {
    /// The byte of the record that the place names, where it names one: for 16 it is a task, for 18 a start,
    /// for 8, 9 and 20 nothing.
    pub fn byte(self) -> Option<usize> {
        match self.number {
            8 | 9 | 16 | 18 | 20 => None,
            _ => Some(self.offset),
        }
    }
}

/// Plain checking of an image of this kind.
pub fn check(kind: Kind, image: &[u8]) -> Result<(), Refusal> {
    let function = match kind {
        Kind::Timetable => hv_check_timetable,
        Kind::Tables => hv_check_tables,
    };
    let mut told = [0; 2];
    // SAFETY: the image has as many bytes as is said; the two numbers are this function's own.
    let number = unsafe { function(image.as_ptr(), image.len(), &mut told) };
    verdict(number, told)
}

/// The table image of a timetable image.
pub fn derive(image: &[u8]) -> Result<Vec<u8>, Refusal> {
    turn(hv_derive, image)
}

/// The timetable image of a table image.
pub fn rebuild(image: &[u8]) -> Result<Vec<u8>, Refusal> {
    turn(hv_rebuild, image)
}

/// The figures of the table image at the front of a line, and how many bytes it has.
pub fn figures(images: &[u8]) -> Result<(Vec<i64>, usize), Refusal> {
    let mut figures = vec![0; MOST_FIGURES];
    let (mut told, mut count, mut used) = ([0; 2], 0, 0);
    // SAFETY: images and figures are as many as is said, and no two regions overlap.
    let number = unsafe {
        let (room, to) = (figures.len(), figures.as_mut_ptr());
        let (images, len) = (images.as_ptr(), images.len());
        hv_figures(images, len, to, room, &mut told, &mut count, &mut used)
    };
    verdict(number, told)?;
    figures.truncate(count as usize);
    Ok((figures, used as usize))
}

/// The hyperperiod and the jobs a cycle of a set of tasks, each O, C, T, D; none where it is refused.
pub fn judge_set(tasks: &[[u32; 4]]) -> Option<(u32, u32)> {
    let mut slots = [[0; 4]; SLOTS];
    for (slot, task) in slots.iter_mut().zip(tasks) {
        *slot = *task;
    }
    let (mut place, mut hyperperiod, mut jobs) = (0, 0, 0);
    let n = tasks.len() as u32;
    // SAFETY: 64 numbers are lent, and three that are this function's own.
    let number = unsafe {
        let numbers = slots.as_ptr().cast();
        hv_judge_set(n, numbers, &mut place, &mut hyperperiod, &mut jobs)
    };
    (number == 0).then_some((hyperperiod, jobs))
}

fn turn(function: Turn, image: &[u8]) -> Result<Vec<u8>, Refusal> {
    let mut out = vec![0; LONGEST_ACCEPTED];
    let (mut told, mut length) = ([0; 2], 0);
    // SAFETY: image and output have as many bytes as is said, and no two regions overlap.
    let number = unsafe {
        let (room, to) = (out.len(), out.as_mut_ptr());
        let (image, len) = (image.as_ptr(), image.len());
        function(image, len, to, room, &mut told, &mut length)
    };
    verdict(number, told)?;
    out.truncate(length as usize);
    Ok(out)
}

fn verdict(number: u32, told: Where) -> Result<(), Refusal> {
    let [place, offset] = told.map(|told| told as usize);
    match number {
        0 => Ok(()),
        number => Err(Refusal {
            number,
            place,
            offset,
        }),
    }
}
