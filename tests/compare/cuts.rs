//! The table images of cases, over the bus: the archive is also fed each of them in fragments, and what
//! the close tells has to be what is expected of the joined image, with every byte of the buffer. What a
//! buffer holds behind the image is what the images before it left there.

use crate::archive::{begin_once, close_once, take_once, Closed, Intake, Refusal, FILLINGS};
use crate::chance::Chance;
use crate::written::{bytes_from, closed_text, operation};
use std::fmt::{Display, Formatter};

/// An image of at most so many bytes is small: among the fixed cases it is cut in two at every place.
const SMALL: usize = 128;

/// A buffer may be longer than the image by so many bytes.
const SPARE: usize = 24;

/// About so many times a small image is cut in two.
pub const ABOUT_IN_TWO: u64 = 310_000;

const SEED: u64 = 1;

/// A table image that a case asks about, and what is expected of its close: with a room it rebuilds.
pub struct Fed {
    image: Vec<u8>,
    room: Option<usize>,
    expected: Result<Closed, Refusal>,
}

impl Fed {
    /// What is fed for a case with this answer; none where it tells nothing about a table image.
    pub fn of(case: &str, answer: &str) -> Option<Fed> {
        let words: Vec<&str> = case.split_whitespace().collect();
        let (room, image) = match words[..] {
            ["check2" | "begin", image] | ["run", _, image] => (None, image),
            ["rebuild", room, image] => (Some(room.parse().ok()?), image),
            _ => return None,
        };
        let image = bytes_from(image)?;
        let told: Vec<&str> = answer.split_whitespace().take(4).collect();
        let expected = match told[..] {
            ["refused", number, place, offset] => Err(Refusal {
                number: number.parse().ok()?,
                place: place.parse().ok()?,
                offset: offset.parse().ok()?,
            }),
            ["ok", length, result] if room.is_some() => {
                Ok((length.parse().ok()?, bytes_from(result)?))
            }
            _ => Ok((image.len() as u64, Vec::new())),
        };
        Some(Fed {
            image,
            room,
            expected,
        })
    }

    /// The ways to cut the image in two, where it is small: for one case by each close.
    fn in_two(&self, case: &str) -> impl Iterator<Item = Cut> {
        let length = self.image.len();
        let wanted = length <= SMALL && ["check2", "rebuild"].contains(&operation(case));
        let places = (0..=length).filter(move |_| wanted);
        places.map(move |place| Cut {
            ends: vec![place, length],
            lengths: vec![length; 3],
        })
    }

    /// The name of the close.
    pub fn close(&self) -> &'static str {
        self.room.map_or("intake-c", |_| "intake-r")
    }

    /// The number that is expected, 0 where nothing is refused, and the place.
    pub fn number_and_place(&self) -> (u32, Option<u64>) {
        match &self.expected {
            Ok(_) => (0, None),
            Err(refusal) => (refusal.number, Some(refusal.place)),
        }
    }

    /// What is expected, as it is told.
    pub fn expected_text(&self) -> String {
        self.text(self.expected.clone(), [0, 0])
    }

    fn text(&self, answer: Result<Closed, Refusal>, [open, count]: Intake) -> String {
        let closed = closed_text(answer, self.room.is_some());
        format!("{closed} [{open},{count}]")
    }
}

/// Where the fragments end, and how long the buffer is at each call, the close being the last.
struct Cut {
    ends: Vec<usize>,
    lengths: Vec<usize>,
}

impl Display for Cut {
    fn fmt(&self, to: &mut Formatter) -> std::fmt::Result {
        let Cut { ends, lengths } = self;
        write!(to, "fragments up to {ends:?} in buffers of {lengths:?}")
    }
}

/// The buffer, which is never cleaned, what is drawn, and how often an image was cut at random, and a
/// small one in two, which is done where it is cut everywhere.
pub struct Bus {
    pub everywhere: bool,
    pub cut: u64,
    pub in_two: u64,
    buffer: Vec<u8>,
    chance: Chance,
}

impl Default for Bus {
    fn default() -> Bus {
        Bus {
            everywhere: false,
            cut: 0,
            in_two: 0,
            buffer: Vec::new(),
            chance: Chance::new(SEED),
        }
    }
}

impl Bus {
    /// Feeds the archive the image of a case, cut at random and at every place where that is wanted:
    /// what it tells at first that is not expected, and nothing where all is.
    pub fn feed(&mut self, case: &str, fed: &Fed) -> String {
        let cut = self.random_cut(fed.image.len());
        self.cut += 1;
        let mut fault = self.feed_cut(case, fed, &cut);
        if self.everywhere {
            for cut in fed.in_two(case) {
                self.in_two += 1;
                if fault.is_empty() {
                    fault = self.feed_cut(case, fed, &cut);
                }
            }
        }
        fault
    }

    /// A way to cut an image of this length: up to six fragments, some of length 0, rarely single bytes;
    /// a buffer of exactly that length, a longer one, or another one at each call.
    fn random_cut(&mut self, length: usize) -> Cut {
        let chance = &mut self.chance;
        let mut ends: Vec<usize> = if length <= SMALL && chance.one_in(32) {
            (0..=length).collect()
        } else {
            (0..chance.below(6))
                .map(|_| chance.index(length + 1))
                .collect()
        };
        ends.push(length);
        ends.sort_unstable();
        let lengths = match chance.below(4) {
            0 => vec![length + chance.index(SPARE + 1); ends.len() + 1],
            1 => {
                let least = ends.iter().chain([&length]);
                let some = |end: &usize| end + chance.index(length + SPARE + 1 - end);
                least.map(some).collect()
            }
            _ => vec![length; ends.len() + 1],
        };
        Cut { ends, lengths }
    }

    /// Feeds the archive an image cut so.
    fn feed_cut(&mut self, case: &str, fed: &Fed, cut: &Cut) -> String {
        let case = format_args!("{case} as {cut}");
        let length = fed.image.len();
        let held = self.buffer.len().max(length + SPARE);
        self.buffer.resize(held, b'E');
        let behind = self.buffer[length..][..SPARE].to_vec();
        let filling = FILLINGS[self.chance.index(2)];
        let mut intake = begin_once(&case, filling);
        let mut from = 0;
        for (&end, &room) in cut.ends.iter().zip(&cut.lengths) {
            let buffer = &mut self.buffer[..room];
            let taken = take_once(&case, filling, &mut intake, buffer, &fed.image[from..end]);
            if taken.is_err() || intake != [1, end as u64] {
                return format!("{taken:?}, {intake:?} at {end}, {cut}");
            }
            from = end;
        }
        let buffer = &self.buffer[..cut.lengths[cut.ends.len()]];
        let answer = close_once(&case, filling, &mut intake, buffer, fed.room);
        let kept = self.buffer[..length] == fed.image && self.buffer[length..][..SPARE] == behind;
        match (answer == fed.expected && intake == [0, 0], kept) {
            (true, true) => String::new(),
            (true, false) => format!("the buffer has other bytes, {cut}"),
            (false, _) => format!("{}, {cut}", fed.text(answer, intake)),
        }
    }
}
