//! A line of table images, one behind the other, read as it comes: bytes behind an EN begin the next image.

use crate::archive::Refusal;
use crate::axes::Axis;
use crate::explain::LONGEST_PRINTED;
use crate::files::{Source, MOST_READ};
use crate::messages::TOO_LONG;
use crate::records::decode;

/// The most images of a line that are reported.
pub const MOST_IMAGES: usize = 10_000;

pub struct Line {
    source: Source,
    /// What was read last, and how much of it belongs to images that are done with.
    held: Vec<u8>,
    done: usize,
    ended: bool,
    /// How many images are done with, and how many bytes they have.
    pub images: usize,
    pub begins: usize,
}

impl Line {
    pub fn new(source: Source) -> Line {
        Line {
            source,
            held: Vec::new(),
            done: 0,
            ended: false,
            images: 0,
            begins: 0,
        }
    }

    /// The next image's axis, or why it is refused; none where the line is over. No bytes at all are an image
    /// that is refused.
    pub fn next(&mut self) -> Result<Option<Result<Axis, Refusal>>, String> {
        self.hold()?;
        let (rest, more) = self.front();
        if rest.is_empty() && self.images > 0 {
            return Ok(None);
        }
        if self.images == MOST_IMAGES {
            return Ok(Some(Err(TOO_LONG)));
        }
        Ok(Some(match Axis::at_front(rest) {
            Ok(axis) => {
                self.pass(axis.length);
                Ok(axis)
            }
            Err(Refusal { number: 1, .. }) if more => Err(TOO_LONG),
            Err(refusal) => Err(refusal),
        }))
    }

    /// The bytes of the image that comes next, up to its EN where its records lead there, and whether they do.
    pub fn image(&self) -> (&[u8], bool) {
        let (rest, _) = self.front();
        let image = decode(rest);
        match image.records.last() {
            Some(last) if last.form.mark == "EN" => (&rest[..last.offset + last.bytes.len()], true),
            _ => (rest, false),
        }
    }

    /// How many images there are, as far as records lead from one to the next and up to the first one too many,
    /// and whether that is all.
    pub fn count(mut self) -> Result<(usize, bool), String> {
        while self.images <= MOST_IMAGES {
            self.hold()?;
            match self.image() {
                ([], _) => return Ok((self.images, true)),
                (_, false) => return Ok((self.images + 1, false)),
                (image, true) => {
                    let length = image.len();
                    self.pass(length);
                }
            }
        }
        Ok((self.images, false))
    }

    /// What can be a part of the next image, and whether there are bytes behind it.
    fn front(&self) -> (&[u8], bool) {
        let rest = &self.held[self.done..];
        let most = rest.len().min(LONGEST_PRINTED);
        (&rest[..most], most < rest.len())
    }

    /// Reads on where fewer bytes are held than an image may have, and one more.
    fn hold(&mut self) -> Result<(), String> {
        if self.held.len() - self.done <= LONGEST_PRINTED && !self.ended {
            self.held.drain(..self.done);
            self.done = 0;
            self.ended = self.source.read_on(MOST_READ, &mut self.held)?;
        }
        Ok(())
    }

    fn pass(&mut self, length: usize) {
        self.done += length;
        self.begins += length;
        self.images += 1;
    }
}
