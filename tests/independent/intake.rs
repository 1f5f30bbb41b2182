//! Document 02's R-1 written down plainly: an intake that collects the fragments of a table image in a
//! lent buffer, and gives at a close what was collected.

use crate::independent::{refuse, Refusal};

/// An intake. It is open where `open` is 1; `count` bytes were taken.
#[derive(Clone, Copy, PartialEq, Eq, Debug, Default)]
pub struct Intake {
    pub open: u64,
    pub count: u64,
}

impl Intake {
    /// An intake that is begun; the buffer is not asked for.
    pub fn begun() -> Intake {
        Intake { open: 1, count: 0 }
    }

    /// How many bytes were taken, where it is open and the buffer of this length can hold them; 20
    /// otherwise.
    fn held(&self, length: usize) -> Result<usize, Refusal> {
        if self.open != 1 || self.count > length as u64 {
            return refuse(20, 0);
        }
        Ok(self.count as usize)
    }

    /// Puts a fragment behind what was taken. On a refusal the buffer keeps its bytes and the intake is
    /// shut.
    pub fn take(&mut self, buffer: &mut [u8], fragment: &[u8]) -> Result<(), Refusal> {
        let before = std::mem::take(self);
        let count = before.held(buffer.len())?;
        let free = &mut buffer[count..];
        if fragment.len() > free.len() {
            return refuse(20, 0);
        }
        free[..fragment.len()].copy_from_slice(fragment);
        self.open = 1;
        self.count = (count + fragment.len()) as u64;
        Ok(())
    }

    /// The bytes that a close judges: the buffer's front. The intake is shut in any case.
    pub fn close<'a>(&mut self, buffer: &'a [u8]) -> Result<&'a [u8], Refusal> {
        let closed = std::mem::take(self);
        let count = closed.held(buffer.len())?;
        Ok(&buffer[..count])
    }
}
