//! The calls of the reader.

use super::told::{Counts, List, Missing, Reader, Said};
use super::{FRAME, FRAMES};
use crate::Error;
use std::mem::MaybeUninit;

extern "C" {
    fn daly_reader_new(
        reader: *mut Reader,
        request: *const u8,
        len: usize,
        reply_size: usize,
        strict: bool,
    ) -> u8;
    fn daly_reader_push(reader: *mut Reader, chunk: *const u8, len: usize) -> Said;
    fn daly_reader_missing(reader: *const Reader) -> Missing;
    fn daly_reader_copy_out(reader: *const Reader, out: *mut u8, room: usize) -> List;
}

impl Reader {
    /// What a new reader begins with: its counts, all zero where it is refused, and how many bytes it lacks.
    pub fn open(request: &[u8], reply_size: usize, strict: bool) -> (Counts, Result<usize, Error>) {
        let mut place = MaybeUninit::<Self>::uninit();
        let (out, bytes) = (place.as_mut_ptr(), request.as_ptr());
        // SAFETY: as in `super::check`; the place is alive and lent to nobody else, and is then filled.
        let (number, reader) = unsafe {
            let number = daly_reader_new(out, bytes, request.len(), reply_size, strict);
            (number, place.assume_init_ref())
        };
        let missing = Error::check(number).map(|()| reader.missing());
        (reader.counts, missing)
    }

    /// A reader with nothing in its frames: what the library makes of these counts, made anew where it is to lie.
    /// They have the two zeros already: naming them keeps rustc from copying 1,168 bytes.
    #[inline]
    pub const fn empty(counts: Counts) -> Self {
        Self {
            counts: Counts {
                collected: 0,
                held: 0,
                ..counts
            },
            frames: [0; FRAMES],
        }
    }

    #[inline]
    pub fn push(&mut self, chunk: &[u8]) -> Said {
        // SAFETY: as in `super::check`; the reader is alive and lent to nobody else.
        unsafe { daly_reader_push(self, chunk.as_ptr(), chunk.len()) }
    }

    /// 0 of a complete reader, and of a bad state.
    #[inline]
    pub fn missing(&self) -> usize {
        // SAFETY: the reader is alive and nobody writes to it.
        unsafe { daly_reader_missing(self) }.missing
    }

    /// The collected frames; none of a bad state.
    #[inline]
    pub fn copy_out(&self) -> Vec<u8> {
        let room = self.counts.collected.saturating_mul(FRAME).min(FRAMES);
        let mut out = Vec::with_capacity(room);
        // SAFETY: `out` has so many places, alive and lent to nobody else, of which the first `count`, and
        // at most all, are then filled.
        unsafe {
            let told = daly_reader_copy_out(self, out.as_mut_ptr(), room);
            out.set_len(told.count);
        }
        out
    }
}
