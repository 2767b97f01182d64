//! The port's reader, as the static libraries export it: `daly`, and `pushes` and `chunks` for the other forms of the push.

use super::told::*;
use crate::frames::LONGEST;
use crate::port::Port;
use crate::told::{CompletedTold, Left, ListTold, MissingTold};

extern "C" {
    fn daly_reader_new(
        reader: *mut Reader,
        request: *const u8,
        len: usize,
        reply_size: usize,
        strict: bool,
    ) -> u8;
    fn daly_reader_push(reader: *mut Reader, chunk: *const u8, len: usize) -> Turn;
    fn daly_push_by_value(reader: Reader, chunk: *const u8, len: usize) -> Pushed;
    fn daly_push_into(frames: *mut u8, counts: Counts, chunk: *const u8, len: usize) -> PushedInto;
    fn daly_push_lent(reader: *mut Reader, chunk: *const u8, len: usize) -> Said;
    fn daly_push_in_chunks(
        frames: *mut u8,
        counts: Counts,
        stream: *const u8,
        len: usize,
        size: usize,
    ) -> PushedInto;
    fn daly_reader_missing(reader: *const Reader) -> MissingTold;
    fn daly_reader_is_complete(reader: *const Reader) -> CompletedTold;
    fn daly_reader_copy_out(reader: *const Reader, out: *mut u8, room: usize) -> ListTold;
    fn daly_discarded_all(discarded: Discarded) -> u32;
}

/// The forms of the push.
#[derive(Clone, Copy, Debug)]
pub enum Way {
    ByValue,
    /// On frames lent by the caller.
    Into,
    /// So too, in chunks of this size.
    InChunks(usize),
    /// On a reader lent by the caller: by way of the push by value.
    Lent,
    /// So too, in place: the one of `daly`.
    InPlace,
}

impl Way {
    /// All of them, with chunks of this size.
    pub fn all(size: usize) -> [Self; 5] {
        [
            Self::ByValue,
            Self::Into,
            Self::InChunks(size),
            Self::Lent,
            Self::InPlace,
        ]
    }
}

/// A push on a lent reader.
type AskLent = unsafe extern "C" fn(*mut Reader, *const u8, usize) -> Said;

/// A status that no push has: where a push and the ask that follows tell what is missing differently.
const AT_ODDS: u8 = u8::MAX;

/// The push in place also tells what is then missing: just what the ask then says.
unsafe extern "C" fn push_in_place(reader: *mut Reader, chunk: *const u8, len: usize) -> Said {
    // SAFETY: as the caller has it.
    let (turn, asked) = unsafe {
        (
            daly_reader_push(reader, chunk, len),
            daly_reader_missing(reader),
        )
    };
    let alike = usize::from(turn.missing) == asked.missing;
    Said {
        status: if alike { turn.status } else { AT_ODDS },
        took: turn.took,
    }
}

/// A reader with a fence on either side.
#[repr(C)]
struct Fenced {
    before: [u8; START],
    reader: Reader,
    behind: [u8; FENCE.len() - START],
}

const START: usize = FENCE.len() / 2;

/// Lends a copy of the reader.
fn lent(reader: &Reader, ask: AskLent, chunk: &[u8]) -> After {
    let mut fenced = Fenced {
        before: FENCE[..START].try_into().expect("one half"),
        reader: *reader,
        behind: FENCE[START..].try_into().expect("the other"),
    };
    let at = (&raw mut fenced).cast::<u8>().wrapping_add(START).cast();
    // SAFETY: `at` is the reader, alive and lent to nobody else, and `chunk` a live slice.
    let said = unsafe { ask(at, chunk.as_ptr(), chunk.len()) };
    let mut fence = FENCE;
    fence[..START].copy_from_slice(&fenced.before);
    fence[START..].copy_from_slice(&fenced.behind);
    After {
        said,
        reader: fenced.reader,
        fence,
    }
}

/// Lends a copy of the reader's frames, with a fence on either side.
fn frames_lent(reader: &Reader, ask: impl FnOnce(*mut u8) -> PushedInto) -> After {
    let mut buffer = [0; LONGEST + FENCE.len()];
    buffer[..START].copy_from_slice(&FENCE[..START]);
    buffer[START..START + LONGEST].copy_from_slice(&reader.frames);
    buffer[START + LONGEST..].copy_from_slice(&FENCE[START..]);
    // The pointer is to the whole buffer, so that a write to the fence is one to memory of ours.
    let PushedInto { said, counts } = ask(buffer.as_mut_ptr().wrapping_add(START));
    let mut after = After {
        said,
        reader: Reader { counts, ..*reader },
        fence: FENCE,
    };
    after
        .reader
        .frames
        .copy_from_slice(&buffer[START..START + LONGEST]);
    after.fence[..START].copy_from_slice(&buffer[..START]);
    after.fence[START..].copy_from_slice(&buffer[START + LONGEST..]);
    after
}

impl Port {
    pub fn open(&mut self, request: &[u8], size: usize, strict: bool) -> Opened {
        let mut reader = Reader::spoiled(strict);
        let (bytes, length) = (request.as_ptr(), request.len());
        // SAFETY: pointer and length are those of a live slice; of an empty one the pointer is not null. The
        // reader is alive and lent to nobody else.
        let number = unsafe { daly_reader_new(&mut reader, bytes, length, size, strict) };
        self.answered(Opened { number, reader })
    }

    pub fn push(&mut self, way: Way, reader: &Reader, chunk: &[u8]) -> After {
        self.pushes += 1;
        let (bytes, length) = (chunk.as_ptr(), chunk.len());
        let after = match way {
            Way::ByValue => {
                // SAFETY: as in open.
                let Pushed { said, reader } = unsafe { daly_push_by_value(*reader, bytes, length) };
                let fence = FENCE;
                After {
                    said,
                    reader,
                    fence,
                }
            }
            Way::Into => frames_lent(reader, |frames| {
                // SAFETY: as in open; `frames` are 1,105 places, alive and lent to nobody else.
                unsafe { daly_push_into(frames, reader.counts, bytes, length) }
            }),
            Way::InChunks(size) => frames_lent(reader, |frames| {
                // SAFETY: as of Way::Into.
                unsafe { daly_push_in_chunks(frames, reader.counts, bytes, length, size) }
            }),
            Way::Lent => lent(reader, daly_push_lent, chunk),
            Way::InPlace => lent(reader, push_in_place, chunk),
        };
        self.answered(after)
    }

    pub fn missing(&mut self, reader: &Reader) -> MissingTold {
        // SAFETY: the reader is alive and nobody writes to it.
        self.answered(unsafe { daly_reader_missing(reader) })
    }

    /// The one count that the five stand for.
    pub fn discarded_all(&mut self, discarded: Discarded) -> u32 {
        // SAFETY: nothing is lent.
        self.answered(unsafe { daly_discarded_all(discarded) })
    }

    pub fn completed(&mut self, reader: &Reader) -> CompletedTold {
        // SAFETY: as in missing.
        self.answered(unsafe { daly_reader_is_complete(reader) })
    }

    /// Lends `room` places of the buffer, from `start` on.
    pub fn copy_out(
        &mut self,
        reader: &Reader,
        mut buffer: Vec<u8>,
        start: usize,
        room: usize,
    ) -> Left<u8> {
        assert!(start + room <= buffer.len(), "no such places to lend");
        let out = buffer.as_mut_ptr().wrapping_add(start);
        // SAFETY: `out` has `room` places, alive and lent to nobody else.
        let told = unsafe { daly_reader_copy_out(reader, out, room) };
        self.answered(Left { told, buffer })
    }
}
