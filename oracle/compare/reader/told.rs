//! The port's reader and its answers, as the static library lays them out.

use crate::frames::{FRAME, LONGEST};
use crate::told::{Answer, Flag};
use std::mem::offset_of;

/// The bytes on either side of what is lent, one half before and one behind.
pub const FENCE: [u8; 32] = *b"not ours to write, nor to read!!";

/// Why bytes were thrown away (document 02, K3), in its order.
#[derive(Clone, Copy, Debug, PartialEq)]
#[repr(C)]
pub struct Discarded {
    pub noise: u32,
    pub sum: u32,
    pub command: u32,
    pub number: u32,
    pub echo: u32,
}

#[derive(Clone, Copy, Debug, PartialEq)]
#[repr(C)]
pub struct Counts {
    pub command: u8,
    pub mark: Flag,
    pub strict: Flag,
    pub taken: u32,
    pub discarded: Discarded,
    pub cleared: u32,
    pub wanted: usize,
    pub collected: usize,
    pub held: usize,
}

/// The collected frames are at the start of `frames`, the held bytes right behind them.
#[derive(Clone, Copy)]
#[repr(C)]
pub struct Reader {
    pub counts: Counts,
    pub frames: [u8; LONGEST],
}

impl Reader {
    /// A place to make a reader of this mode in, where no byte is as that reader has it.
    pub fn spoiled(strict: bool) -> Self {
        let counts = Counts {
            command: 0x5A,
            mark: Flag(1),
            strict: (!strict).into(),
            taken: !0,
            discarded: Discarded::of([!0; 5]),
            cleared: !0,
            wanted: !0,
            collected: !0,
            held: !0,
        };
        let frames = [0x5A; LONGEST];
        Self { counts, frames }
    }
}

#[derive(Clone, Copy, Debug, PartialEq)]
#[repr(C)]
pub struct Said {
    pub status: u8,
    pub took: usize,
}

/// What the push in place says.
#[repr(C)]
pub struct Turn {
    pub status: u8,
    pub missing: u8,
    pub took: usize,
}

/// By value.
#[repr(C)]
pub struct Pushed {
    pub said: Said,
    pub reader: Reader,
}

/// On frames lent by the caller.
#[repr(C)]
pub struct PushedInto {
    pub said: Said,
    pub counts: Counts,
}

/// What a new reader came to, in the place that was lent.
pub struct Opened {
    pub number: u8,
    pub reader: Reader,
}

/// What a push left, in whichever way it was asked for.
pub struct After {
    pub said: Said,
    pub reader: Reader,
    /// Where nothing was lent, as it should be.
    pub fence: [u8; FENCE.len()],
}

const _: () = assert!(size_of::<Discarded>() == 20);
const _: () = assert!(offset_of!(Counts, discarded) == 8 && offset_of!(Counts, cleared) == 28);
const _: () = assert!(offset_of!(Counts, wanted) == 32 && size_of::<Counts>() == 56);
const _: () = assert!(offset_of!(Reader, frames) == 56 && size_of::<Reader>() == 1168);

impl Said {
    /// Document 01's 8: a bad state.
    pub const REFUSED: Self = Self { status: 8, took: 0 };
}

impl Discarded {
    pub const NONE: Self = Self::of([0; 5]);

    pub const fn of([noise, sum, command, number, echo]: [u32; 5]) -> Self {
        Self {
            noise,
            sum,
            command,
            number,
            echo,
        }
    }

    pub fn each(self) -> [u32; 5] {
        let Self {
            noise,
            sum,
            command,
            number,
            echo,
        } = self;
        [noise, sum, command, number, echo]
    }

    /// "their sum modulo 2^32 is the old count"
    pub fn all(self) -> u32 {
        self.each().into_iter().fold(0, u32::wrapping_add)
    }
}

impl Counts {
    pub const ZERO: Self = Self {
        command: 0,
        mark: Flag(0),
        strict: Flag(0),
        taken: 0,
        discarded: Discarded::NONE,
        cleared: 0,
        wanted: 0,
        collected: 0,
        held: 0,
    };
}

impl Reader {
    pub const ZERO: Self = Self {
        counts: Counts::ZERO,
        frames: [0; LONGEST],
    };

    /// Where the held bytes begin. No count, however wrong, leads out of the frames.
    fn start(&self) -> usize {
        self.counts.collected.saturating_mul(FRAME).min(LONGEST)
    }

    fn end(&self) -> usize {
        self.start().saturating_add(self.counts.held).min(LONGEST)
    }

    pub fn collected(&self) -> &[u8] {
        &self.frames[..self.start()]
    }

    pub fn held(&self) -> &[u8] {
        &self.frames[self.start()..self.end()]
    }

    /// The collected and the held bytes.
    pub fn used(&self) -> &[u8] {
        &self.frames[..self.end()]
    }

    /// A reader as it is printed.
    pub fn shown(&self) -> String {
        format!("{:02X?} {:02X?}", self.counts, self.used())
    }
}

/// Some bytes of an answer.
struct Bytes<'a>(&'a mut [u8]);

impl Answer for Bytes<'_> {
    fn flip(&mut self, bit: usize) {
        self.0.flip(bit);
    }
}

/// A flag that goes back to the port, where a bool is 0 or 1 and nothing else.
struct Toggled<'a>(&'a mut Flag);

impl Answer for Toggled<'_> {
    fn flip(&mut self, _: usize) {
        self.0.flip(0);
    }
}

/// Flips one bit of one of these, or of the reader: each count is as likely as any other field, and
/// so are all the frames' bytes together. Of those only the compared ones are spoiled.
fn flip_one(others: &mut [&mut dyn Answer], reader: &mut Reader, compared: usize, bit: usize) {
    let counts = &mut reader.counts;
    let fields: [&mut dyn Answer; 13] = [
        &mut counts.command,
        &mut Toggled(&mut counts.mark),
        &mut Toggled(&mut counts.strict),
        &mut counts.taken,
        &mut counts.discarded.noise,
        &mut counts.discarded.sum,
        &mut counts.discarded.command,
        &mut counts.discarded.number,
        &mut counts.discarded.echo,
        &mut counts.cleared,
        &mut counts.wanted,
        &mut counts.collected,
        &mut counts.held,
    ];
    let mut bytes = Bytes(&mut reader.frames[..compared]);
    let mut all: Vec<&mut dyn Answer> = others.iter_mut().map(|field| &mut **field as _).collect();
    all.extend(fields);
    if compared > 0 {
        all.push(&mut bytes);
    }
    let count = all.len();
    all[bit % count].flip(bit / count);
}

impl Answer for Opened {
    /// The frames of a new reader are not specified, those of a refused one are zero.
    fn flip(&mut self, bit: usize) {
        let compared = if self.number == 0 { 0 } else { LONGEST };
        flip_one(&mut [&mut self.number], &mut self.reader, compared, bit);
    }
}

impl Answer for After {
    /// The places behind the held bytes are specified of a refusal only.
    fn flip(&mut self, bit: usize) {
        let compared = match self.said {
            Said::REFUSED => LONGEST,
            _ => self.reader.used().len(),
        };
        let Said { status, took } = &mut self.said;
        let others: &mut [&mut dyn Answer] = &mut [status, took, &mut self.fence];
        flip_one(others, &mut self.reader, compared, bit);
    }
}
