//! Document 01's reader, rule by rule, with document 02's strict mode (K1) and reasons (K3). The Rust says nothing of bytes
//! taken, frames cleared, the mark and refusal 8, nor why it throws a byte away, keeps what comes after completion, and has
//! no strict mode: there this model decides.

use super::told::{Counts, Discarded, Reader, Said};
use crate::frames::{self, DATA, FRAME, HOST, START};

/// Bytes that may be discarded before the status is 2.
pub const MOST_DISCARDED: u64 = 512;
/// Frames that a reader has room for.
pub const MOST_WANTED: usize = 85;

/// A reader in a good state.
#[derive(Clone)]
pub struct Model {
    pub command: u8,
    pub wanted: usize,
    pub mark: bool,
    pub strict: bool,
    pub taken: u32,
    pub discarded: Discarded,
    pub cleared: u32,
    /// Whole frames, 13 bytes each.
    pub collected: Vec<u8>,
    pub held: Vec<u8>,
}

/// What becomes of the next bytes, and by which rule.
#[derive(Clone, Copy, Debug, PartialEq)]
pub enum Judged {
    /// So many stand before the next start byte.
    Noise(usize),
    WrongSum,
    OtherCommand,
    Echo,
    OtherNumber,
    Held,
    Collected,
}

impl Judged {
    /// The place among the five counts, and how many bytes are thrown away.
    fn thrown(self) -> Option<(usize, usize)> {
        match self {
            Self::Noise(count) => Some((0, count)),
            Self::WrongSum => Some((1, 1)),
            Self::OtherCommand => Some((2, FRAME)),
            Self::OtherNumber => Some((3, FRAME)),
            Self::Echo => Some((4, FRAME)),
            Self::Held | Self::Collected => None,
        }
    }
}

/// One turn of the rules.
pub struct Turn {
    /// The place, counted from the first byte that was held before the push.
    pub at: usize,
    pub judged: Judged,
    /// Frames that were collected and cleared before it.
    pub collected: usize,
    pub cleared: u32,
}

impl Model {
    pub fn new(command: u8, size: usize, strict: bool) -> Self {
        Self {
            command,
            wanted: size.div_ceil(FRAME),
            mark: false,
            strict,
            taken: 0,
            discarded: Discarded::NONE,
            cleared: 0,
            collected: Vec::new(),
            held: Vec::new(),
        }
    }

    /// The reader in this state; none where it is a bad one.
    pub fn of(reader: &Reader) -> Option<Self> {
        let counts = &reader.counts;
        let good = bad_state(reader) == [false; 6];
        good.then(|| Self {
            command: counts.command,
            wanted: counts.wanted,
            mark: counts.mark.0 == 1,
            strict: counts.strict.0 == 1,
            taken: counts.taken,
            discarded: counts.discarded,
            cleared: counts.cleared,
            collected: reader.collected().to_vec(),
            held: reader.held().to_vec(),
        })
    }

    pub fn counts(&self) -> Counts {
        Counts {
            command: self.command,
            mark: self.mark.into(),
            strict: self.strict.into(),
            taken: self.taken,
            discarded: self.discarded,
            cleared: self.cleared,
            wanted: self.wanted,
            collected: self.frames(),
            held: self.held.len(),
        }
    }

    fn frames(&self) -> usize {
        self.collected.len() / FRAME
    }

    pub fn is_complete(&self) -> bool {
        self.frames() >= self.wanted
    }

    pub fn missing(&self) -> usize {
        if self.is_complete() {
            0
        } else {
            FRAME - self.held.len()
        }
    }

    pub fn status(&self) -> u8 {
        if self.mark {
            2
        } else {
            0
        }
    }

    pub fn push(&mut self, chunk: &[u8]) -> Said {
        self.push_seen(chunk, |_| ())
    }

    /// The same, and shows its turns.
    pub fn push_seen(&mut self, chunk: &[u8], mut see: impl FnMut(Turn)) -> Said {
        let before = self.held.len();
        self.held.extend_from_slice(chunk);
        let (mut at, mut thrown) = (0, [0; 5]);
        while !self.is_complete() {
            let (collected, cleared) = (self.frames(), self.cleared);
            let judged = self.judge(at);
            see(Turn {
                at,
                judged,
                collected,
                cleared,
            });
            match judged.thrown() {
                Some((why, bytes)) => {
                    at += bytes;
                    thrown[why] += bytes as u64;
                }
                None if judged == Judged::Held => break,
                None => {
                    self.collected.extend_from_slice(&self.held[at..at + FRAME]);
                    at += FRAME;
                }
            }
        }
        let took = if self.is_complete() {
            self.held.clear();
            at - before
        } else {
            self.held.drain(..at);
            chunk.len()
        };
        self.count(took, thrown);
        let status = self.status();
        Said { status, took }
    }

    /// The first of document 01's rules that applies to the bytes from `at` on. In strict mode one more stands "after
    /// the command check and before the number check".
    fn judge(&mut self, at: usize) -> Judged {
        let rest = &self.held[at..];
        let start = rest.iter().position(|byte| *byte == START);
        let before_start = start.unwrap_or(rest.len());
        if before_start > 0 {
            return Judged::Noise(before_start);
        }
        if rest.len() < FRAME {
            return Judged::Held;
        }
        let frame = &rest[..FRAME];
        if !frames::has_right_sum(frame) {
            return Judged::WrongSum;
        }
        if frame[2] != self.command {
            return Judged::OtherCommand;
        }
        if self.strict && frame[1] == HOST {
            return Judged::Echo;
        }
        let number = usize::from(frame[DATA]);
        if self.wanted > 1 && !self.is_next(number) {
            return Judged::OtherNumber;
        }
        Judged::Collected
    }

    /// Number 1 drops all collected frames; then the number must be the next.
    fn is_next(&mut self, number: usize) -> bool {
        if number == 1 {
            self.cleared = self.cleared.wrapping_add(self.frames() as u32);
            self.collected.clear();
        }
        number == self.frames() + 1
    }

    /// Counts wrap, each by itself, and the mark does not. It is judged by the five together.
    fn count(&mut self, took: usize, thrown: [u64; 5]) {
        let before = u64::from(self.discarded.all());
        self.mark |= before + thrown.iter().sum::<u64>() > MOST_DISCARDED;
        self.taken = self.taken.wrapping_add(took as u32);
        let mut each = self.discarded.each();
        for (count, thrown) in each.iter_mut().zip(thrown) {
            *count = count.wrapping_add(thrown as u32);
        }
        self.discarded = Discarded::of(each);
    }
}

/// Which of document 01's reasons for an 8 hold, in its order. The fourth is of a reader with exactly
/// the wanted frames, and the fifth of one with room for the held bytes, so that each can hold alone.
pub fn bad_state(reader: &Reader) -> [bool; 6] {
    let counts = &reader.counts;
    let (wanted, collected, held) = (counts.wanted, counts.collected, counts.held);
    let first = reader.frames.get(collected.saturating_mul(FRAME));
    [
        held > FRAME - 1,
        wanted > MOST_WANTED,
        collected > wanted,
        collected == wanted && held > 0,
        held > 0 && first.is_some_and(|byte| *byte != START),
        u64::from(counts.discarded.all()) > MOST_DISCARDED && counts.mark.0 == 0,
    ]
}
