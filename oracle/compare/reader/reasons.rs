//! Why bytes are thrown away, found a second time and otherwise than turn by turn. Which bytes make a frame with a right
//! sum depends on nothing that a reader has: such a frame is taken or thrown whole. Each other byte is thrown by itself, a
//! start byte for its wrong sum and any other as noise. So the frames are found first, and what is left is counted.

use super::told::{Discarded, Reader};
use crate::frames::{DATA, FRAME, HOST, START};

/// What a reader of these frames has thrown away, and what that depends on.
pub struct Reasons {
    command: u8,
    wanted: usize,
    strict: bool,
    collected: usize,
    /// The last bytes, where they may begin a frame.
    open: Vec<u8>,
    pub thrown: Discarded,
}

impl Reasons {
    pub fn new(command: u8, wanted: usize, strict: bool) -> Self {
        Self {
            command,
            wanted,
            strict,
            collected: 0,
            open: Vec::new(),
            thrown: Discarded::NONE,
        }
    }

    /// Of a reader in a good state.
    pub fn of(reader: &Reader) -> Self {
        let counts = reader.counts;
        Self {
            collected: counts.collected,
            open: reader.held().to_vec(),
            thrown: counts.discarded,
            ..Self::new(counts.command, counts.wanted, counts.strict.0 == 1)
        }
    }

    pub fn push(&mut self, chunk: &[u8]) {
        if self.collected == self.wanted {
            return;
        }
        let bytes = [&self.open, chunk].concat();
        let mut rest = &bytes[..];
        while let Some(at) = rest.windows(FRAME).position(is_sound) {
            let (before, frame) = rest.split_at(at);
            let (frame, behind) = frame.split_at(FRAME);
            self.throw_alone(before);
            self.take_or_throw(frame);
            rest = behind;
            if self.collected == self.wanted {
                self.open.clear();
                return;
            }
        }
        let (before, open) = rest.split_at(may_begin(rest));
        self.throw_alone(before);
        self.open = open.to_vec();
    }

    fn throw_alone(&mut self, bytes: &[u8]) {
        let starts = bytes.iter().filter(|byte| **byte == START).count();
        let others = bytes.len() - starts;
        self.thrown.sum = self.thrown.sum.wrapping_add(starts as u32);
        self.thrown.noise = self.thrown.noise.wrapping_add(others as u32);
    }

    fn take_or_throw(&mut self, frame: &[u8]) {
        let (number, next) = (usize::from(frame[DATA]), self.collected + 1);
        let count = if frame[2] != self.command {
            &mut self.thrown.command
        } else if (self.strict, frame[1]) == (true, HOST) {
            &mut self.thrown.echo
        } else if self.wanted == 1 || number == next {
            self.collected = next;
            return;
        } else if number == 1 {
            self.collected = 1;
            return;
        } else {
            &mut self.thrown.number
        };
        *count = count.wrapping_add(FRAME as u32);
    }
}

fn is_sound(bytes: &[u8]) -> bool {
    let sum = |bytes: &[u8]| bytes.iter().map(|byte| u32::from(*byte)).sum::<u32>();
    let (body, last) = bytes.split_at(FRAME - 1);
    bytes[0] == START && sum(body) % 256 == sum(last)
}

/// The first start byte that has fewer than 12 bytes behind it, or the end.
fn may_begin(bytes: &[u8]) -> usize {
    let from = bytes.len().saturating_sub(FRAME - 1);
    let start = bytes[from..].iter().position(|byte| *byte == START);
    start.map_or(bytes.len(), |place| from + place)
}
