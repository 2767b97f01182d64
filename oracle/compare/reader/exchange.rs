//! How a strict reader stands beside the Rust, which has no strict mode (document 02, K1). Where the rules find an echo,
//! its 13 bytes are exchanged for a right frame of another command. The Rust throws that away whole, as a strict reader
//! does the echo, so on either stream the same frames are collected, and as many bytes held and discarded.

use super::model::{Judged, Model, Turn};
use crate::frames::{self, FRAME};
use crate::random::Random;

pub struct Exchanged {
    /// Where the stream leads the reader, by the rules.
    pub end: Model,
    /// Its turns. They stop where it is complete.
    pub turns: Vec<Turn>,
    /// What the Rust is to hold and to be pushed.
    pub bytes: Vec<u8>,
}

impl Exchanged {
    pub fn has_echo(&self) -> bool {
        self.turns.iter().any(|turn| turn.judged == Judged::Echo)
    }

    pub fn begins_with_echo(&self) -> bool {
        let first = self.turns.first();
        first.is_some_and(|turn| turn.judged == Judged::Echo)
    }
}

/// The stream behind what this reader holds.
pub fn exchange(random: &mut Random, reader: Model, stream: &[u8]) -> Exchanged {
    let mut bytes = [&reader.held, stream].concat();
    let mut end = reader;
    let mut turns = Vec::new();
    end.push_seen(stream, |turn| turns.push(turn));
    for (index, turn) in turns.iter().enumerate() {
        if turn.judged == Judged::Echo {
            put(random, end.command, &mut bytes, turn.at, &turns[..index]);
        }
    }
    Exchanged { end, turns, bytes }
}

/// Exchanges the echo at this place. What was judged before it can reach into its bytes, and then had a wrong sum, which
/// must not become a right one.
fn put(random: &mut Random, command: u8, bytes: &mut [u8], at: usize, before: &[Turn]) {
    loop {
        let other = command ^ random.change();
        let frame = frames::frame(random, other, &[]);
        bytes[at..at + FRAME].copy_from_slice(&frame);
        let mut reaching = before
            .iter()
            .rev()
            .take_while(|turn| turn.at + FRAME > at)
            .filter(|turn| turn.judged == Judged::WrongSum);
        if reaching.all(|turn| !frames::has_right_sum(&bytes[turn.at..turn.at + FRAME])) {
            return;
        }
    }
}
