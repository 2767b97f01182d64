//! `readreply` without its reading and writing: an input comes in pieces, and what is printed is that of the input in one piece,
//! which the samples hold to the Rust.

use crate::frames;
use crate::reader::streams::{self, Asked};
use crate::told::Answer;
use crate::trial::{Part, Trial};
use translated::reply;

pub const PARTS: [Part; 1] = [Part::new(
    "reply",
    "an input in drawn pieces, also of no bytes, as in one",
    20_000,
    pieces,
)];

/// A text.
#[derive(Debug, PartialEq)]
struct Printed(Vec<u8>);

impl Answer for Printed {
    fn flip(&mut self, bit: usize) {
        match self.0.get_mut(bit / 8) {
            Some(byte) => *byte ^= 1 << (bit % 8),
            None => self.0.push(bit as u8),
        }
    }
}

fn printed(pieces: &[&[u8]]) -> Printed {
    let (mut frames, mut input) = ([0; 1105], reply::begin());
    for piece in pieces {
        input = reply::push(&mut frames, input, piece);
    }
    let mut out = [0; 8192];
    let n = reply::print(&frames, input, &mut out);
    Printed(out[..n].to_vec())
}

/// Refusals 7 and 10 stand alone.
fn wanted(input: &[u8]) -> Printed {
    match input {
        [] | [_] => Printed(b"refused 7\n".to_vec()),
        [0..=0x8F | 0x99..=0xFF, ..] => Printed(b"refused 10\n".to_vec()),
        _ => printed(&[input]),
    }
}

/// The command is now and then none that can be asked.
fn input_of(trial: &mut Trial) -> Vec<u8> {
    let random = &mut trial.random;
    let command = 0x8F + random.below(11) as u8;
    let frames = random.below(5);
    let asked = Asked {
        command,
        size: frames::FRAME * frames,
        wanted: frames,
    };
    let mut input = vec![command, (3 * frames) as u8];
    input.extend(streams::mixed(random, asked));
    if random.below(4) == 0 {
        input.truncate(random.below(30));
    }
    input
}

fn pieces(trial: &mut Trial) {
    for _ in 0..trial.rounds(20_000) {
        let input = input_of(trial);
        let mut pieces = streams::cut(&mut trial.random, &input);
        for _ in 0..trial.random.below(3) {
            let place = trial.random.below(pieces.len() + 1);
            pieces.insert(place, &[]);
        }
        let ours = trial.port.answered(printed(&pieces));
        trial.check(wanted(&input), ours, || format!("input {input:02X?}"));
    }
}
