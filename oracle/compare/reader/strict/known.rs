//! Readers of both modes on echoes, worked out by hand: the Rust's too, which is held to the same counts.

use super::super::exchange::exchange;
use super::super::model::Model;
use super::super::numbers::{FRAMES, ONE_FRAME, SOC};
use super::super::sides::Sides;
use super::super::streams::Asked;
use super::super::told::{Counts, Discarded};
use super::{push_all, OF};
use crate::trial::{Part, Trial};

pub const PARTS: [Part; 5] = [
    Part::new(
        OF,
        "by hand: the 90 question, then the frame",
        300,
        asked_and_told,
    ),
    Part::new(
        OF,
        "by hand: frames 1 and 2, an echo numbered 1, frame 3",
        700,
        numbered_1,
    ),
    Part::new(
        OF,
        "by hand: an echo of start bytes, then the frame",
        300,
        start_bytes,
    ),
    Part::new(
        OF,
        "by hand: the 91 question, then the frame",
        300,
        other_command,
    ),
    Part::new(
        OF,
        "by hand: 8 bytes of the question, then the frame",
        250,
        cut_off,
    ),
];

/// The 90 question, as document 01's P1 has it.
const QUESTION: [u8; 13] = [0xA5, 0x40, 0x90, 0x08, 0, 0, 0, 0, 0, 0, 0, 0, 0x7D];

/// What is known of a reader that took so many bytes.
#[derive(Clone, Copy)]
struct Known<'a> {
    taken: u32,
    discarded: Discarded,
    cleared: u32,
    frames: &'a [u8],
}

/// The bytes of one frame.
const OTHER_COMMAND: Discarded = Discarded {
    command: 13,
    ..Discarded::NONE
};
const OTHER_NUMBER: Discarded = Discarded {
    number: 13,
    ..Discarded::NONE
};
const ECHO: Discarded = Discarded {
    echo: 13,
    ..Discarded::NONE
};

/// In chunks of every size, each to a reader of its own.
fn check(trial: &mut Trial, asked: Asked, stream: &[u8], strict: bool, known: Known) {
    let reader = Model::new(asked.command, asked.size, strict);
    let exchanged = exchange(&mut trial.random, reader, stream).bytes;
    let counts = Counts {
        command: asked.command,
        strict: strict.into(),
        taken: known.taken,
        discarded: known.discarded,
        cleared: known.cleared,
        wanted: asked.wanted,
        collected: known.frames.len() / 13,
        ..Counts::ZERO
    };
    for size in 1..=stream.len() {
        let Some(mut sides) = Sides::opened(trial, asked, strict) else {
            return;
        };
        let cutting: Vec<usize> = stream.chunks(size).map(<[u8]>::len).collect();
        if !push_all(trial, &mut sides, stream, &exchanged, &cutting) {
            return;
        }
        let ours = (sides.said.status, sides.ours.counts, sides.ours.collected());
        trial.check((0, counts, known.frames), ours, || {
            format!("strict {strict}, chunks of {size}")
        });
    }
}

/// The other mode first.
fn both(trial: &mut Trial, asked: Asked, stream: &[u8], known: [Known; 2]) {
    check(trial, asked, stream, false, known[0]);
    check(trial, asked, stream, true, known[1]);
}

/// The echo alone completes the reader, unless that is strict.
fn asked_and_told(trial: &mut Trial) {
    let echoed = Known {
        taken: 13,
        discarded: Discarded::NONE,
        cleared: 0,
        frames: &QUESTION,
    };
    let told = Known {
        taken: 26,
        discarded: ECHO,
        frames: &SOC,
        ..echoed
    };
    let stream = [QUESTION, SOC].concat();
    both(trial, ONE_FRAME, &stream, [echoed, told]);
}

/// The echo drops frames 1 and 2, and frame 3 is then thrown; or the echo is thrown.
fn numbered_1(trial: &mut Trial) {
    let echo = [0xA5, 0x40, 0x95, 0x08, 1, 0, 0, 0, 0, 0, 0, 0, 0x83];
    let [one, two, three] = FRAMES;
    let asked = Asked {
        command: 0x95,
        size: 39,
        wanted: 3,
    };
    let dropped = Known {
        taken: 52,
        discarded: OTHER_NUMBER,
        cleared: 2,
        frames: &echo,
    };
    let complete = Known {
        discarded: ECHO,
        cleared: 0,
        frames: &FRAMES.concat(),
        ..dropped
    };
    let stream = [one, two, echo, three].concat();
    both(trial, asked, &stream, [dropped, complete]);
}

/// A5, 40, 90, 08 and eight times A5 are 1,701, which is A5 modulo 256.
fn start_bytes(trial: &mut Trial) {
    let mut echo = [0xA5; 13];
    echo[1..4].copy_from_slice(&[0x40, 0x90, 0x08]);
    let echoed = Known {
        taken: 13,
        discarded: Discarded::NONE,
        cleared: 0,
        frames: &echo,
    };
    let thrown = Known {
        taken: 26,
        discarded: ECHO,
        frames: &SOC,
        ..echoed
    };
    let stream = [echo, SOC].concat();
    both(trial, ONE_FRAME, &stream, [echoed, thrown]);
}

/// Thrown in both modes, by its command.
fn other_command(trial: &mut Trial) {
    let mut question = QUESTION;
    question[2] = 0x91;
    question[12] = 0x7E;
    let known = Known {
        taken: 26,
        discarded: OTHER_COMMAND,
        cleared: 0,
        frames: &SOC,
    };
    let stream = [question, SOC].concat();
    both(trial, ONE_FRAME, &stream, [known; 2]);
}

/// Its sum is wrong in both modes: one byte goes for that, and seven stand before the next start byte.
fn cut_off(trial: &mut Trial) {
    let known = Known {
        taken: 21,
        discarded: Discarded {
            noise: 7,
            sum: 1,
            ..Discarded::NONE
        },
        cleared: 0,
        frames: &SOC,
    };
    let stream = [&QUESTION[..8], &SOC].concat();
    both(trial, ONE_FRAME, &stream, [known; 2]);
}
