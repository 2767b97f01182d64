//! The three checks of which the frame check is made, each by itself and on buffers of any length; and frame k.

use crate::checks::asked;
use crate::frames::{self, FRAME, LONGEST, START};
use crate::original::{self, quiet};
use crate::random::Random;
use crate::told::Answer;
use crate::trial::{Part, Trial};
use dalybms_lib::protocol::exposed;
use translated::frame::{self, Refusal};

pub const PARTS: &[Part] = &[
    Part::new("validate_len", "every length and size, 0 to 40", 41 * 41, lengths),
    Part::new("validate_frame_header", "3 bytes and more", 38 * 2_000, headers),
    Part::new(
        "validate_frame_header",
        "0 to 2 bytes (listed difference: the Rust panics, or answers 2 at a wrong start byte; ours is 1)",
        3 * 200,
        short_headers,
    ),
    Part::new("validate_checksum", "1 byte and more", 41 * 2_000, sums),
    Part::new(
        "validate_checksum",
        "0 bytes (listed difference: the Rust panics, ours is 1)",
        2,
        no_bytes,
    ),
    Part::new("frame_part", "the bytes of frame k, or none", 10_000, frame_parts),
];

/// Document 01's number of what a check found, by the names alone.
pub fn number(found: Result<(), Refusal>) -> u8 {
    match found {
        Ok(()) => 0,
        Err(Refusal::ReplySizeError) => 1,
        Err(Refusal::UnexpectedFrame) => 2,
        Err(Refusal::CheckSumError) => 3,
        Err(_) => 255,
    }
}

fn lengths(trial: &mut Trial) {
    let bytes = trial.random.bytes(40);
    for length in 0..=40 {
        for size in 0..=40 {
            let buffer = &bytes[..length];
            let ours = trial
                .port
                .answered(number(frame::validate_len(buffer, size)));
            let rust = original::number(&exposed::validate_len(buffer, size));
            let known = if length < size { 1 } else { 0 };
            trial.check_known(known, rust, ours, || format!("length {length} size {size}"));
        }
    }
}

/// Most often with the right start byte or the right command or both.
fn drawn(random: &mut Random, command: u8, length: usize) -> Vec<u8> {
    let mut buffer = frames::reply(random, command, length);
    for place in [0, 2] {
        if place < length && random.below(3) == 0 {
            buffer[place] = random.byte();
        }
    }
    buffer
}

fn headers(trial: &mut Trial) {
    for length in frames::lengths(3) {
        for _ in 0..trial.rounds(2_000) {
            let command = frames::command(&mut trial.random);
            let buffer = drawn(&mut trial.random, command, length);
            let ours = frame::validate_frame_header(&buffer, command);
            let ours = trial.port.answered(number(ours));
            let rust = original::number(&exposed::validate_frame_header(&buffer, command));
            let right = buffer[0] == START && buffer[2] == command;
            trial.check_known(if right { 0 } else { 2 }, rust, ours, || {
                frames::shown(&buffer, command)
            });
        }
    }
}

fn short_headers(trial: &mut Trial) {
    for length in 0..3 {
        for _ in 0..trial.rounds(200) {
            let command = frames::command(&mut trial.random);
            let buffer = drawn(&mut trial.random, command, length);
            let ours = frame::validate_frame_header(&buffer, command);
            let ours = trial.port.answered(number(ours));
            let rust =
                quiet(|| original::number(&exposed::validate_frame_header(&buffer, command)));
            let wrong_start = buffer.first().is_some_and(|byte| *byte != START);
            trial.check((wrong_start.then_some(2), 1), (rust, ours), || {
                frames::shown(&buffer, command)
            });
        }
    }
}

fn sums(trial: &mut Trial) {
    for length in frames::lengths(1) {
        for _ in 0..trial.rounds(2_000) {
            let mut buffer = trial.random.bytes(length);
            if trial.random.below(2) == 0 {
                frames::put_sum(&mut buffer);
            }
            let ours = trial
                .port
                .answered(number(frame::validate_checksum(&buffer)));
            let rust = original::number(&exposed::validate_checksum(&buffer));
            let right = buffer.last() == Some(&frames::sum(&buffer));
            trial.check_known(if right { 0 } else { 3 }, rust, ours, || {
                format!("buffer {buffer:02X?}")
            });
        }
    }
}

fn no_bytes(trial: &mut Trial) {
    let some = [0; FRAME];
    for (name, empty) in [
        ("no buffer", &[][..]),
        ("the end of a buffer", &some[FRAME..]),
    ] {
        let ours = trial.port.answered(number(frame::validate_checksum(empty)));
        let rust = quiet(|| original::number(&exposed::validate_checksum(empty)));
        trial.check((None, 1), (rust, ours), || name.to_string());
    }
}

/// A part of a buffer: where it begins, and its bytes.
#[derive(Debug, PartialEq)]
struct Lent {
    at: usize,
    bytes: Vec<u8>,
}

impl Answer for Lent {
    fn flip(&mut self, bit: usize) {
        match bit % 3 {
            0 => self.at.flip(bit / 3),
            1 if !self.bytes.is_empty() => self.bytes.flip(bit / 3),
            _ => self.bytes.push(bit as u8),
        }
    }
}

fn lent(buffer: &[u8], part: &[u8]) -> Lent {
    Lent {
        at: (part.as_ptr() as usize).wrapping_sub(buffer.as_ptr() as usize),
        bytes: part.to_vec(),
    }
}

/// The Rust has no such function: the rule is the frames of a buffer one after another, and no copy.
fn frame_parts(trial: &mut Trial) {
    let bytes = trial.random.bytes(LONGEST + 2 * FRAME);
    for length in (0..=60).chain(LONGEST..=bytes.len()) {
        let buffer = &bytes[..length];
        for k in asked(length) {
            let ours = lent(buffer, frame::frame_part(buffer, k));
            let ours = trial.port.answered(ours);
            let rule = buffer.chunks_exact(FRAME).nth(k).unwrap_or(&buffer[..0]);
            trial.check(lent(buffer, rule), ours, || {
                format!("length {length} k {k}")
            });
        }
    }
}
