//! Document 01's reader by value, beside the Rust's: a new one, pushes, what is missing, completeness, copying out. C has
//! these on a reader that it lends.

use crate::frames::{self, FRAME};
use crate::original;
use crate::trial::{Part, Trial};
use dalybms_lib::protocol::{exposed, FrameReader as Rust};
use translated::frame::number_of;
use translated::reader::{Counts, FrameReader};

pub const PARTS: &[Part] = &[
    Part::new(
        "FrameReader by value",
        "new, every size to 1,200 and requests of 0 to 5 bytes",
        7_000,
        |trial| new(trial, false),
    ),
    Part::new(
        "FrameReader by value",
        "streams of 0 to 5 frames in drawn cuts",
        20_000,
        streams,
    ),
    Part::new("FrameReader by value", "bad readers", 4_000, bad),
];

/// Document 02's K1. A refused reader is not strict.
pub const STRICT: [Part; 1] = [Part::new(
    "FrameReader by value, strict",
    "new, every size to 1,200 and requests of 0 to 5 bytes",
    7_000,
    |trial| new(trial, true),
)];

/// The number, the number of frames wanted, the mode, and whether all else is zero.
fn new(trial: &mut Trial, strict: bool) {
    for size in (0..=1_200).step_by(trial.stride()) {
        for length in 0..=5 {
            let request = trial.random.bytes(length);
            let opened = FrameReader::new(&request, size, strict);
            let c = opened.reader.counts;
            let zero = !c.mark && opened.reader.frames == [0; 1105];
            let rest = (c.tally, c.collected, c.held);
            let ours = (
                trial.port.answered(opened.number),
                c.command,
                c.wanted,
                c.strict,
                zero,
                rest,
            );
            let nothing = ([0; 7], 0, 0);
            let wanted = match (length, size) {
                (0..=2, _) => (7, 0, 0, false, true, nothing),
                (_, 1_106..) => (6, 0, 0, false, true, nothing),
                _ => {
                    let rust = Rust::new(&request, size);
                    let fields = exposed::reader_fields(&rust);
                    (0, fields.command, fields.n_frames, strict, true, nothing)
                }
            };
            trial.check(wanted, ours, || {
                format!("request {request:02X?} size {size} strict {strict}")
            });
        }
    }
}

/// Frames in order with noise between, a frame twice, or one of another command.
fn stream(trial: &mut Trial, command: u8, frames: usize) -> Vec<u8> {
    let mut bytes = Vec::new();
    for number in 1..=frames {
        let noise = trial.random.below(4);
        bytes.extend(trial.random.bytes(noise));
        if trial.random.below(4) == 0 {
            let other = trial.random.byte();
            bytes.extend(frames::frame(&mut trial.random, other, &[number as u8]));
        }
        bytes.extend(frames::frame(&mut trial.random, command, &[number as u8]));
        if trial.random.below(5) == 0 {
            bytes.extend(frames::frame(&mut trial.random, command, &[1]));
        }
    }
    bytes
}

/// Status, missing, completeness, and the frames, with how many bytes of them are told.
type Shown = (u8, u8, usize, u8, bool, Vec<u8>);

fn ours(reader: FrameReader, status: u8) -> Shown {
    let (missing, completed) = (reader.missing(), reader.is_complete());
    assert_eq!(missing.number, completed.number);
    let mut out = [0; 1105];
    let count = match reader.copy_out(&mut out) {
        Ok(count) => count,
        Err(refusal) => {
            return (
                status,
                u8::from(refusal),
                missing.missing,
                missing.number,
                completed.complete,
                Vec::new(),
            )
        }
    };
    (
        status,
        0,
        missing.missing,
        missing.number,
        completed.complete,
        out[..count].to_vec(),
    )
}

fn rusts(reader: &Rust, status: u8) -> Shown {
    let frames = exposed::reader_fields(reader).frames.to_vec();
    (status, 0, reader.missing(), 0, reader.is_complete(), frames)
}

fn streams(trial: &mut Trial) {
    for _ in 0..trial.rounds(6_000) {
        let (command, frames) = (frames::command(&mut trial.random), trial.random.below(6));
        let request = [0xA5, 0x40, command];
        let (mut reader, mut rust) = (
            FrameReader::new(&request, FRAME * frames, false).reader,
            Rust::new(&request, FRAME * frames),
        );
        let bytes = stream(trial, command, frames);
        let mut at = 0;
        while at < bytes.len() {
            let end = bytes.len().min(at + 1 + trial.random.below(30));
            let pushed = reader.push(&bytes[at..end]);
            reader = pushed.reader;
            let said = original::number(&rust.push(&bytes[at..end]));
            let wanted = rusts(&rust, said);
            let status = trial.port.answered(pushed.said.status);
            trial.check(wanted, ours(reader, status), || {
                format!("{:02X?} of {command:02X}, {frames} frames", &bytes[..end])
            });
            at = end;
        }
    }
}

/// A good state.
const GOOD: Counts = Counts {
    command: 0x90,
    mark: false,
    strict: false,
    tally: [0; 7],
    wanted: 2,
    collected: 1,
    held: 0,
};

/// Each of the six ways to be bad, the last, 513 bytes discarded without the mark, by one count and by five.
const BAD: [Counts; 7] = [
    Counts { held: 13, ..GOOD },
    Counts { wanted: 86, ..GOOD },
    Counts {
        collected: 3,
        ..GOOD
    },
    Counts {
        collected: 2,
        held: 1,
        ..GOOD
    },
    Counts { held: 1, ..GOOD },
    Counts {
        tally: [0, 513, 0, 0, 0, 0, 0],
        ..GOOD
    },
    Counts {
        tally: [0, 103, 103, 103, 103, 101, 0],
        ..GOOD
    },
];

/// 8, 0 missing, not complete, nothing copied; a good one without room: 9, nothing written.
fn bad(trial: &mut Trial) {
    for _ in 0..trial.rounds(1_000).max(4) {
        for counts in BAD {
            let reader = FrameReader {
                counts,
                frames: [0; 1105],
            };
            let pushed = reader.push(&[0xA5]);
            let status = trial.port.answered(pushed.said.status);
            trial.check(
                (8, 8, 0, 8, false, Vec::new()),
                ours(pushed.reader, status),
                || {
                    format!(
                        "wanted {}, collected {}, held {}",
                        counts.wanted, counts.collected, counts.held
                    )
                },
            );
        }
        let (mut out, reader) = (
            [7; 12],
            FrameReader {
                counts: GOOD,
                frames: [0; 1105],
            },
        );
        let number = trial.port.answered(number_of(reader.copy_out(&mut out)));
        trial.check((9, [7; 12]), (number, out), || String::from("no room"));
    }
}
