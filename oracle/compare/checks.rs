//! The frame check, and the frames of a buffer.

use crate::frames::{self, FRAME, HOST, LONGEST};
use crate::one_frame::{self, Reads};
use crate::original;
use crate::random::Random;
use crate::told::FrameKindTold;
use crate::trial::{Part, Trial};

const OF: &str = "frame check";

pub fn parts() -> Vec<Part> {
    let others = [
        Part::new(
            OF,
            "the four decoders that only check",
            500_000,
            only_checked,
        ),
        Part::new(
            "frame k",
            "the rule k < len / 13 (the Rust has no such function)",
            10_000,
            places,
        ),
    ];
    [&one_frame::parts::<FrameCheck>(OF)[..], &others].concat()
}

/// Who sent it, which the Rust does not ask: document 02's K1.
pub const ADDRESSES: [Part; 1] = [one_frame::address_part::<FrameCheck>(OF)];

struct FrameCheck;

/// The Rust's number as the port tells it. What is sound and has our own address is an echo.
fn told(number: u8, reply: &[u8]) -> FrameKindTold {
    let echo = number == 0 && reply[1] == HOST;
    FrameKindTold {
        number,
        echo: echo.into(),
    }
}

impl Reads for FrameCheck {
    fn command(random: &mut Random) -> u8 {
        frames::command(random)
    }

    fn compare(trial: &mut Trial, reply: &[u8], command: u8, known: Option<u8>) {
        let ours = trial.port.frame_check(reply, command);
        let rust = original::frame_check(reply, command);
        let known = told(known.unwrap_or(rust), reply);
        trial.check_known(known, told(rust, reply), ours, || {
            frames::shown(reply, command)
        });
    }
}

fn only_checked(trial: &mut Trial) {
    for _ in 0..trial.rounds(125_000) {
        for (command, decode) in original::ONLY_CHECKED {
            let reply = frames::any_reply(&mut trial.random, command);
            let ours = trial.port.frame_check(&reply, command);
            let rust = original::number(&decode(&reply));
            trial.check(told(rust, &reply), ours, || frames::shown(&reply, command));
        }
    }
}

/// 13 times this is 1 modulo 2^64: its multiples are the places whose start wraps to a small one.
const ONE_THIRTEENTH: usize = 0x4EC4_EC4E_C4EC_4EC5;

/// Places about the last frame, the same with a high bit more, and huge ones.
pub fn asked(length: usize) -> Vec<usize> {
    let mut asked: Vec<usize> = (0..=length / FRAME + 3).collect();
    for k in 0..=length / FRAME + 3 {
        asked.extend([8, 16, 31, 32, 63].map(|bit| k + (1 << bit)));
    }
    for off in 0..4 {
        let most = [usize::MAX, usize::MAX / 2, usize::MAX / FRAME];
        asked.extend(most.map(|k| k - off));
        asked.extend([most[1] + off, most[2] + off]);
    }
    asked.extend((0..=2 * FRAME).map(|start| ONE_THIRTEENTH.wrapping_mul(start)));
    asked
}

fn places(trial: &mut Trial) {
    let bytes = trial.random.bytes(LONGEST + 2 * FRAME);
    for length in (0..=60).chain(LONGEST..=bytes.len()) {
        for k in asked(length) {
            let ours = trial.port.frame_refusal(&bytes[..length], k);
            let rule = if k < length / FRAME { 0 } else { 1 };
            trial.check(rule, ours, || format!("length {length} k {k}"));
        }
    }
}
