//! What the frame check tells apart (document 02, K1), by the names that the port has for it, and the check of a reply,
//! which takes both sound kinds.

use crate::buffers::number;
use crate::frames::{self, HOST};
use crate::one_frame::{self, Reads};
use crate::original;
use crate::random::Random;
use crate::trial::{Part, Trial};
use translated::frame::{self, FrameKind, Refusal};

const OF: &str = "frame_check and reply_check";

pub fn parts() -> Vec<Part> {
    let addresses = [one_frame::address_part::<Kinds>(OF)];
    [&one_frame::parts::<Kinds>(OF)[..], &addresses].concat()
}

struct Kinds;

/// The address of a sound frame, where it is ours; else document 01's number.
fn named(kind: Result<FrameKind, Refusal>) -> u8 {
    match kind {
        Ok(FrameKind::FromBoard) => 0,
        Ok(FrameKind::Echo) => HOST,
        Err(refusal) => number(Err(refusal)),
    }
}

/// The kind, its number, and that of the reply: what is sound and has our own address is an echo.
fn told(number: u8, reply: &[u8]) -> [u8; 3] {
    let kind = match number {
        0 if reply[1] == HOST => HOST,
        _ => number,
    };
    [kind, number, number]
}

impl Reads for Kinds {
    fn command(random: &mut Random) -> u8 {
        frames::command(random)
    }

    fn compare(trial: &mut Trial, reply: &[u8], command: u8, known: Option<u8>) {
        let kind = frame::frame_check(reply, command);
        let checked = frame::reply_check(reply, command);
        let ours = [named(kind), frame::number_of(kind), number(checked)];
        let ours = trial.port.answered(ours);
        let rust = original::frame_check(reply, command);
        let known = told(known.unwrap_or(rust), reply);
        trial.check_known(known, told(rust, reply), ours, || {
            frames::shown(reply, command)
        });
    }
}
