//! What the streams of strict mode had in them. It is told by the rules, and not by what made the streams: each must have
//! been there, so that the comparison is of something.

use super::super::exchange::Exchanged;
use super::super::model::{Judged, Model, Turn, MOST_WANTED};
use super::super::saw_enough;
use super::OF;
use crate::frames::{self, DATA, FRAME, HOST, START};
use crate::trial::{Outcome, Trial};

pub const BYTE_BY_BYTE: &str = "streams pushed byte by byte as well";
pub const HELD_ALREADY: &str = "readers given by hand that hold the beginning of an echo";
const WITH_ECHOES: &str = "streams with echoes";
const WANTED: &str = "streams with echoes, the fewest for any count of frames from 1 to 85";
const NONE_WANTED: &str = "streams to readers that want no frame";
const COMMANDS: &str = "streams with echoes, the fewest for any command byte";

/// One turn, and what it was about.
struct At<'a> {
    turn: &'a Turn,
    before: Option<Judged>,
    /// From the turn's place on.
    rest: &'a [u8],
    command: u8,
    wanted: usize,
}

impl At<'_> {
    fn is_echo(&self) -> bool {
        self.turn.judged == Judged::Echo
    }

    /// An echo whose number would be read were it not one.
    fn is_numbered(&self, number: usize) -> bool {
        self.is_echo() && self.wanted > 1 && usize::from(self.rest[DATA]) == number
    }

    fn is_ours(&self) -> bool {
        self.rest.get(1) == Some(&HOST)
    }

    fn begins_inside(&self) -> bool {
        (1..FRAME).any(|place| is_right(&self.rest[place..], self.command))
    }
}

/// Whether it begins with a right frame of this command.
fn is_right(bytes: &[u8], command: u8) -> bool {
    bytes.get(..FRAME).is_some_and(|frame| {
        frame[0] == START && frame[2] == command && frames::has_right_sum(frame)
    })
}

/// Its name, how many there are to be at least, and whether a turn is one.
type OfTurn = (&'static str, u64, fn(&At) -> bool);

const TURNS: [OfTurn; 17] = [
    ("echoes", 150_000, |at| at.is_echo()),
    ("echoes where one frame is wanted", 10_000, |at| {
        at.is_echo() && at.wanted == 1
    }),
    ("echoes before the first frame", 10_000, |at| {
        at.is_echo() && at.turn.collected == 0 && at.turn.cleared == 0
    }),
    ("echoes between frames", 10_000, |at| {
        at.is_echo() && at.turn.collected > 0
    }),
    ("echoes where the board has begun again", 10_000, |at| {
        at.is_echo() && at.turn.cleared > 0
    }),
    ("echoes numbered 1 behind collected frames", 10_000, |at| {
        at.is_numbered(1) && at.turn.collected > 0
    }),
    ("echoes numbered as the next frame", 10_000, |at| {
        at.is_numbered(at.turn.collected + 1)
    }),
    ("echoes behind noise", 1_000, |at| {
        at.is_echo() && matches!(at.before, Some(Judged::Noise(_)))
    }),
    ("echoes behind a start byte with a wrong sum", 1_000, |at| {
        at.is_echo() && at.before == Some(Judged::WrongSum)
    }),
    ("echoes behind a frame that is thrown", 1_000, |at| {
        let thrown = [Some(Judged::OtherCommand), Some(Judged::OtherNumber)];
        at.is_echo() && thrown.contains(&at.before)
    }),
    ("echoes behind an echo", 10_000, |at| {
        at.is_echo() && at.before == Some(Judged::Echo)
    }),
    ("echoes with a start byte inside", 10_000, |at| {
        at.is_echo() && at.rest[1..FRAME].contains(&START)
    }),
    ("echoes in which a right frame begins", 10_000, |at| {
        at.is_echo() && at.begins_inside()
    }),
    ("frames of another command with our address", 1_000, |at| {
        at.turn.judged == Judged::OtherCommand && at.is_ours()
    }),
    ("frames with a wrong sum and our address", 1_000, |at| {
        at.turn.judged == Judged::WrongSum && at.is_ours() && at.rest[2] == at.command
    }),
    (
        "frames collected that have our address with one bit turned",
        10_000,
        |at| at.turn.judged == Judged::Collected && (at.rest[1] ^ HOST).count_ones() == 1,
    ),
    ("echoes cut off at the stream's end", 1_000, |at| {
        at.turn.judged == Judged::Held && at.is_ours() && at.rest.get(2) == Some(&at.command)
    }),
];

/// The same, of a reader at its stream's end and of what came behind the last wanted frame.
type OfEnd = (&'static str, u64, fn(&Model, &[u8]) -> bool);

const ENDS: [OfEnd; 5] = [
    ("readers that end complete", 10_000, |end, _| {
        end.is_complete()
    }),
    ("readers that end incomplete", 10_000, |end, _| {
        !end.is_complete()
    }),
    (
        "complete readers with over 512 bytes discarded",
        200,
        |end, _| end.is_complete() && end.mark,
    ),
    (
        "incomplete readers with over 512 bytes discarded",
        200,
        |end, _| !end.is_complete() && end.mark,
    ),
    (
        "readers with an echo behind their last frame",
        1_000,
        |end, left| {
            (0..left.len()).any(|at| is_right(&left[at..], end.command) && left[at + 1] == HOST)
        },
    ),
];

/// Counts what this stream has in it.
pub fn note(trial: &mut Trial, wanted: usize, stream: &[u8], exchanged: &Exchanged) {
    let Exchanged { end, turns, .. } = exchanged;
    let command = end.command;
    let mut before = None;
    for turn in turns {
        let rest = &stream[turn.at..];
        let at = At {
            turn,
            before,
            rest,
            command,
            wanted,
        };
        for (name, _, _) in TURNS.iter().filter(|(_, _, is)| is(&at)) {
            trial.saw(name, 0);
        }
        before = Some(turn.judged);
    }
    let left = &stream[end.taken as usize..];
    for (name, _, _) in ENDS.iter().filter(|(_, _, is)| is(end, left)) {
        trial.saw(name, 0);
    }
    if wanted == 0 {
        trial.saw(NONE_WANTED, 0);
    }
    if exchanged.has_echo() {
        trial.saw(WITH_ECHOES, 0);
        trial.saw(WANTED, wanted);
        trial.saw(COMMANDS, command.into());
    }
}

pub fn all(outcomes: &[Outcome]) -> Vec<bool> {
    let turns = TURNS.iter().map(|(what, least, _)| (*what, *least));
    let ends = ENDS.iter().map(|(what, least, _)| (*what, *least));
    let single = [
        (WITH_ECHOES, 100_000),
        (BYTE_BY_BYTE, 25_000),
        (HELD_ALREADY, 500),
        (NONE_WANTED, 10),
    ];
    let mut passed: Vec<bool> = single
        .into_iter()
        .chain(turns)
        .chain(ends)
        .map(|(what, least)| saw_enough(OF, outcomes, what, 0..=0, least))
        .collect();
    passed.push(saw_enough(OF, outcomes, WANTED, 1..=MOST_WANTED, 5));
    passed.push(saw_enough(OF, outcomes, COMMANDS, 0..=255, 50));
    passed
}
