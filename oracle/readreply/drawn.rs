//! Streams of every kind that the comparison of the reader has, and mere bytes.

use crate::inputs::*;
use crate::part::{cases, Case, Part};
use reference::frames::START;
use reference::random::Random;
use reference::reader::streams::{self, Make};

/// Streams of one kind.
const STREAMS: usize = 900;

pub const PARTS: &[Part] = &[
    kind("drawn: clean streams", |random| {
        of_kind(random, streams::clean)
    }),
    kind("drawn: noise between frames", |random| {
        of_kind(random, streams::noisy)
    }),
    kind("drawn: start bytes", |random| {
        of_kind(random, streams::all_starts)
    }),
    kind(
        "drawn: frames begun inside frames that are thrown",
        |random| of_kind(random, streams::inside_thrown),
    ),
    kind("drawn: echoes of our own question", |random| {
        of_kind(random, streams::echoes)
    }),
    kind("drawn: frames of other commands", |random| {
        of_kind(random, streams::other_commands)
    }),
    kind("drawn: frames with wrong numbers", |random| {
        of_kind(random, streams::other_numbers)
    }),
    kind("drawn: boards that begin again", |random| {
        of_kind(random, streams::restarts)
    }),
    kind("drawn: flipped, dropped and doubled bytes", |random| {
        of_kind(random, streams::damaged)
    }),
    kind("drawn: bytes, many of them A5", |random| {
        of_kind(random, streams::drawn)
    }),
    kind("drawn: mixtures", |random| of_kind(random, streams::mixed)),
    kind("drawn: mixtures with a mode or number that is known", known),
    kind("drawn: mere bytes", mere_bytes),
];

const fn kind(what: &'static str, make: fn(&mut Random) -> Vec<Case>) -> Part {
    Part::new(what, STREAMS, make)
}

fn of_kind(random: &mut Random, make: Make) -> Vec<Case> {
    let mut inputs = Vec::new();
    for _ in 0..STREAMS {
        let (command, count) = drawn(random);
        let stream = make(random, asked(command, count));
        inputs.push(input(command, count, &stream));
    }
    cases(random, inputs)
}

/// A single drawn frame has any byte 4, so most of 93, 95 and 96 are refused. Not these.
fn known(random: &mut Random) -> Vec<Case> {
    let mut inputs = Vec::new();
    for _ in 0..STREAMS {
        let (command, most) = [(0x93, 255), (0x95, 3), (0x96, 7)][random.below(3)];
        let count = 1 + random.below(most) as u8;
        let front = match random.below(2) {
            0 => streams::noise(random, asked(command, count), 1),
            _ => streams::other_command(random, asked(command, count), 1),
        };
        let reply = reply(random, command, count);
        let behind = streams::mixed(random, asked(command, count));
        inputs.push(input(command, count, &[front, reply, behind].concat()));
    }
    cases(random, inputs)
}

/// No stream is meant, but the first byte often is a command and the others often begin a frame.
fn mere_bytes(random: &mut Random) -> Vec<Case> {
    let mut inputs = Vec::new();
    for _ in 0..STREAMS {
        let most = [3, 20, 100, 1500][random.below(4)];
        let length = random.below(most);
        let mut bytes = random.bytes(length);
        let starts = random.below(4);
        for byte in &mut bytes {
            if random.below(8) < starts {
                *byte = START;
            }
        }
        if let (Some(first), 1..) = (bytes.first_mut(), random.below(8)) {
            *first = 0x90 + random.below(9) as u8;
        }
        inputs.push(bytes);
    }
    cases(random, inputs)
}
