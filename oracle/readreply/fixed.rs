//! Commands, counts, fields and refusals: every one of them.

use crate::inputs::*;
use crate::part::{cases, Case, Part};
use crate::process::Way;
use reference::frames::{self, DATA};
use reference::is_known;
use reference::random::Random;

pub const PARTS: &[Part] = &[
    Part::new(
        "document 01's example, cut in two at every place",
        2 + 2 * 16,
        example,
    ),
    Part::new("every command with every count", 9 * 256, every_count),
    Part::new("every unknown command", 2 * 247, unknown_commands),
    Part::new("inputs of 0, 1 and 2 bytes", 1 + 256 + 3 * 256, short),
    Part::new("refused 1: too few frames", 9 * 3, too_few),
    Part::new("refused 4: one frame with every number", 2 * 255, numbers),
    Part::new("refused 5: every mode", 256, modes),
    Part::new("every flag byte", 5 * 256, flags),
    Part::new("every temperature", 2 * 256, temperatures),
    Part::new("numbers of every length", 6 * NUMBERS.len(), lengths),
    Part::new("capacities of every length", 60, capacities),
    Part::new("every bit of 97 and 98", 2 * (64 + 40), bits),
    Part::new("counts of 97", 256, balance_counts),
];

fn example(_: &mut Random) -> Vec<Case> {
    let bytes = EXAMPLE.len();
    let in_two = (1..bytes).map(|place| vec![place]);
    let reads = in_two.clone().chain([vec![1; bytes]]).map(Way::Reads);
    let ways = in_two.map(Way::Pieces).chain(reads).chain([Way::File]);
    ways.map(|way| Case {
        input: EXAMPLE.to_vec(),
        way,
    })
    .collect()
}

fn every_count(random: &mut Random) -> Vec<Case> {
    let mut inputs = Vec::new();
    for command in COMMANDS {
        for count in 0..=MOST_VALUES {
            let reply = reply(random, command, count);
            inputs.push(input(command, count, &reply));
        }
    }
    cases(random, inputs)
}

fn unknown_commands(random: &mut Random) -> Vec<Case> {
    let mut inputs = Vec::new();
    for command in (0..=255).filter(|command| !is_known(*command)) {
        let frame = frames::frame(random, command, &[1]);
        inputs.push(input(command, 1, &frame));
        let length = random.below(60);
        let stream = random.bytes(length);
        inputs.push(input(command, random.byte(), &stream));
    }
    cases(random, inputs)
}

fn short(random: &mut Random) -> Vec<Case> {
    let ones = (0..=255).map(|byte| vec![byte]);
    let twos = (0..=255).flat_map(|byte| [0, 1, 255].map(|count| vec![byte, count]));
    let inputs = ones.chain(twos).chain([Vec::new()]).collect();
    cases(random, inputs)
}

/// Nothing, a frame less, and a byte less.
fn too_few(random: &mut Random) -> Vec<Case> {
    let mut inputs = Vec::new();
    for command in COMMANDS {
        for count in [1, 16, 255] {
            let reply = reply(random, command, count);
            for less in [reply.len(), frames::FRAME, 1] {
                inputs.push(input(command, count, &reply[..reply.len() - less]));
            }
        }
    }
    cases(random, inputs)
}

/// The reader takes any number of a single frame, the decoder only 1.
fn numbers(random: &mut Random) -> Vec<Case> {
    let mut inputs = Vec::new();
    for (command, most) in [(0x95, 3), (0x96, 7)] {
        for number in 0..=255 {
            let frame = frames::frame(random, command, &[number]);
            let count = 1 + random.below(most) as u8;
            inputs.push(input(command, count, &frame));
        }
    }
    cases(random, inputs)
}

fn modes(random: &mut Random) -> Vec<Case> {
    let modes = (0..=255).map(|mode| {
        let frame = with_bytes(random, 0x93, &[(DATA, mode)]);
        input(0x93, random.byte(), &frame)
    });
    let inputs = modes.collect();
    cases(random, inputs)
}

/// The two flags of a 93 reply, the two of a 94 reply, and its states.
fn flags(random: &mut Random) -> Vec<Case> {
    let mut inputs = Vec::new();
    for (command, place) in [(0x93, 5), (0x93, 6), (0x94, 6), (0x94, 7), (0x94, 8)] {
        for byte in 0..=255 {
            let frame = with_bytes(random, command, &[(place, byte)]);
            inputs.push(input(command, 0, &frame));
        }
    }
    cases(random, inputs)
}

fn temperatures(random: &mut Random) -> Vec<Case> {
    let mut inputs = Vec::new();
    for byte in 0..=255 {
        let range = with_bytes(random, 0x92, &[(4, byte), (6, 255 - byte)]);
        inputs.push(input(0x92, 0, &range));
        let sensors = with_bytes(random, 0x96, &[(5, byte), (6, 255 - byte)]);
        inputs.push(input(0x96, 2, &sensors));
    }
    cases(random, inputs)
}

/// About each count of decimal digits, about the current's offset, and the largest.
const NUMBERS: [u16; 19] = [
    0, 1, 9, 10, 11, 99, 100, 101, 255, 256, 999, 1000, 9999, 10_000, 29_999, 30_000, 30_001,
    65_534, 65_535,
];

/// The two-byte counts of all replies.
fn lengths(random: &mut Random) -> Vec<Case> {
    let places = [
        (0x90, 4),
        (0x90, 8),
        (0x90, 10),
        (0x91, 4),
        (0x91, 7),
        (0x94, 9),
        (0x95, 5),
        (0x95, 9),
    ];
    let mut inputs = Vec::new();
    for (command, place) in places {
        for number in NUMBERS {
            let [high, low] = number.to_be_bytes();
            let frame = with_bytes(random, command, &[(place, high), (place + 1, low)]);
            inputs.push(input(command, 3, &frame));
        }
    }
    cases(random, inputs)
}

/// About each count of decimal digits and each power of two that f32 rounds.
fn capacities(random: &mut Random) -> Vec<Case> {
    let tens = (0..10).map(|digits| 10_u32.pow(digits));
    let twos = (22..32).map(|digits| 1 << digits);
    let about = tens
        .chain(twos)
        .flat_map(|count| [count - 1, count, count + 1]);
    let counts: Vec<u32> = about.chain([u32::MAX - 1, u32::MAX]).collect();
    let frames = counts.into_iter().map(|count| {
        let bytes = count.to_be_bytes();
        let bytes: Vec<_> = (8..12).zip(bytes).collect();
        input(0x93, 0, &with_bytes(random, 0x93, &bytes))
    });
    let inputs = frames.collect();
    cases(random, inputs)
}

/// Each bit of the data alone, and any of them together.
fn bits(random: &mut Random) -> Vec<Case> {
    let mut inputs = Vec::new();
    for command in [0x97, 0x98] {
        for bit in 0..64 {
            let frame = only_bytes(random, command, &[(DATA + bit / 8, 1 << (bit % 8))]);
            inputs.push(input(command, 48, &frame));
        }
        for _ in 0..40 {
            let frame = with_bytes(random, command, &[]);
            inputs.push(input(command, 48, &frame));
        }
    }
    cases(random, inputs)
}

/// With all flags set, so that one too many shows.
fn balance_counts(random: &mut Random) -> Vec<Case> {
    let all: Vec<_> = (DATA..DATA + 8).map(|place| (place, 0xFF)).collect();
    let frame = with_bytes(random, 0x97, &all);
    let inputs = (0..=255).map(|count| input(0x97, count, &frame)).collect();
    cases(random, inputs)
}
