//! What a two-wire line could deliver to a strict reader: echoes, and what is nearly one.

use super::streams::{self, Asked, Thing};
use crate::frames::{self, DATA, FRAME, HOST, START};
use crate::random::Random;

pub const AS_SENT: &[Thing] = &[streams::echo];
pub const NUMBERED: &[Thing] = &[begins_again, numbered];
pub const WITH_STARTS: &[Thing] = &[full_of_starts, swallowing];
pub const BEHIND_OTHERS: &[Thing] = &[behind_noise, several];
pub const AMONG_RESTARTS: &[Thing] = &[among_restarts];
/// What is no echo has at least one beside it.
pub const BESIDE_NO_ECHOES: &[Thing] = &[beside_other_command, beside_wrong_sum, beside_part];
/// All of these, and whatever else a line delivers.
pub const ANY: &[Thing] = &[
    streams::echo,
    begins_again,
    numbered,
    full_of_starts,
    swallowing,
    behind_noise,
    several,
    among_restarts,
    other_command,
    wrong_sum,
    part_of_echo,
    anything,
    any_other,
];

/// Echoes of 13 bytes each, but for what begins inside the last one.
const SINGLE: [Thing; 5] = [
    streams::echo,
    begins_again,
    numbered,
    full_of_starts,
    swallowing,
];

/// Addresses that are not ours, most of them by one bit.
const BOARDS: [u8; 12] = [
    0x01, 0x01, 0x01, 0x00, 0x41, 0x42, 0x44, 0x48, 0x50, 0x60, 0xC0, START,
];

fn one_of(random: &mut Random, things: &[Thing], asked: Asked, number: usize) -> Vec<u8> {
    things[random.below(things.len())](random, asked, number)
}

/// The board's frames, with such things before one of them at least, and behind the last now and then.
fn with(random: &mut Random, asked: Asked, things: &[Thing]) -> Vec<u8> {
    let mut stream = Vec::new();
    let surely = 1 + random.below(asked.wanted.max(1));
    for number in 1..=asked.wanted {
        if number == surely {
            stream.extend(one_of(random, things, asked, number));
        }
        while random.below(asked.wanted + 3) == 0 {
            stream.extend(one_of(random, things, asked, number));
        }
        stream.extend(from_board(random, asked, number));
    }
    if random.below(3) == 0 {
        stream.extend(one_of(random, things, asked, asked.wanted.max(1)));
    }
    stream
}

/// Such a stream, of which some end anywhere and some go on.
pub fn stream(random: &mut Random, asked: Asked, things: &[Thing]) -> Vec<u8> {
    let mut stream = with(random, asked, things);
    match random.below(6) {
        0..2 => stream.truncate(random.below(stream.len() + 1)),
        2 => {
            let behind = with(random, asked, things);
            let some = random.below(behind.len().min(40) + 1);
            stream.extend(&behind[..some]);
        }
        _ => {}
    }
    stream
}

/// The board's frames from this number on, with anything between.
pub fn onward(random: &mut Random, asked: Asked, first: usize) -> Vec<u8> {
    let mut stream = Vec::new();
    for number in first..=asked.wanted {
        while random.below(2) == 0 {
            stream.extend(one_of(random, ANY, asked, number));
        }
        stream.extend(from_board(random, asked, number));
    }
    stream
}

/// The board's frame with this number. Byte 3, which nobody looks at, is now and then our address.
pub fn from_board(random: &mut Random, asked: Asked, number: usize) -> Vec<u8> {
    let mut frame = streams::right(random, asked, number);
    frame[1] = BOARDS[random.below(BOARDS.len())];
    if random.below(4) == 0 {
        frame[3] = HOST;
    }
    frames::put_sum(&mut frame);
    frame
}

/// A right frame of this command with our own address and this number.
fn ours(random: &mut Random, command: u8, number: u8) -> Vec<u8> {
    let mut frame = frames::frame(random, command, &[number]);
    frame[1] = HOST;
    frames::put_sum(&mut frame);
    frame
}

/// From the board, it would drop all collected frames.
fn begins_again(random: &mut Random, asked: Asked, _: usize) -> Vec<u8> {
    ours(random, asked.command, 1)
}

/// With the next number, or any.
pub fn numbered(random: &mut Random, asked: Asked, number: usize) -> Vec<u8> {
    let (next, drawn) = (number as u8, random.byte());
    let numbers = [next, next, next + 1, 0, drawn];
    let number = numbers[random.below(numbers.len())];
    ours(random, asked.command, number)
}

/// Start bytes wherever they can be.
fn full_of_starts(random: &mut Random, asked: Asked, number: usize) -> Vec<u8> {
    let mut bytes = numbered(random, asked, number);
    for place in [3].into_iter().chain(DATA + 1..FRAME - 1) {
        if random.below(4) > 0 {
            bytes[place] = START;
        }
    }
    frames::put_sum(&mut bytes);
    bytes
}

/// A right frame begins inside it, and is thrown with it. Byte 3 makes its sum right.
fn swallowing(random: &mut Random, asked: Asked, number: usize) -> Vec<u8> {
    let mut bytes = numbered(random, asked, number);
    bytes.truncate(DATA + 1 + random.below(FRAME - DATA - 1));
    bytes.extend(from_board(random, asked, number));
    let lacking = bytes[FRAME - 1].wrapping_sub(frames::sum(&bytes[..FRAME]));
    bytes[3] = bytes[3].wrapping_add(lacking);
    bytes
}

/// Behind bytes that begin no frame, or only seem to.
fn behind_noise(random: &mut Random, asked: Asked, number: usize) -> Vec<u8> {
    let before: [Thing; 4] = [
        streams::noise,
        streams::starts,
        streams::wrong_sum,
        streams::part_of_frame,
    ];
    let mut bytes = one_of(random, &before, asked, number);
    bytes.extend(one_of(random, &SINGLE, asked, number));
    bytes
}

fn several(random: &mut Random, asked: Asked, number: usize) -> Vec<u8> {
    (0..2 + random.below(3))
        .flat_map(|_| one_of(random, &SINGLE, asked, number))
        .collect()
}

/// The board begins again and comes as far as it was, with echoes before some of its frames.
fn among_restarts(random: &mut Random, asked: Asked, number: usize) -> Vec<u8> {
    let mut bytes = Vec::new();
    for again in 1..number {
        if random.below(3) == 0 {
            bytes.extend(one_of(random, &SINGLE, asked, again));
        }
        bytes.extend(from_board(random, asked, again));
    }
    bytes.extend(begins_again(random, asked, number));
    bytes
}

fn other_command(random: &mut Random, asked: Asked, number: usize) -> Vec<u8> {
    let command = asked.command ^ random.change();
    ours(random, command, number as u8)
}

/// An echo but for its sum: a right frame that begins inside it is found.
fn wrong_sum(random: &mut Random, asked: Asked, number: usize) -> Vec<u8> {
    let mut bytes = one_of(random, &SINGLE, asked, number);
    bytes[3] ^= random.change();
    bytes
}

/// The line broke off.
fn part_of_echo(random: &mut Random, asked: Asked, number: usize) -> Vec<u8> {
    let mut bytes = one_of(random, &SINGLE, asked, number);
    bytes.truncate(1 + random.below(FRAME - 1));
    bytes
}

fn beside(random: &mut Random, asked: Asked, number: usize, thing: Thing) -> Vec<u8> {
    let echo = one_of(random, &SINGLE, asked, number);
    let other = thing(random, asked, number);
    match random.below(2) {
        0 => [echo, other].concat(),
        _ => [other, echo].concat(),
    }
}

fn beside_other_command(random: &mut Random, asked: Asked, number: usize) -> Vec<u8> {
    beside(random, asked, number, other_command)
}

fn beside_wrong_sum(random: &mut Random, asked: Asked, number: usize) -> Vec<u8> {
    beside(random, asked, number, wrong_sum)
}

fn beside_part(random: &mut Random, asked: Asked, number: usize) -> Vec<u8> {
    beside(random, asked, number, part_of_echo)
}

/// Bytes that often begin an echo, or close a right sum.
fn anything(random: &mut Random, asked: Asked, _: usize) -> Vec<u8> {
    let mut bytes = Vec::new();
    for _ in 0..random.below(60) {
        match random.below(6) {
            0 => bytes.extend([START, HOST, asked.command]),
            1 => bytes.push(START),
            2..4 => {
                let from = bytes.len().saturating_sub(FRAME - 1);
                let sum = bytes[from..]
                    .iter()
                    .fold(0_u8, |sum, byte| sum.wrapping_add(*byte));
                bytes.push(sum);
            }
            _ => bytes.push(random.byte()),
        }
    }
    bytes
}

fn any_other(random: &mut Random, asked: Asked, number: usize) -> Vec<u8> {
    one_of(random, &streams::THINGS, asked, number)
}
