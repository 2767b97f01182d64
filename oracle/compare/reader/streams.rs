//! What a line could deliver to a reader, right and wrong.

use crate::frames::{self, DATA, FRAME, HOST, START};
use crate::original;
use crate::random::Random;

/// What a reader is made for.
#[derive(Clone, Copy)]
pub struct Asked {
    pub command: u8,
    pub size: usize,
    /// Frames that such a reply has.
    pub wanted: usize,
}

impl Asked {
    /// A reply of so many frames. Its size often is no multiple of 13, and its command now and then
    /// the start byte.
    pub fn drawn(random: &mut Random, wanted: usize) -> Self {
        let fewer = random.below(2) * random.below(FRAME);
        let command = match random.below(16) {
            0 => START,
            _ => frames::command(random),
        };
        Self {
            command,
            size: (FRAME * wanted).saturating_sub(fewer),
            wanted,
        }
    }

    /// The protocol's request where there is one, or bytes of which only the third counts.
    pub fn request(&self, random: &mut Random) -> Vec<u8> {
        if random.below(2) == 0 && original::has_request(self.command) {
            return original::request(self.command, false, 0.0, 0)[1..].to_vec();
        }
        let length = 3 + random.below(18);
        let mut request = random.bytes(length);
        request[2] = self.command;
        request
    }
}

/// Makes a stream.
pub type Make = fn(&mut Random, Asked) -> Vec<u8>;

/// Makes what stands before the frame with this number.
pub type Thing = fn(&mut Random, Asked, usize) -> Vec<u8>;

pub const THINGS: [Thing; 11] = [
    noise,
    starts,
    swallowing,
    full_of_starts,
    echo,
    other_command,
    other_number,
    repeated,
    wrong_sum,
    part_of_frame,
    anything,
];

/// The right frame with this number; where one frame is wanted, any number is right.
pub fn right(random: &mut Random, asked: Asked, number: usize) -> Vec<u8> {
    let number = match asked.wanted {
        1 => random.byte(),
        _ => number as u8,
    };
    frames::frame(random, asked.command, &[number])
}

/// A run of right frames.
pub fn run(random: &mut Random, asked: Asked, first: usize, last: usize) -> Vec<u8> {
    (first..=last)
        .flat_map(|number| right(random, asked, number))
        .collect()
}

/// Bytes that begin no frame.
pub fn noise(random: &mut Random, _: Asked, _: usize) -> Vec<u8> {
    let length = 1 + random.below(20);
    let bytes = random.bytes(length).into_iter();
    bytes
        .map(|byte| if byte == START { 0 } else { byte })
        .collect()
}

pub fn starts(random: &mut Random, _: Asked, _: usize) -> Vec<u8> {
    vec![START; 1 + random.below(30)]
}

/// A number that is neither 1 nor this one.
fn wrong_number(random: &mut Random, asked: Asked, right: usize) -> u8 {
    let drawn = random.byte();
    let choice = [0, right + 1, right - 1, asked.wanted + 1, 255, drawn.into()];
    match choice[random.below(choice.len())] as u8 {
        1 => 0,
        number if usize::from(number) == right => 0,
        number => number,
    }
}

pub fn other_command(random: &mut Random, asked: Asked, number: usize) -> Vec<u8> {
    let command = asked.command ^ random.change();
    frames::frame(random, command, &[number as u8])
}

/// Where one frame is wanted, it is a right one.
pub fn other_number(random: &mut Random, asked: Asked, number: usize) -> Vec<u8> {
    let number = wrong_number(random, asked, number);
    frames::frame(random, asked.command, &[number])
}

/// A frame that is thrown whole, and with it the beginning of a right one inside it. Byte 1 makes
/// its sum right.
fn swallowing(random: &mut Random, asked: Asked, number: usize) -> Vec<u8> {
    let throw = [other_command, other_number][random.below(2)];
    let mut bytes = throw(random, asked, number);
    bytes.truncate(DATA + 1 + random.below(FRAME - DATA - 1));
    bytes.extend(right(random, asked, number));
    let lacking = bytes[FRAME - 1].wrapping_sub(frames::sum(&bytes[..FRAME]));
    bytes[1] = bytes[1].wrapping_add(lacking);
    bytes
}

/// A frame that is thrown whole, with start bytes wherever they can be.
fn full_of_starts(random: &mut Random, asked: Asked, number: usize) -> Vec<u8> {
    let throw = [other_command, other_number][random.below(2)];
    let mut bytes = throw(random, asked, number);
    for place in [1, 3].into_iter().chain(DATA + 1..FRAME - 1) {
        if random.below(4) > 0 {
            bytes[place] = START;
        }
    }
    frames::put_sum(&mut bytes);
    bytes
}

/// Our own request come back: address 40, the right command and sum, no data.
pub fn echo(_: &mut Random, asked: Asked, _: usize) -> Vec<u8> {
    let mut bytes = vec![0; FRAME];
    bytes[..DATA].copy_from_slice(&[START, HOST, asked.command, 0x08]);
    frames::put_sum(&mut bytes);
    bytes
}

/// The board begins again, and comes as far as it was.
fn repeated(random: &mut Random, asked: Asked, number: usize) -> Vec<u8> {
    run(random, asked, 1, number - 1)
}

pub fn wrong_sum(random: &mut Random, asked: Asked, number: usize) -> Vec<u8> {
    let mut bytes = right(random, asked, number);
    bytes[FRAME - 1] ^= random.change();
    bytes
}

pub fn part_of_frame(random: &mut Random, asked: Asked, number: usize) -> Vec<u8> {
    let mut bytes = right(random, asked, number);
    bytes.truncate(random.below(FRAME));
    bytes
}

/// Bytes that often begin a frame, have the command, or close a right sum.
fn anything(random: &mut Random, asked: Asked, _: usize) -> Vec<u8> {
    let mut bytes = Vec::new();
    for _ in 0..random.below(60) {
        let byte = match random.below(8) {
            0..3 => START,
            3 => asked.command,
            4 => 1,
            5 => {
                let from = bytes.len().saturating_sub(FRAME - 1);
                bytes[from..]
                    .iter()
                    .fold(0_u8, |sum, byte| sum.wrapping_add(*byte))
            }
            _ => random.byte(),
        };
        bytes.push(byte);
    }
    bytes
}

/// The right frames, with such a thing before some of them, about two in a stream, and after the
/// last now and then.
fn with(
    random: &mut Random,
    asked: Asked,
    thing: impl Fn(&mut Random, usize) -> Vec<u8>,
) -> Vec<u8> {
    let mut stream = Vec::new();
    for number in 1..=asked.wanted {
        while random.below(asked.wanted + 3) < 2 {
            stream.extend(thing(random, number));
        }
        stream.extend(right(random, asked, number));
    }
    if random.below(3) == 0 {
        stream.extend(thing(random, asked.wanted.max(1)));
    }
    stream
}

/// With things of this kind only.
fn with_these(random: &mut Random, asked: Asked, things: &[Thing]) -> Vec<u8> {
    with(random, asked, |random, number| {
        things[random.below(things.len())](random, asked, number)
    })
}

pub fn clean(random: &mut Random, asked: Asked) -> Vec<u8> {
    run(random, asked, 1, asked.wanted)
}

pub fn noisy(random: &mut Random, asked: Asked) -> Vec<u8> {
    with_these(random, asked, &[noise])
}

/// Start bytes only, or before and between the right frames.
pub fn all_starts(random: &mut Random, asked: Asked) -> Vec<u8> {
    match random.below(3) {
        0 => vec![START; random.below(FRAME * asked.wanted + 40)],
        1 => [starts(random, asked, 1), clean(random, asked)].concat(),
        _ => with_these(random, asked, &[starts]),
    }
}

pub fn inside_thrown(random: &mut Random, asked: Asked) -> Vec<u8> {
    with_these(random, asked, &[swallowing, full_of_starts])
}

pub fn echoes(random: &mut Random, asked: Asked) -> Vec<u8> {
    with_these(random, asked, &[echo])
}

pub fn other_commands(random: &mut Random, asked: Asked) -> Vec<u8> {
    with_these(random, asked, &[other_command])
}

pub fn other_numbers(random: &mut Random, asked: Asked) -> Vec<u8> {
    with_these(random, asked, &[other_number])
}

pub fn restarts(random: &mut Random, asked: Asked) -> Vec<u8> {
    with_these(random, asked, &[repeated])
}

/// A reply and its repetition, with bits flipped, bytes dropped and bytes doubled.
pub fn damaged(random: &mut Random, asked: Asked) -> Vec<u8> {
    let mut stream = [clean(random, asked), clean(random, asked)].concat();
    for _ in 0..(1 + random.below(4)).min(stream.len()) {
        let place = random.below(stream.len());
        match random.below(3) {
            0 => stream[place] ^= 1 << random.below(8),
            1 => drop(stream.remove(place)),
            _ => stream.insert(place, stream[place]),
        }
    }
    stream
}

pub fn drawn(random: &mut Random, asked: Asked) -> Vec<u8> {
    let mut stream = Vec::new();
    while stream.len() < FRAME * asked.wanted {
        stream.extend(anything(random, asked, 1));
    }
    stream
}

pub fn mixed(random: &mut Random, asked: Asked) -> Vec<u8> {
    with_these(random, asked, &THINGS)
}

/// The right frames from this number on, with anything between.
pub fn onward(random: &mut Random, asked: Asked, first: usize) -> Vec<u8> {
    let mut stream = Vec::new();
    for number in first..=asked.wanted.min(first + 8) {
        while random.below(3) == 0 {
            stream.extend(THINGS[random.below(THINGS.len())](random, asked, number));
        }
        stream.extend(right(random, asked, number));
    }
    stream
}

/// Cut at random, finely or coarsely, with empty chunks among the others.
pub fn cut<'a>(random: &mut Random, stream: &'a [u8]) -> Vec<&'a [u8]> {
    let longest = [1, 2, 5, 12, 13, 14, 40, 300][random.below(8)];
    let mut chunks = Vec::new();
    let mut rest = stream;
    while !rest.is_empty() {
        let length = random.below(longest + 1).min(rest.len());
        let (chunk, behind) = rest.split_at(length);
        chunks.push(chunk);
        rest = behind;
    }
    chunks
}
