//! Replies, right and damaged, for every part that needs some.

use crate::random::Random;

pub const FRAME: usize = 13;
pub const START: u8 = 0xA5;
/// The address that our own requests carry.
pub const HOST: u8 = 0x40;
/// The longest reply: 85 frames.
pub const LONGEST: usize = 1105;
/// Where the data of a frame begins; a numbered frame has its number there.
pub const DATA: usize = 4;

/// A case as it is printed.
pub fn shown(reply: &[u8], command: u8) -> String {
    format!("command {command:02X} reply {reply:02X?}")
}

/// One of the thirteen commands of the protocol or, less often, any byte.
pub fn command(random: &mut Random) -> u8 {
    match random.below(21) {
        which @ 0..9 => 0x90 + which as u8,
        9 => 0x00,
        10 => 0x21,
        11 => 0xD9,
        12 => 0xDA,
        _ => random.byte(),
    }
}

/// The lengths from `first` to 40, and the longest.
pub fn lengths(first: usize) -> impl Iterator<Item = usize> {
    (first..=40).chain([LONGEST])
}

/// All bytes but the last, added modulo 256. Not the Rust's function, so that both sides can be
/// held to it.
pub fn sum(buffer: &[u8]) -> u8 {
    let body = &buffer[..buffer.len().saturating_sub(1)];
    body.iter().fold(0, |sum, byte| sum.wrapping_add(*byte))
}

/// Whether the last byte fits the whole buffer.
pub fn has_right_sum(buffer: &[u8]) -> bool {
    buffer.last() == Some(&sum(buffer))
}

/// Makes the last byte fit the whole buffer.
pub fn put_sum(buffer: &mut [u8]) {
    let right = sum(buffer);
    if let Some(last) = buffer.last_mut() {
        *last = right;
    }
}

/// A reply of this length that is right as far as it goes, with drawn bytes in all other places.
pub fn reply(random: &mut Random, command: u8, length: usize) -> Vec<u8> {
    let mut buffer = random.bytes(length);
    for (place, byte) in [(0, START), (2, command)] {
        if place < length {
            buffer[place] = byte;
        }
    }
    put_sum(&mut buffer);
    buffer
}

/// A right frame with this data in front of drawn bytes.
pub fn frame(random: &mut Random, command: u8, data: &[u8]) -> Vec<u8> {
    let mut frame = reply(random, command, FRAME);
    frame[DATA..DATA + data.len()].copy_from_slice(data);
    put_sum(&mut frame);
    frame
}

/// Right frames, numbered from 1, with drawn values.
pub fn numbered(random: &mut Random, command: u8, frames: usize) -> Vec<u8> {
    (1..=frames)
        .flat_map(|number| frame(random, command, &[number as u8]))
        .collect()
}

/// What a bad line could deliver: a right reply, a damaged, cut or prolonged one, or mere bytes.
pub fn any_reply(random: &mut Random, command: u8) -> Vec<u8> {
    let length = match random.below(42) {
        41 => LONGEST,
        length => length,
    };
    let mut buffer = reply(random, command, length);
    match random.below(6) {
        0 => random.fill(&mut buffer),
        1 => buffer.truncate(random.below(length + 1)),
        2 => buffer.push(random.byte()),
        3 if length > 0 => buffer[random.below(length)] ^= random.change(),
        4 if length > 3 => {
            buffer[random.below(3)] ^= random.change();
            put_sum(&mut buffer);
        }
        _ => {}
    }
    buffer
}
