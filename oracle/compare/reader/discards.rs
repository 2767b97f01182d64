//! Bytes that a reader discards, so many of them, by each of document 01's rules.

use super::streams::{self, Asked};
use crate::frames::{self, FRAME, START};
use crate::random::Random;

/// Bytes of which so many are discarded before the next right frame.
pub type Rule = fn(&mut Random, Asked, usize) -> Vec<u8>;

/// One frame that is discarded.
pub type Throw = fn(&mut Random, Asked, usize) -> Vec<u8>;

/// In document 01's order the four rules that discard, then all of them.
pub const RULES: [Rule; 5] = [
    before_start,
    wrong_sums,
    other_commands,
    other_numbers,
    by_all,
];
/// Its bytes are judged once a right frame follows.
pub const WRONG_SUMS: usize = 1;
/// It is a rule where more than one frame is wanted.
pub const OTHER_NUMBERS: usize = 3;

pub fn before_start(random: &mut Random, _: Asked, count: usize) -> Vec<u8> {
    let bytes = random.bytes(count).into_iter();
    bytes
        .map(|byte| if byte == START { 0 } else { byte })
        .collect()
}

/// Each start byte is discarded by itself, as long as no sum is right by accident.
fn wrong_sums(_: &mut Random, _: Asked, count: usize) -> Vec<u8> {
    vec![START; count]
}

/// Noise, then one thrown frame or more.
pub fn thrown(random: &mut Random, asked: Asked, count: usize, throw: Throw) -> Vec<u8> {
    let frames = 1 + random.below(count / FRAME);
    let mut bytes = before_start(random, asked, count - FRAME * frames);
    for _ in 0..frames {
        bytes.extend(throw(random, asked, 1));
    }
    bytes
}

fn other_commands(random: &mut Random, asked: Asked, count: usize) -> Vec<u8> {
    thrown(random, asked, count, streams::other_command)
}

fn other_numbers(random: &mut Random, asked: Asked, count: usize) -> Vec<u8> {
    thrown(random, asked, count, streams::other_number)
}

/// One byte goes by the sum, the others since they stand before the next start byte.
pub fn wrong_sum(random: &mut Random, asked: Asked, _: usize) -> Vec<u8> {
    let mut bytes = before_start(random, asked, FRAME);
    bytes[0] = START;
    let sum = frames::sum(&bytes);
    if bytes[FRAME - 1] == sum {
        bytes[FRAME - 1] = if sum == 0 { 1 } else { 0 };
    }
    bytes
}

fn by_all(random: &mut Random, asked: Asked, count: usize) -> Vec<u8> {
    let throws: [Throw; 3] = [wrong_sum, streams::other_command, streams::other_number];
    let some = if asked.wanted > 1 { 3 } else { 2 };
    let mut bytes = Vec::new();
    while bytes.len() < count {
        let rest = count - bytes.len();
        if rest < FRAME || random.below(4) == 0 {
            let length = 1 + random.below(rest.min(20));
            bytes.extend(before_start(random, asked, length));
        } else {
            bytes.extend(throws[random.below(some)](random, asked, 1));
        }
    }
    bytes
}

/// So many frames wanted that the rule applies, also where one is still missing.
pub fn asked_for(random: &mut Random, rule: usize) -> Asked {
    let fewest = match rule {
        WRONG_SUMS | OTHER_NUMBERS => 2,
        _ => 1,
    };
    let wanted = fewest + random.below(3);
    Asked::drawn(random, wanted)
}

/// Bytes discarded by the rule, then the right frames up to this number.
pub fn discarding(
    random: &mut Random,
    asked: Asked,
    rule: usize,
    count: usize,
    last: usize,
) -> Vec<u8> {
    loop {
        let bytes = RULES[rule](random, asked, count);
        let stream = [bytes, streams::run(random, asked, 1, last)].concat();
        if rule != WRONG_SUMS || have_wrong_sums(&stream, count) {
            return stream;
        }
    }
}

/// Whether no frame with a right sum begins at one of the first so many bytes.
pub fn have_wrong_sums(stream: &[u8], count: usize) -> bool {
    let mut judged = stream.windows(FRAME).take(count);
    judged.all(|frame| !frames::has_right_sum(frame))
}
