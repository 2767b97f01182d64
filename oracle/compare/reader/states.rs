//! Readers given by hand, in good and in bad states.

use super::model::MOST_WANTED;
use super::streams::{self, Asked};
use super::told::{Counts, Discarded, Reader};
use crate::frames::{FRAME, LONGEST, START};
use crate::random::Random;
use crate::told::Flag;

/// A good state, and a stream that goes on from it.
pub fn begun(random: &mut Random) -> (Reader, Vec<u8>) {
    let wanted = match random.below(3) {
        0 => random.below(MOST_WANTED + 1),
        _ => random.below(6),
    };
    let collected = random.below(wanted + 1);
    begun_with(random, wanted, collected)
}

/// The same, with so many frames wanted and so many of them collected.
pub fn begun_with(random: &mut Random, wanted: usize, collected: usize) -> (Reader, Vec<u8>) {
    let asked = Asked::drawn(random, wanted);
    let mut stream = streams::onward(random, asked, collected + 1);
    if collected == wanted {
        stream = streams::mixed(random, asked);
    }
    holding(random, asked, collected, stream)
}

/// The same, for this stream. Its first bytes are often held already.
pub fn holding(
    random: &mut Random,
    asked: Asked,
    collected: usize,
    mut stream: Vec<u8>,
) -> (Reader, Vec<u8>) {
    let mut reader = drawn(random, asked);
    reader.counts.collected = collected;
    if collected < asked.wanted && random.below(4) > 0 {
        let before = stream.iter().take_while(|byte| **byte != START).count();
        stream.drain(..before);
        let held = random.below(FRAME);
        let place = FRAME * collected;
        reader.frames[place..place + held].copy_from_slice(&stream[..held]);
        reader.counts.held = held;
        stream.drain(..held);
    }
    (reader, stream)
}

/// Any counts that are no bad state, and any bytes in all places.
fn drawn(random: &mut Random, asked: Asked) -> Reader {
    let mut reader = Reader::ZERO;
    random.fill(&mut reader.frames);
    let mark = random.below(2) == 1;
    let taken = random.word();
    let all = match mark {
        true => random.word() >> random.below(32),
        false => random.below(513) as u32,
    };
    reader.counts = Counts {
        command: asked.command,
        mark: mark.into(),
        taken,
        discarded: split(random.aside(), all),
        cleared: random.word(),
        wanted: asked.wanted,
        ..Counts::ZERO
    };
    reader
}

/// Five counts that stand for this one: all in one of them, in smaller parts, or so large that their sum wraps.
pub fn split(mut random: Random, all: u32) -> Discarded {
    let mut counts = [0; 5];
    match random.below(4) {
        0 => {}
        1 => {
            let mut rest = all as usize;
            for count in &mut counts {
                let part = random.below(rest + 1);
                *count = part as u32;
                rest -= part;
            }
        }
        2 => counts.fill_with(|| random.word()),
        _ => counts.fill_with(|| u32::MAX - random.below(600) as u32),
    }
    let last = random.below(counts.len());
    counts[last] = 0;
    counts[last] = all.wrapping_sub(Discarded::of(counts).all());
    Discarded::of(counts)
}

/// A good state in which frames are still wanted, with bytes held.
pub fn waiting(random: &mut Random) -> (Reader, Vec<u8>) {
    loop {
        let wanted = 1 + random.below(MOST_WANTED);
        let collected = match random.below(3) {
            0 => wanted - 1,
            _ => random.below(wanted),
        };
        let begun = begun_with(random, wanted, collected);
        if begun.0.counts.held > 0 {
            return begun;
        }
    }
}

/// A count over `most`: the next, a small or a huge one, or one that is small modulo a power of two.
fn over(random: &mut Random, most: usize) -> usize {
    match random.below(5) {
        0 => most + 1,
        1 => most + 1 + random.below(300),
        2 => usize::MAX - random.below(30),
        3 => (1 << (8 + random.below(56))) + most,
        _ => (most + 1).max(random.next() as usize),
    }
}

/// Changes a waiting reader.
pub type Harm = fn(&mut Random, &mut Reader);

/// Each makes one of document 01's bad states, in its order, also of one that is bad already.
pub const HARMS: [Harm; 6] = [
    held_over_12,
    wanted_over_85,
    collected_over_wanted,
    complete_with_held,
    held_without_start,
    discarded_without_mark,
];

fn held_over_12(random: &mut Random, reader: &mut Reader) {
    reader.counts.held = over(random, FRAME - 1);
}

/// Every other time as many frames are collected as there is room for.
fn wanted_over_85(random: &mut Random, reader: &mut Reader) {
    reader.counts.wanted = over(random, MOST_WANTED);
    if random.below(2) == 0 {
        reader.counts.collected = MOST_WANTED;
    }
}

/// The multiples of this are the counts whose 13 times as many bytes wrap to a few.
const ONE_THIRTEENTH: usize = 0x4EC4_EC4E_C4EC_4EC5;

fn collected_over_wanted(random: &mut Random, reader: &mut Reader) {
    let counts = &mut reader.counts;
    counts.held = 0;
    counts.collected = match random.below(2) {
        0 => over(random, counts.wanted.min(MOST_WANTED)),
        _ => ONE_THIRTEENTH.wrapping_mul(1 + random.below(12)),
    };
    counts.wanted = counts.wanted.min(counts.collected - 1);
}

fn complete_with_held(random: &mut Random, reader: &mut Reader) {
    reader.counts.collected = reader.counts.wanted;
    reader.counts.held = 1 + random.below(FRAME - 1);
    put_first_held(reader, START);
}

fn held_without_start(random: &mut Random, reader: &mut Reader) {
    reader.counts.held = 1 + random.below(FRAME - 1);
    put_first_held(reader, START ^ random.change());
}

fn put_first_held(reader: &mut Reader, byte: u8) {
    let place = reader.counts.collected.saturating_mul(FRAME);
    if place < LONGEST {
        reader.frames[place] = byte;
    }
}

fn discarded_without_mark(random: &mut Random, reader: &mut Reader) {
    reader.counts.mark = Flag(0);
    let all = match random.below(3) {
        0 => 513,
        1 => u32::MAX - random.below(600) as u32,
        _ => random.word().max(513),
    };
    reader.counts.discarded = split(random.aside(), all);
}

/// Makes one kind of bad state.
pub fn harm(random: &mut Random, reader: &mut Reader) {
    HARMS[random.below(HARMS.len())](random, reader);
}

/// As near to a bad state as a good one can be.
pub const NEIGHBOURS: [Harm; 7] = [
    |_, reader| reader.counts.held = FRAME - 1,
    |_, reader| reader.counts.wanted = MOST_WANTED,
    |_, reader| {
        reader.counts.collected = reader.counts.wanted;
        reader.counts.held = 0;
    },
    |_, reader| {
        reader.counts.wanted = reader.counts.collected;
        reader.counts.held = 0;
    },
    |_, reader| reader.counts.held = 1,
    |random, reader| {
        reader.counts.mark = Flag(0);
        reader.counts.discarded = split(random.aside(), 512);
    },
    |random, reader| {
        reader.counts.mark = Flag(1);
        reader.counts.discarded = split(random.aside(), 513);
    },
];
