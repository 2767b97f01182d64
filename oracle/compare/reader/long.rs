//! Streams of more than 2^32 bytes, and a single chunk as long. Not among the parts: they take a
//! minute. The counts are worked out by hand.

use super::numbers::{FRAMES, ONE_FRAME, SOC};
use super::opened;
use super::port::Way;
use super::sides::{difference, Sides};
use super::streams::Asked;
use super::told::*;
use super::OF;
use crate::told::Flag;
use crate::trial::{Part, Trial};

pub const PARTS: [Part; 4] = [
    Part::new(
        OF,
        "more than 2^32 zeros in chunks of 4 MiB, then the frame",
        1_029,
        zeros,
    )
    .of_streams(1),
    Part::new(
        OF,
        "more than 2^32 bytes of frames 1 and 2 of 3, then frame 3",
        3_304_004,
        begun_again,
    )
    .of_streams(1),
    Part::new(
        OF,
        "one chunk of more than 2^32 bytes that ends with the frame (not to the Rust)",
        6,
        one_chunk,
    )
    .of_streams(1),
    Part::new(
        OF,
        "more than 2^32 bytes thrown for all five reasons, strict, then the frames",
        3_303_825,
        five,
    )
    .of_streams(1),
];

/// Bytes that stood before a start byte, and no others.
const fn noise(count: u32) -> Discarded {
    Discarded::of([count, 0, 0, 0, 0])
}

/// The port's last status and its counts are the known ones.
fn check(trial: &mut Trial, sides: &Sides, status: u8, counts: Counts) {
    trial.check(
        (status, counts),
        (sides.said.status, sides.ours.counts),
        || sides.ours.shown(),
    );
}

/// 1,025 x 4,194,304 = 4,299,161,600 zeros are 2^32 + 4,194,304, and the frame is 13 bytes more.
/// After 1,024 chunks both counts of bytes are 0 again, and the mark stays.
fn zeros(trial: &mut Trial) {
    let chunk = vec![0; 4_194_304];
    trial.streams += 1;
    let Some(mut sides) = Sides::new(trial, ONE_FRAME) else {
        return;
    };
    let known = Counts {
        command: 0x90,
        mark: Flag(1),
        wanted: 1,
        ..Counts::ZERO
    };
    for _ in 0..1_024 {
        if !sides.push(trial, Way::Into, &chunk) {
            return;
        }
    }
    check(trial, &sides, 2, known);
    if sides.push(trial, Way::Into, &chunk) && sides.push(trial, Way::Into, &SOC) {
        let complete = Counts {
            taken: 4_194_317,
            discarded: noise(4_194_304),
            collected: 1,
            ..known
        };
        check(trial, &sides, 2, complete);
    }
}

/// A healthy board that repeats itself. Frames 1 and 2 come 165,200,000 times: 4,295,200,000 bytes,
/// which are 2^32 + 232,704, and then 13 more. Each time but the first clears 2 frames. Nothing is
/// discarded. Every chunk but the first and the last begins 7 bytes into frame 1.
fn begun_again(trial: &mut Trial) {
    let [one, two, three] = FRAMES;
    let pairs = [one, two].concat().repeat(51);
    trial.streams += 1;
    let asked = Asked {
        command: 0x95,
        size: 39,
        wanted: 3,
    };
    let Some(mut sides) = Sides::new(trial, asked) else {
        return;
    };
    let first = [&pairs[..7]].into_iter();
    let middle = (1..3_304_000).map(|_| &pairs[7..1_307]);
    let last = [&pairs[7..1_300], &three];
    for chunk in first.chain(middle).chain(last) {
        if !sides.push(trial, Way::Into, chunk) {
            return;
        }
    }
    let complete = Counts {
        command: 0x95,
        taken: 232_717,
        cleared: 330_399_998,
        wanted: 3,
        collected: 3,
        ..Counts::ZERO
    };
    check(trial, &sides, 0, complete);
}

/// 4.1 GiB: 2^32 + 107,374,182 bytes, of which the last 13 are the frame.
const LENGTH: usize = 4_402_341_478;
const COMPLETE: Counts = Counts {
    command: 0x90,
    mark: Flag(1),
    strict: Flag(0),
    taken: 107_374_182,
    discarded: noise(107_374_169),
    cleared: 0,
    wanted: 1,
    collected: 1,
    held: 0,
};

/// So many zeros that the count wraps to a small one: the mark is set all the same.
const JUST_OVER: usize = (1 << 32) + 100;
const WRAPPED: Counts = Counts {
    taken: 100,
    discarded: noise(100),
    collected: 0,
    ..COMPLETE
};

/// The Rust would copy the chunk, so it is left out.
fn one_chunk(trial: &mut Trial) {
    let mut chunk = vec![0; LENGTH];
    chunk[LENGTH - 13..].copy_from_slice(&SOC);
    trial.streams += 1;
    let request = [0xA5, 0x40, 0x90];
    let Some(new) = opened::compare(trial, &request, 13, false) else {
        return;
    };
    for way in [Way::ByValue, Way::InChunks((1 << 32) + 1)] {
        let after = trial.port.push(way, &new, &chunk);
        check_after(trial, &after, LENGTH, COMPLETE, &SOC);
    }
    let after = trial.port.push(Way::Into, &new, &chunk[..JUST_OVER]);
    check_after(trial, &after, JUST_OVER, WRAPPED, &[]);
    let (all_but_one, last) = chunk.split_at(LENGTH - 1);
    let waiting = Counts {
        taken: 107_374_181,
        collected: 0,
        held: 12,
        ..COMPLETE
    };
    let after = trial.port.push(Way::Into, &new, all_but_one);
    check_after(trial, &after, LENGTH - 1, waiting, &SOC[..12]);
    let after = trial.port.push(Way::Into, &after.reader, last);
    check_after(trial, &after, 1, COMPLETE, &SOC);
}

fn check_after(trial: &mut Trial, after: &After, took: usize, counts: Counts, used: &[u8]) {
    let said = Said { status: 2, took };
    trial.check(
        (said, counts, None, None),
        (
            after.said,
            after.reader.counts,
            difference(used, after.reader.used()),
            difference(&FENCE, &after.fence),
        ),
        || format!("{took} bytes to be taken"),
    );
}

/// A right frame of 96, and our own question for 95, each without data.
const OTHER: [u8; 13] = [0xA5, 0x01, 0x96, 0x08, 0, 0, 0, 0, 0, 0, 0, 0, 0x44];
const ECHO: [u8; 13] = [0xA5, 0x40, 0x95, 0x08, 0, 0, 0, 0, 0, 0, 0, 0, 0x82];

const FIVE: Counts = Counts {
    command: 0x95,
    mark: Flag(1),
    strict: Flag(1),
    taken: 171_800_074,
    discarded: Discarded {
        noise: 39_645_864,
        sum: 3_303_822,
        command: 1_304,
        number: 42_949_686,
        echo: 85_899_372,
    },
    cleared: 0,
    wanted: 2,
    collected: 2,
    held: 0,
};

/// 100 frames of another command, a frame numbered 3, our question twice, and a start byte with a wrong sum before 12
/// zeros: 1,352 bytes, 3,303,822 times. Those of another command are 2^32 + 1,304, and all together 2^32 + 171,800,048. For
/// the Rust the questions are exchanged.
fn five(trial: &mut Trial) {
    let [one, two, three] = FRAMES;
    let mut wrong_sum = [0; 13];
    wrong_sum[0] = 0xA5;
    let with = |twice: [u8; 13]| [&[OTHER; 100][..], &[three, twice, twice, wrong_sum]].concat();
    let [chunk, exchanged] = [ECHO, OTHER].map(|twice| with(twice).concat());
    trial.streams += 1;
    let asked = Asked {
        command: 0x95,
        size: 26,
        wanted: 2,
    };
    let Some(mut sides) = Sides::opened(trial, asked, true) else {
        return;
    };
    for _ in 0..3_303_822 {
        if !sides.push_beside(trial, Way::Into, &chunk, &exchanged) {
            return;
        }
    }
    if sides.push(trial, Way::Into, &[one, two].concat()) {
        check(trial, &sides, 2, FIVE);
    }
}
