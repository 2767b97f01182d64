//! The reader. Replies of every number of frames from 0 to 85, of few frames more often; one stream in four
//! ends anywhere.

use super::Drawn;
use crate::discards;
use crate::random::Random;
use crate::readers::{read, read_over, KINDS};
use crate::streams::{self, Asked, Make};
use crate::trial::Trial;

pub const PARTS: &[Drawn] = &[
    Drawn {
        name: "drawn: FrameReader, right frames, begun again, our question come back",
        share: 10,
        one: right,
    },
    Drawn {
        name: "drawn: FrameReader, noise, zeros, start bytes, drawn bytes",
        share: 10,
        one: noise,
    },
    Drawn {
        name: "drawn: FrameReader, damaged, of other commands, wrongly numbered, mixed",
        share: 10,
        one: damaged,
    },
    Drawn {
        name: "drawn: FrameReader, any stream cut in three ways",
        share: 10,
        one: recut,
    },
    Drawn {
        name: "drawn: FrameReader, pushed on after the reply",
        share: 10,
        one: pushed_on,
    },
    Drawn {
        name: "drawn: FrameReader, 511 to 514 discarded bytes",
        share: 10,
        one: over,
    },
];

fn asked(random: &mut Random) -> Asked {
    let numbers = [86, 6][random.below(2)];
    let wanted = random.below(numbers);
    Asked::drawn(random, wanted)
}

/// Enough of them, now and then, to pass 512.
fn zeros(random: &mut Random, asked: Asked) -> Vec<u8> {
    let most = [40, 600][random.below(2)];
    let before = vec![0; random.below(most)];
    [before, streams::clean(random, asked)].concat()
}

/// Stretches of zeros about as long as the port passes over at once, or a multiple of it.
fn quiet(random: &mut Random, asked: Asked) -> Vec<u8> {
    let mut stream = Vec::new();
    for number in 1..=asked.wanted {
        if random.below(asked.wanted) < 3 {
            let length = 32 * (1 + random.below(3)) + random.below(3) - 1;
            stream.resize(stream.len() + length, 0);
        }
        stream.extend(streams::right(random, asked, number));
    }
    stream
}

fn of_kinds(trial: &mut Trial, kinds: &[Make], cuttings: usize) {
    let random = &mut trial.random;
    let asked = asked(random);
    let mut stream = kinds[random.below(kinds.len())](random, asked);
    if random.below(4) == 0 {
        stream.truncate(random.below(stream.len() + 1));
    }
    read(trial, asked, stream, cuttings);
}

fn right(trial: &mut Trial) {
    let kinds: [Make; 3] = [streams::clean, streams::restarts, streams::echoes];
    of_kinds(trial, &kinds, 1);
}

fn noise(trial: &mut Trial) {
    let kinds: [Make; 5] = [
        streams::noisy,
        zeros,
        quiet,
        streams::all_starts,
        streams::drawn,
    ];
    of_kinds(trial, &kinds, 1);
}

fn damaged(trial: &mut Trial) {
    let kinds: [Make; 5] = [
        streams::damaged,
        streams::inside_thrown,
        streams::other_commands,
        streams::other_numbers,
        streams::mixed,
    ];
    of_kinds(trial, &kinds, 1);
}

fn recut(trial: &mut Trial) {
    of_kinds(trial, &KINDS, 3);
}

/// Behind a stream that most often completes the reader comes another one.
fn pushed_on(trial: &mut Trial) {
    let random = &mut trial.random;
    let asked = asked(random);
    let first = KINDS[random.below(KINDS.len())](random, asked);
    let behind = KINDS[random.below(KINDS.len())](random, asked);
    read(trial, asked, [first, behind].concat(), 1);
}

fn over(trial: &mut Trial) {
    let rule = trial.random.below(discards::RULES.len());
    let count = 511 + trial.random.below(4);
    read_over(trial, rule, count);
}
