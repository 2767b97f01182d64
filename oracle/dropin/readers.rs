//! The reader, on streams of every kind, cut at random, to their end or not.

use crate::discards;
use crate::question::Question;
use crate::random::Random;
use crate::streams::{self, Asked, Make};
use crate::trial::{Part, Trial};

pub const PARTS: &[Part] = &[
    Part {
        name: "FrameReader, streams of every kind for 0 to 85 frames, cut at random",
        minimum: 11_000,
        ask: kinds,
    },
    Part {
        name: "FrameReader, streams that end before the reply does",
        minimum: 7_000,
        ask: unfinished,
    },
    Part {
        name: "FrameReader, 511 to 514 discarded bytes by each rule, and pushed on",
        minimum: 2_000,
        ask: over,
    },
    Part {
        name: "FrameReader, every reply size",
        minimum: 1_106,
        ask: sizes,
    },
];

pub const KINDS: [Make; 11] = [
    streams::clean,
    streams::noisy,
    streams::all_starts,
    streams::inside_thrown,
    streams::echoes,
    streams::other_commands,
    streams::other_numbers,
    streams::restarts,
    streams::damaged,
    streams::drawn,
    streams::mixed,
];

/// Cut at random, or not at all; the stream's last chunk is followed by an empty one.
pub fn cutting(random: &mut Random, stream: &[u8]) -> Vec<usize> {
    if random.below(8) == 0 {
        return vec![stream.len(), 0];
    }
    let chunks = streams::cut(random, stream).into_iter();
    chunks.map(<[u8]>::len).chain([0]).collect()
}

/// The stream, cut so often anew.
pub fn read(trial: &mut Trial, asked: Asked, stream: Vec<u8>, cuttings: usize) {
    let random = &mut trial.random;
    let request = asked.request(random);
    let cuttings = (0..cuttings).map(|_| cutting(random, &stream)).collect();
    trial.ask(Question::Read {
        request,
        size: asked.size,
        stream,
        cuttings,
    });
}

fn kinds(trial: &mut Trial) {
    for wanted in 0..=85 {
        for make in KINDS {
            for _ in 0..trial.rounds(12) {
                let asked = Asked::drawn(&mut trial.random, wanted);
                let stream = make(&mut trial.random, asked);
                read(trial, asked, stream, 1);
            }
        }
    }
}

fn unfinished(trial: &mut Trial) {
    for wanted in 1..=85 {
        for make in KINDS {
            for _ in 0..trial.rounds(8) {
                let asked = Asked::drawn(&mut trial.random, wanted);
                let mut stream = make(&mut trial.random, asked);
                stream.truncate(trial.random.below(stream.len() + 1));
                read(trial, asked, stream, 1);
            }
        }
    }
}

fn over(trial: &mut Trial) {
    for rule in 0..discards::RULES.len() {
        for count in 511..=514 {
            for _ in 0..trial.rounds(100) {
                read_over(trial, rule, count);
            }
        }
    }
}

/// So many bytes discarded by one rule, and pushed on.
pub fn read_over(trial: &mut Trial, rule: usize, count: usize) {
    let random = &mut trial.random;
    let asked = discards::asked_for(random, rule);
    let last = random.below(asked.wanted + 1);
    let first = discards::discarding(random, asked, rule, count, last);
    let onward = streams::onward(random, asked, last + 1);
    read(trial, asked, [first, onward].concat(), 1);
}

fn sizes(trial: &mut Trial) {
    for size in (0..=1_105_usize).step_by(trial.stride()) {
        let wanted = size.div_ceil(13);
        let asked = Asked {
            size,
            ..Asked::drawn(&mut trial.random, wanted)
        };
        let stream = streams::mixed(&mut trial.random, asked);
        read(trial, asked, stream, 1);
    }
}
