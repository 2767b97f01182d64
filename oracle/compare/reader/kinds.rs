//! Streams of every kind, each pushed whole, byte by byte and cut at random.

use super::model::MOST_WANTED;
use super::port::Way;
use super::sides::Sides;
use super::streams::{self, cut, Asked, Make};
use super::told::Discarded;
use super::OF;
use crate::frames;
use crate::random::Random;
use crate::trial::{Part, Trial};

/// Streams of one kind for every count of frames, and for the few that most replies have.
const LONG: u64 = 10;
const SHORT: u64 = 15_000;
/// Of one kind, at least.
const STREAMS: u64 = LONG * (MOST_WANTED as u64 + 1) + SHORT;

pub const PARTS: [Part; 13] = [
    kind("clean streams", |trial| of_kind(trial, streams::clean)),
    kind("noise between frames", |trial| {
        of_kind(trial, streams::noisy)
    }),
    kind("start bytes only, or between frames", |trial| {
        of_kind(trial, streams::all_starts)
    }),
    kind("frames begun inside frames that are thrown", |trial| {
        of_kind(trial, streams::inside_thrown)
    }),
    kind("echoes of our own request", |trial| {
        of_kind(trial, streams::echoes)
    }),
    kind("frames of other commands", |trial| {
        of_kind(trial, streams::other_commands)
    }),
    kind("frames with wrong numbers", |trial| {
        of_kind(trial, streams::other_numbers)
    }),
    kind("boards that begin again", |trial| {
        of_kind(trial, streams::restarts)
    }),
    kind("flipped, dropped and doubled", |trial| {
        of_kind(trial, streams::damaged)
    }),
    kind("drawn bytes, many of them A5", |trial| {
        of_kind(trial, streams::drawn)
    }),
    kind("mixtures", |trial| of_kind(trial, streams::mixed)),
    Part::new(
        OF,
        "one frame wanted, with any number",
        50 * 256 * 40,
        one_frame,
    )
    .of_streams(50 * 256),
    Part::new(
        OF,
        "begun again at every place of every reply",
        10 * EVERY_PLACE,
        every_restart,
    )
    .of_streams(EVERY_PLACE),
];

/// The replies of 2 to 85 frames have so many places before their last frame.
const EVERY_PLACE: u64 = 84 * 85 / 2;

/// Most such streams have four frames or so, and are pushed byte by byte once.
const fn kind(what: &'static str, run: fn(&mut Trial)) -> Part {
    Part::new(OF, what, 90 * STREAMS, run).of_streams(STREAMS)
}

fn of_kind(trial: &mut Trial, make: Make) {
    for wanted in (0..=MOST_WANTED).step_by(trial.stride()) {
        for _ in 0..trial.rounds(LONG) {
            compare(trial, wanted, make);
        }
    }
    for _ in 0..trial.rounds(SHORT) {
        let wanted = 1 + trial.random.below(6);
        compare(trial, wanted, make);
    }
}

fn one_frame(trial: &mut Trial) {
    for number in (0..=255).step_by(trial.stride()) {
        for _ in 0..trial.rounds(50) {
            let asked = Asked::drawn(&mut trial.random, 1);
            let frame = frames::frame(&mut trial.random, asked.command, &[number]);
            let noise = streams::noise(&mut trial.random, asked, 1);
            recut(trial, asked, &[noise, frame].concat());
        }
    }
}

fn compare(trial: &mut Trial, wanted: usize, make: Make) {
    let asked = Asked::drawn(&mut trial.random, wanted);
    let stream = make(&mut trial.random, asked);
    recut(trial, asked, &stream);
}

/// A stream in every cutting. Each is a reader of its own.
fn recut(trial: &mut Trial, asked: Asked, stream: &[u8]) {
    trial.streams += 1;
    let random_cut = cut(&mut trial.random, stream);
    for chunks in [vec![stream], stream.chunks(1).collect(), random_cut] {
        pushed(trial, asked, &chunks);
    }
}

/// Pushes all chunks, then more: to a complete reader, or to one that still waits.
pub fn pushed(trial: &mut Trial, asked: Asked, chunks: &[&[u8]]) -> Option<Sides> {
    let mut sides = Sides::new(trial, asked)?;
    let mut more = streams::right(&mut trial.random, asked, 1);
    more.extend(streams::onward(&mut trial.random, asked, 2));
    for chunk in chunks.iter().copied().chain([&[], &more[..5], &more]) {
        let way = way(&mut trial.random);
        if !sides.push(trial, way, chunk) {
            return None;
        }
    }
    Some(sides)
}

/// Any of the pushes, and any size of chunks.
pub fn way(random: &mut Random) -> Way {
    let size = chunk_size(random);
    Way::all(size)[random.below(5)]
}

pub fn chunk_size(random: &mut Random) -> usize {
    match random.below(8) {
        0 => usize::MAX - random.below(3),
        1 => 1 << random.below(64),
        2 => random.below(1500),
        _ => random.below(30),
    }
}

/// Frames 1 to k, then all: k frames are cleared and nothing is discarded.
fn every_restart(trial: &mut Trial) {
    for wanted in (2..=MOST_WANTED).step_by(trial.stride()) {
        for place in 1..wanted {
            trial.streams += 1;
            let asked = Asked::drawn(&mut trial.random, wanted);
            let begun = streams::run(&mut trial.random, asked, 1, place);
            let stream = [begun, streams::clean(&mut trial.random, asked)].concat();
            let chunks = cut(&mut trial.random, &stream);
            if let Some(sides) = pushed(trial, asked, &chunks) {
                let counts = sides.ours.counts;
                let found = [counts.taken, counts.cleared];
                trial.check(
                    (
                        wanted,
                        [stream.len(), place].map(|count| count as u32),
                        Discarded::NONE,
                    ),
                    (counts.collected, found, counts.discarded),
                    || format!("begun again after {place} of {wanted}"),
                );
            }
        }
    }
}

/// A stream of every sort of thing, for fewer than `most` frames. It counts as one.
pub fn mixture(trial: &mut Trial, most: usize) -> (Asked, Vec<u8>) {
    let wanted = trial.random.below(most);
    let asked = Asked::drawn(&mut trial.random, wanted);
    trial.streams += 1;
    (asked, streams::mixed(&mut trial.random, asked))
}
