//! Counts given by hand that wrap: the mark does not.

use super::discards::before_start;
use super::kinds::way;
use super::model::MOST_WANTED;
use super::sides::Sides;
use super::states;
use super::streams::{self, cut, Asked};
use super::told::{Counts, Discarded, Reader};
use super::OF;
use crate::frames::FRAME;
use crate::random::Random;
use crate::told::Flag;
use crate::trial::{Part, Trial};

pub const PARTS: [Part; 2] = [
    Part::new(OF, "counts given by hand that wrap", 600_000, soon).of_streams(60_000),
    Part::new(
        OF,
        "counts given by hand that wrap to 0, 1, 512 and 513",
        4 * 2_000 * 2,
        to_numbers,
    )
    .of_streams(4 * 2_000),
];

/// A count that soon wraps.
fn near_the_end(random: &mut Random, within: usize) -> u32 {
    u32::MAX - random.below(within) as u32
}

/// Each of the five counts soon wraps.
fn five_near_the_end(random: &mut Random) -> Discarded {
    let noise = near_the_end(random, 60);
    let mut others = random.aside();
    let mut next = || near_the_end(&mut others, 60);
    Discarded::of([noise, next(), next(), next(), next()])
}

/// Every other round the discarded bytes are few and not marked, and only the other counts wrap, or their sum has.
pub fn wrap_soon(random: &mut Random, counts: &mut Counts, round: u64) {
    counts.taken = near_the_end(random, 60);
    counts.cleared = near_the_end(random, 3);
    (counts.mark, counts.discarded) = match round % 2 {
        0 => (Flag(1), five_near_the_end(random)),
        _ => {
            let few = random.below(400) as u32;
            (Flag(0), states::split(random.aside(), few))
        }
    };
}

fn soon(trial: &mut Trial) {
    for round in 0..trial.rounds(60_000) {
        let random = &mut trial.random;
        let (mut reader, stream) = states::begun(random);
        wrap_soon(random, &mut reader.counts, round);
        trial.streams += 1;
        let mut sides = Sides::given(&reader).expect("a bad state");
        for chunk in cut(&mut trial.random, &stream) {
            let way = way(&mut trial.random);
            if !sides.push(trial, way, chunk) {
                break;
            }
        }
    }
}

/// Noise, then frame 1 to a reader that has frames: the bytes taken, those discarded and the frames cleared reach the same
/// number. Of the five counts noise alone goes on.
fn to_numbers(trial: &mut Trial) {
    for target in [0, 1, 512, 513] {
        for _ in 0..trial.rounds(2_000) {
            let (reader, stream) = wrapping_to(&mut trial.random, target);
            trial.streams += 1;
            let mut sides = Sides::given(&reader).expect("a bad state");
            let way = way(&mut trial.random);
            if sides.push(trial, way, &stream) {
                let counts = sides.ours.counts;
                let all = trial.port.discarded_all(counts.discarded);
                let before = reader.counts.discarded;
                let noise = before.noise.wrapping_add((stream.len() - FRAME) as u32);
                trial.check(
                    (2, Flag(1), [target; 3], Discarded { noise, ..before }),
                    (
                        sides.said.status,
                        counts.mark,
                        [counts.taken, all, counts.cleared],
                        counts.discarded,
                    ),
                    || reader.shown(),
                );
            }
        }
    }
}

fn wrapping_to(random: &mut Random, target: u32) -> (Reader, Vec<u8>) {
    let wanted = 2 + random.below(MOST_WANTED - 1);
    let collected = 1 + random.below(wanted - 1);
    let (mut reader, _) = states::begun_with(random, wanted, collected);
    let asked = Asked {
        command: reader.counts.command,
        size: FRAME * wanted,
        wanted,
    };
    let length = 600 + random.below(100);
    let noise = before_start(random, asked, length);
    let stream = [noise, streams::right(random, asked, 1)].concat();
    let before = |count: usize| target.wrapping_sub(count as u32);
    reader.counts = Counts {
        mark: Flag(1),
        taken: before(stream.len()),
        discarded: states::split(random.aside(), before(length)),
        cleared: before(collected),
        held: 0,
        ..reader.counts
    };
    (reader, stream)
}
