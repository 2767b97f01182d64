//! More than 512 bytes discarded: the mark and the status.

use super::discards::{asked_for, discarding};
use super::kinds::way;
use super::model::MOST_DISCARDED;
use super::sides::Sides;
use super::streams::{self, cut, Asked};
use super::OF;
use crate::trial::{Part, Trial};

pub const PARTS: [Part; 2] = [
    Part::new(
        OF,
        "511 to 514 discarded, by each rule and by all",
        500_000,
        about_512,
    )
    .of_streams(5 * 4 * 2 * 2 * 60),
    Part::new(OF, "far more than 65,535 discarded", 1_000, far_over).of_streams(5 * 12),
];

/// Pushes, then compares how many bytes were discarded in all, the mark and the status with what is known.
fn compare(trial: &mut Trial, asked: Asked, chunks: &[&[u8]], count: usize) -> Option<Sides> {
    let mut sides = Sides::new(trial, asked)?;
    for chunk in chunks {
        let way = way(&mut trial.random);
        if !sides.push(trial, way, chunk) {
            return None;
        }
    }
    check_count(trial, &sides, count).then_some(sides)
}

/// So many bytes were discarded.
pub fn check_count(trial: &mut Trial, sides: &Sides, count: usize) -> bool {
    let over = count as u64 > MOST_DISCARDED;
    let status = if over { 2 } else { 0 };
    let counts = sides.ours.counts;
    let all = trial.port.discarded_all(counts.discarded);
    trial.agrees(
        (count as u32, over.into(), status),
        (all, counts.mark, sides.said.status),
        || format!("{count} to be discarded {}", sides.ours.shown()),
    )
}

fn about_512(trial: &mut Trial) {
    for case in 0..5 * 4 * 2 * 2 {
        for _ in 0..trial.rounds(60) {
            let (rule, count) = (case % 5, 511 + case / 5 % 4);
            let (complete, whole) = (case / 20 % 2, case / 40);
            let asked = asked_for(&mut trial.random, rule);
            let last = asked.wanted - 1 + complete;
            let stream = discarding(&mut trial.random, asked, rule, count, last);
            trial.streams += 1;
            let chunks = match whole {
                1 => vec![&stream[..]],
                _ => cut(&mut trial.random, &stream),
            };
            if let Some(sides) = compare(trial, asked, &chunks, count) {
                go_on(trial, asked, sides);
            }
        }
    }
}

/// The last frame, which completes the reader or comes too late: the status stays.
fn go_on(trial: &mut Trial, asked: Asked, mut sides: Sides) {
    let status = sides.said.status;
    let frame = streams::right(&mut trial.random, asked, asked.wanted);
    let way = way(&mut trial.random);
    if sides.push(trial, way, &frame) {
        let counts = sides.ours.counts;
        trial.check(
            (status, asked.wanted),
            (sides.said.status, counts.collected),
            || sides.ours.shown(),
        );
    }
}

/// In chunks, since the Rust moves all that is behind a discarded byte.
fn far_over(trial: &mut Trial) {
    for rule in 0..5 {
        for _ in 0..trial.rounds(12) {
            let asked = asked_for(&mut trial.random, rule);
            let count = match trial.random.below(3) {
                0 => 65_530 + trial.random.below(12),
                1 => 65_536 + 506 + trial.random.below(12),
                _ => 65_536 + trial.random.below(200_000),
            };
            let stream = discarding(&mut trial.random, asked, rule, count, asked.wanted);
            trial.streams += 1;
            let size = 1 + trial.random.below(4096);
            let chunks: Vec<&[u8]> = stream.chunks(size).collect();
            compare(trial, asked, &chunks, count);
        }
    }
}
