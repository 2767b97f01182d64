//! The frame reader: the port's beside the Rust's, and both beside a model of document 01's rules.

mod bad;
mod copies;
mod cuts;
mod discards;
mod echoes;
mod exchange;
pub mod five;
mod kinds;
mod long;
mod model;
mod numbers;
mod opened;
mod over;
mod port;
mod reasons;
mod sides;
mod states;
mod streams;
pub mod strict;
mod told;
mod wraps;

use crate::trial::{verdict, Outcome, Part};
use std::ops::RangeInclusive;

const OF: &str = "FrameReader";

/// Demanded of all parts together.
const STREAMS: u64 = 200_000;
const PUSHES: u64 = 10_000_000;

pub fn parts() -> Vec<Part> {
    [
        numbers::PARTS,
        opened::PARTS,
        &kinds::PARTS,
        &cuts::PARTS,
        &over::PARTS,
        &wraps::PARTS,
        &bad::PARTS,
        &copies::PARTS,
    ]
    .concat()
}

/// Streams of more than 2^32 bytes.
pub const LONG: [Part; 4] = long::PARTS;

/// Whether the parts together had streams and pushes enough.
pub fn enough(outcomes: &[Outcome]) -> bool {
    had(OF, outcomes, STREAMS, PUSHES)
}

fn had(of: &str, outcomes: &[Outcome], least: u64, least_pushes: u64) -> bool {
    let streams: u64 = outcomes.iter().map(|outcome| outcome.streams).sum();
    let pushes: u64 = outcomes.iter().map(|outcome| outcome.pushes).sum();
    let enough = streams >= least && pushes >= least_pushes;
    println!(
        "{} {of}, all parts together: {streams} streams (at least {least}), {pushes} pushes (at least {least_pushes})",
        verdict(enough)
    );
    enough
}

/// Whether something was met so often, for each of these numbers.
fn saw_enough(
    of: &str,
    outcomes: &[Outcome],
    what: &'static str,
    numbers: RangeInclusive<usize>,
    least: u64,
) -> bool {
    let met = |number| {
        outcomes
            .iter()
            .filter_map(|outcome| outcome.seen.get(&(what, number)))
            .sum::<u64>()
    };
    let fewest = numbers.map(met).min().unwrap_or(0);
    let enough = fewest >= least;
    println!(
        "{} {of}, {what}: {fewest} (at least {least})",
        verdict(enough)
    );
    enough
}
