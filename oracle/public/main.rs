//! Calls public functions of the port that the library does not hand to C, or asks only a part of, and compares every
//! answer with the Rust's, or with document 01's rule where the Rust has no such function. The port is its own sources, built by rustc
//! (oracle/as_rust). Each named part is one test; so is each part's noticing of a spoiled answer.

// Of the comparison's files, only a part is used.
#![allow(dead_code)]

mod acknowledged;
mod buffers;
#[path = "../compare/checks.rs"]
mod checks;
mod counts;
mod five;
#[path = "../compare/frames.rs"]
mod frames;
mod inputs;
mod kinds;
#[path = "../compare/one_frame.rs"]
mod one_frame;
#[path = "../compare/original.rs"]
mod original;
#[path = "../compare/port.rs"]
mod port;
#[path = "../compare/random.rs"]
mod random;
/// The model of the documents' reader, streams, and how the Rust stands beside a strict one.
#[path = "../compare/reader"]
mod reader {
    pub mod echoes;
    pub mod exchange;
    pub mod model;
    pub mod streams;
    pub mod told;
}
mod readers;
mod refusals;
mod texts;
#[path = "../compare/told.rs"]
mod told;
#[path = "../compare/trial.rs"]
mod trial;
mod written;

use std::process::ExitCode;
use trial::Part;

fn run(seed: u64, small: bool) -> Vec<bool> {
    let parts: Vec<Part> = [
        acknowledged::parts(),
        buffers::PARTS.to_vec(),
        refusals::PARTS.to_vec(),
        counts::PARTS.to_vec(),
        texts::PARTS.to_vec(),
        readers::PARTS.to_vec(),
        written::PARTS.to_vec(),
        kinds::parts(),
        readers::STRICT.to_vec(),
        five::PARTS.to_vec(),
        inputs::PARTS.to_vec(),
    ]
    .concat();
    let seeded = || (seed..).zip(&parts);
    if small {
        return seeded().map(|(seed, part)| part.small(seed)).collect();
    }
    let full = seeded().map(|(seed, part)| part.full(seed).passed);
    let noticed = seeded().map(|(seed, part)| part.notices(seed));
    full.chain(noticed).collect()
}

/// `--small`: few cases, and no spoiled answers.
fn main() -> ExitCode {
    let small = std::env::args().skip(1).any(|word| word == "--small");
    let seed = match random::seed_of(std::env::var("SEED").ok()) {
        Ok(seed) => seed,
        Err(text) => {
            eprintln!("{text}");
            return ExitCode::FAILURE;
        }
    };
    println!("seed {seed}");
    trial::close(&run(seed, small))
}
