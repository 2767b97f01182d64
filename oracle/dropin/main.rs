//! Drives the Rust file and the drop-in crate through one source, and compares every answer.

// Of the comparison's files, only what makes replies and streams is used.
#![allow(dead_code)]

mod account;
mod answer;
mod differences;
#[path = "../compare/reader/discards.rs"]
mod discards;
mod drawn;
#[path = "../compare/reader/echoes.rs"]
mod echoes;
#[path = "../compare/frames.rs"]
mod frames;
#[path = "../compare/original.rs"]
mod original;
mod plan;
mod question;
#[path = "../compare/random.rs"]
mod random;
/// The model of the documents' reader, and how the Rust stands beside a strict one.
#[path = "../compare/reader"]
mod reader {
    pub mod exchange;
    pub mod model;
    pub mod told;
}
mod readers;
mod replies;
mod requests;
mod sides;
#[path = "../compare/reader/streams.rs"]
mod streams;
mod strict;
#[path = "../compare/told.rs"]
mod told;
mod trial;

use plan::Plan;
use std::process::ExitCode;

/// A full run of fewer cases in the parts of fixed size fails.
const MINIMUM: u64 = 214_000;

/// Runs all parts; whether each test passed.
fn run(plan: Plan) -> Vec<bool> {
    let seed = plan.seed;
    let parts = [
        requests::PARTS,
        replies::PARTS,
        readers::PARTS,
        differences::PARTS,
        account::PARTS,
        strict::PARTS,
    ]
    .concat();
    let fixed: Vec<(bool, u64)> = parts.iter().map(|part| part.run(plan)).collect();
    let mut passed: Vec<bool> = fixed.iter().map(|(passed, _)| *passed).collect();
    passed.push(differences::refusal());
    passed.extend(drawn::run(plan));
    if !plan.small {
        let cases = fixed.iter().map(|(_, cases)| cases).sum::<u64>();
        passed.push(cases >= MINIMUM);
        trial::say(
            cases >= MINIMUM,
            &format!("fixed: {cases} cases (at least {MINIMUM}), seed {seed}"),
        );
        passed.extend(parts.iter().map(|part| part.spoiled(seed)));
        passed.extend(drawn::spoiled(plan));
    }
    passed
}

fn main() -> ExitCode {
    let plan = match plan::asked() {
        Ok(plan) => plan,
        Err(text) => {
            println!("FAILED {text}\n0 passed, 1 failed");
            return ExitCode::FAILURE;
        }
    };
    let tests = run(plan);
    let passed = tests.iter().filter(|passed| **passed).count();
    println!("{passed} passed, {} failed", tests.len() - passed);
    ExitCode::from(u8::from(passed < tests.len()))
}
