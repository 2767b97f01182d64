//! What a run was asked for.

use crate::random;
use std::thread;

/// Cases drawn where no other number is asked for.
const CASES: u64 = 12_000_000;

#[derive(Clone, Copy)]
pub struct Plan {
    pub seed: u64,
    /// How many are drawn.
    pub cases: u64,
    pub threads: u64,
    /// The parts of fixed size are small, and no answer is spoiled: for runs with a fault, or under valgrind.
    pub small: bool,
}

/// From the arguments, and from SEED.
pub fn asked() -> Result<Plan, String> {
    let mut seed = std::env::var("SEED").ok();
    let mut plan = Plan {
        seed: 0,
        cases: CASES,
        threads: thread::available_parallelism().map_or(1, |cores| cores.get() as u64),
        small: false,
    };
    let mut words = std::env::args().skip(1);
    while let Some(word) = words.next() {
        let mut value = || words.next().ok_or(format!("{word} needs a number"));
        match word.as_str() {
            "--small" => plan.small = true,
            "--seed" => seed = Some(value()?),
            "--cases" => plan.cases = number(value()?)?,
            "--threads" => plan.threads = number(value()?)?.max(1),
            _ => return Err(format!("unknown argument {word}: see oracle/README.md")),
        }
    }
    plan.seed = random::seed_of(seed)?;
    Ok(plan)
}

fn number(text: String) -> Result<u64, String> {
    text.parse().map_err(|_| format!("{text} is no number"))
}
