//! Runs `readreply` as a process and compares all that comes out with what the Rust makes of the same
//! input. Each named part is one test; so is each part's noticing of a spoiled answer, and of a fault.

mod drawn;
mod edges;
mod faults;
mod fixed;
mod inputs;
mod long;
mod part;
mod process;
mod samples;

use part::{verdict, Outcome, Part};
use process::Program;
use std::collections::BTreeSet;
use std::path::PathBuf;
use std::process::ExitCode;
use std::time::Duration;

const DEFAULT_PROGRAM: &str = "target/bin/readreply";
/// Demanded of all parts together.
const CASES: usize = 20_000;
/// What the program can refuse with. Of the others, 3 is the reader's to prevent, since it collects no
/// frame with a wrong sum; 6, 8, 9 and 11 have no reader, state, room or pack check to come from.
const REFUSALS: [&str; 6] = ["1", "10", "2", "4", "5", "7"];

struct Options {
    seed: u64,
    program: PathBuf,
    write_samples: bool,
}

fn options() -> Result<Options, String> {
    let mut seed = std::env::var("SEED").ok();
    let mut program = std::env::var("READREPLY").ok();
    let mut write_samples = false;
    let mut words = std::env::args().skip(1);
    while let Some(word) = words.next() {
        match word.as_str() {
            "--write-samples" => write_samples = true,
            "--seed" => seed = Some(words.next().ok_or("--seed needs a number")?),
            "--program" => program = Some(words.next().ok_or("--program needs a path")?),
            _ => {
                return Err(format!(
                    "unknown argument {word}: --seed N, --program PATH or --write-samples"
                ))
            }
        }
    }
    Ok(Options {
        seed: reference::random::seed_of(seed)?,
        program: PathBuf::from(program.unwrap_or(DEFAULT_PROGRAM.to_string())),
        write_samples,
    })
}

/// Document 01's example by hand, so that the reference is held to something too.
fn example() -> bool {
    let right = reference::text(&inputs::EXAMPLE) == inputs::EXAMPLE_TEXT;
    println!(
        "{} the reference prints document 01's example",
        verdict(right)
    );
    right
}

/// Whether the parts together had cases enough, of both ways.
fn enough(outcomes: &[Outcome]) -> bool {
    let cases: usize = outcomes.iter().map(|outcome| outcome.cases).sum();
    let by_pipe: usize = outcomes.iter().map(|outcome| outcome.by_pipe).sum();
    let enough = cases >= CASES && by_pipe.min(cases - by_pipe) >= CASES * 2 / 5;
    println!(
        "{} all parts together: {cases} cases (at least {CASES}), {by_pipe} of them through a pipe",
        verdict(enough)
    );
    enough
}

/// Whether every refusal that can be printed was, and no other.
fn all_refusals(outcomes: &[Outcome]) -> bool {
    let seen: BTreeSet<&str> = outcomes
        .iter()
        .flat_map(|outcome| outcome.refusals.iter().map(String::as_str))
        .collect();
    let right = seen == BTreeSet::from(REFUSALS);
    println!("{} refusals seen: {seen:?}", verdict(right));
    right
}

fn run(options: &Options) -> Vec<bool> {
    let program = Program {
        path: options.program.clone(),
        fault: None,
        limit: Duration::from_secs(20),
    };
    let parts: Vec<Part> = [
        fixed::PARTS,
        edges::PARTS,
        drawn::PARTS,
        long::PARTS,
        samples::PARTS,
    ]
    .concat();
    // A seed for each part, so that no part's cases depend on those before it.
    let seeded = || {
        (0..)
            .map(|index| options.seed.wrapping_add(index))
            .zip(&parts)
    };
    let mut passed = vec![example(), samples::are_stored()];
    let outcomes: Vec<Outcome> = seeded()
        .map(|(seed, part)| part.full(&program, seed))
        .collect();
    passed.extend(outcomes.iter().map(|outcome| outcome.passed));
    passed.extend([enough(&outcomes), all_refusals(&outcomes)]);
    passed.extend(seeded().map(|(seed, part)| part.notices(&program, seed)));
    passed.push(faults::right_passes(&parts, options.seed));
    passed.extend(faults::noticed(&parts, options.seed));
    passed
}

fn compare(options: &Options) -> ExitCode {
    println!(
        "seed {}, program {}",
        options.seed,
        options.program.display()
    );
    process::watch();
    let there = options.program.exists();
    if !there {
        println!("FAILED there is no program to run: tools/build readreply makes it");
    }
    let tests = if there { run(options) } else { vec![false] };
    let failed = tests.iter().filter(|passed| !**passed).count();
    println!("{} passed, {failed} failed", tests.len() - failed);
    if failed > 0 {
        return ExitCode::FAILURE;
    }
    ExitCode::SUCCESS
}

fn main() -> ExitCode {
    let done = options().and_then(|options| {
        part::make_place().map_err(|error| format!("no place to write to: {error}"))?;
        if !options.write_samples {
            return Ok(compare(&options));
        }
        samples::write().map_err(|error| format!("the samples could not be written: {error}"))?;
        Ok(ExitCode::SUCCESS)
    });
    done.unwrap_or_else(|text| {
        eprintln!("{text}");
        ExitCode::FAILURE
    })
}
