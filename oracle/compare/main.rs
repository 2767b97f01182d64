//! Runs the port beside the Rust and compares every answer. Each named part is one test; so is
//! each part's noticing of a spoiled answer.

mod balance;
mod checks;
mod faults;
mod frames;
mod lists;
mod numbered;
mod numbers;
mod one_frame;
mod original;
mod pack;
mod port;
mod random;
mod reader;
mod readings;
mod requests;
mod set_soc;
mod sums;
mod told;
mod trial;
mod writers;

use std::process::ExitCode;
use std::sync::atomic::{AtomicUsize, Ordering};
use std::thread;
use trial::{Outcome, Part};

struct Options {
    seed: u64,
    all_patterns: bool,
    long: bool,
    small: bool,
}

fn options() -> Result<Options, String> {
    let mut seed = std::env::var("SEED").ok();
    let mut all_patterns = false;
    let mut long = false;
    let mut small = false;
    let mut words = std::env::args().skip(1);
    while let Some(word) = words.next() {
        match word.as_str() {
            "--all-patterns" => all_patterns = true,
            "--long" => long = true,
            "--small" => small = true,
            "--seed" => seed = Some(words.next().ok_or("--seed needs a number")?),
            _ => {
                return Err(format!(
                    "unknown argument {word}: --seed N, --all-patterns, --long or --small"
                ))
            }
        }
    }
    Ok(Options {
        seed: random::seed_of(seed)?,
        all_patterns,
        long,
        small,
    })
}

/// Both halves at once, on a thread each.
fn all_patterns(seed: u64) -> Vec<bool> {
    thread::scope(|scope| {
        let halves = set_soc::ALL_PATTERNS.map(|half| scope.spawn(move || half.full(seed).passed));
        halves.map(|half| half.join().unwrap_or(false)).to_vec()
    })
}

/// What each part comes to, in their order. All cores take parts; each part has a seed of its own, so its cases depend
/// neither on the parts before it nor on the number of cores.
fn on_all_cores<T: Send>(seed: u64, parts: &[Part], run: fn(&Part, u64) -> T) -> Vec<T> {
    let next = AtomicUsize::new(0);
    let worker = || {
        let taken = std::iter::repeat_with(|| next.fetch_add(1, Ordering::Relaxed));
        taken
            .map_while(|index| Some((index, parts.get(index)?)))
            .map(|(index, part)| (index, run(part, seed.wrapping_add(index as u64))))
            .collect::<Vec<_>>()
    };
    let cores = thread::available_parallelism().map_or(1, |cores| cores.get());
    let mut done: Vec<(usize, T)> = thread::scope(|scope| {
        let threads: Vec<_> = (0..cores).map(|_| scope.spawn(worker)).collect();
        let ends = threads.into_iter().map(|thread| thread.join());
        ends.flat_map(|end| end.expect("no part panics")).collect()
    });
    done.sort_by_key(|(index, _)| *index);
    done.into_iter().map(|(_, answer)| answer).collect()
}

fn run(options: &Options) -> Vec<bool> {
    let mut parts: Vec<Part> = [
        numbers::PARTS,
        sums::PARTS,
        &checks::parts(),
        requests::PARTS,
        set_soc::PARTS,
        &readings::parts(),
        &numbered::parts(),
        &balance::parts(),
        &faults::parts(),
        pack::PARTS,
        &reader::parts(),
        &writers::parts(),
    ]
    .concat();
    // Last, since a part's place is its seed: the others go on to draw what they always drew.
    let plain = parts.len();
    parts.extend(checks::ADDRESSES);
    parts.extend(reader::strict::parts());
    let with_strict = parts.len();
    parts.extend(reader::five::PARTS);
    if options.small {
        return on_all_cores(options.seed, &parts, Part::small);
    }
    let outcomes: Vec<Outcome> = on_all_cores(options.seed, &parts, Part::full);
    let mut passed: Vec<bool> = outcomes.iter().map(|outcome| outcome.passed).collect();
    passed.push(reader::enough(&outcomes[..plain]));
    passed.extend(reader::strict::enough(&outcomes[plain..with_strict]));
    passed.extend(reader::five::enough(&outcomes[with_strict..]));
    passed.extend(on_all_cores(options.seed, &parts, Part::notices));
    if options.all_patterns {
        passed.extend(all_patterns(options.seed));
    }
    if options.long {
        passed.extend(reader::LONG.map(|part| part.full(options.seed).passed));
    }
    passed
}

fn main() -> ExitCode {
    let options = match options() {
        Ok(options) => options,
        Err(text) => {
            eprintln!("{text}");
            return ExitCode::FAILURE;
        }
    };
    println!("seed {}", options.seed);
    trial::close(&run(&options))
}
