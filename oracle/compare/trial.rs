//! The named parts: how one is run, counted and judged.

use crate::port::{Port, Spoil};
use crate::random::Random;
use std::collections::BTreeMap;
use std::fmt::Debug;
use std::process::ExitCode;

/// Mismatches shown of one part; all are counted.
const SHOWN: u64 = 5;
/// Small runs of one part with a spoiled answer.
const SPOILED: u64 = 5;

#[derive(Clone, Copy)]
pub struct Part {
    of: &'static str,
    what: &'static str,
    /// A full run of fewer cases fails.
    minimum: u64,
    /// Of fewer streams, too.
    minimum_streams: u64,
    run: fn(&mut Trial),
}

/// How often the cases had something in them, by its name and, where it has one, its number.
pub type Seen = BTreeMap<(&'static str, usize), u64>;

/// What a full run of one part came to.
pub struct Outcome {
    pub passed: bool,
    pub streams: u64,
    pub pushes: u64,
    pub seen: Seen,
}

/// One run of one part.
pub struct Trial {
    pub port: Port,
    pub random: Random,
    /// Streams made so far, each counted once however often it is cut.
    pub streams: u64,
    seen: Seen,
    name: String,
    /// A small run tests the part itself: it draws fewer cases and prints nothing.
    small: bool,
    cases: u64,
    mismatches: u64,
}

impl Trial {
    /// How often a drawn case is repeated: `full` times in a full run.
    pub fn rounds(&self, full: u64) -> u64 {
        if self.small {
            full.div_ceil(1000)
        } else {
            full
        }
    }

    /// The step through a range of values that a full run takes whole.
    pub fn stride(&self) -> usize {
        if self.small {
            61
        } else {
            1
        }
    }

    /// Something that a full run must have, whose name and number these are.
    pub fn saw(&mut self, what: &'static str, which: usize) {
        *self.seen.entry((what, which)).or_default() += 1;
    }

    /// Counts one case: what was found must be what was wanted, most often of the Rust.
    pub fn check<T: PartialEq + Debug>(
        &mut self,
        wanted: T,
        found: T,
        case: impl FnOnce() -> String,
    ) {
        self.agrees(wanted, found, case);
    }

    /// The same, and says whether it was: a reader that went wrong is pushed no further.
    pub fn agrees<T: PartialEq + Debug>(
        &mut self,
        wanted: T,
        found: T,
        case: impl FnOnce() -> String,
    ) -> bool {
        self.judge(wanted == found, || {
            format!("wanted {wanted:02X?} found {found:02X?} at {}", case())
        })
    }

    /// Counts one case whose answer is known beforehand: both must give it.
    pub fn check_known<T: PartialEq + Debug>(
        &mut self,
        known: T,
        rust: T,
        ours: T,
        case: impl FnOnce() -> String,
    ) {
        self.judge(rust == known && ours == known, || {
            format!(
                "known {known:02X?} Rust {rust:02X?} ours {ours:02X?} at {}",
                case()
            )
        });
    }

    fn judge(&mut self, right: bool, text: impl FnOnce() -> String) -> bool {
        self.cases += 1;
        if right {
            return true;
        }
        self.mismatches += 1;
        if !self.small && self.mismatches <= SHOWN {
            println!("MISMATCH {}: {}", self.name, text());
        }
        false
    }
}

impl Part {
    pub const fn new(
        of: &'static str,
        what: &'static str,
        minimum: u64,
        run: fn(&mut Trial),
    ) -> Self {
        Self {
            of,
            what,
            minimum,
            minimum_streams: 0,
            run,
        }
    }

    /// The same, of at least so many streams.
    pub const fn of_streams(self, minimum_streams: u64) -> Self {
        Self {
            minimum_streams,
            ..self
        }
    }

    fn name(&self) -> String {
        format!("{}, {}", self.of, self.what)
    }

    fn tried(&self, seed: u64, small: bool, spoil: Option<Spoil>) -> Trial {
        let mut trial = Trial {
            port: Port::new(spoil),
            random: Random::new(seed),
            streams: 0,
            seen: Seen::new(),
            name: self.name(),
            small,
            cases: 0,
            mismatches: 0,
        };
        (self.run)(&mut trial);
        trial
    }

    /// Runs the part in full.
    pub fn full(&self, seed: u64) -> Outcome {
        let trial = self.tried(seed, false, None);
        let enough = trial.cases >= self.minimum && trial.streams >= self.minimum_streams;
        let passed = trial.mismatches == 0 && enough;
        println!(
            "{} {}: {} cases (at least {}), {}{} mismatches",
            verdict(passed),
            trial.name,
            trial.cases,
            self.minimum,
            self.streams(&trial),
            trial.mismatches
        );
        Outcome {
            passed,
            streams: trial.streams,
            pushes: trial.port.pushes,
            seen: trial.seen,
        }
    }

    /// Runs the part small, and says whether it found no mismatch.
    pub fn small(&self, seed: u64) -> bool {
        let trial = self.tried(seed, true, None);
        let passed = trial.mismatches == 0;
        println!(
            "{} {}: {} cases, {} mismatches",
            verdict(passed),
            trial.name,
            trial.cases,
            trial.mismatches
        );
        passed
    }

    /// The count of streams, where there are to be some.
    fn streams(&self, trial: &Trial) -> String {
        match self.minimum_streams {
            0 => String::new(),
            minimum => format!("{} streams (at least {minimum}), ", trial.streams),
        }
    }

    /// Whether small runs notice one flipped bit in one answer of the port, wherever it is.
    pub fn notices(&self, seed: u64) -> bool {
        // Run once only to learn how many answers there are to choose from.
        let calls = self.tried(seed, true, None).port.calls;
        let mut random = Random::new(!seed);
        let noticed = (0..SPOILED).all(|_| {
            let spoil = Spoil {
                call: random.next() % calls.max(1),
                bit: random.next() as usize,
            };
            self.tried(seed, true, Some(spoil)).mismatches > 0
        });
        println!(
            "{} notices a spoiled answer: {}",
            verdict(noticed),
            self.name()
        );
        noticed
    }
}

pub fn verdict(passed: bool) -> &'static str {
    if passed {
        "ok    "
    } else {
        "FAILED"
    }
}

/// Closes a run of these tests.
pub fn close(tests: &[bool]) -> ExitCode {
    let failed = tests.iter().filter(|passed| !**passed).count();
    println!("{} passed, {failed} failed", tests.len() - failed);
    if failed > 0 {
        return ExitCode::FAILURE;
    }
    ExitCode::SUCCESS
}
