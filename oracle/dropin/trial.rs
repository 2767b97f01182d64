//! The named parts: how one is run, counted and judged.

use crate::answer::Answer;
use crate::original::quiet;
use crate::plan::Plan;
use crate::question::Question;
use crate::random::Random;
use crate::sides::{dropin, rust};
use std::fmt::Debug;

/// Mismatches shown of one part; all are counted.
pub const SHOWN: usize = 5;
/// Small runs of one part with a spoiled answer.
const SPOILED: u64 = 5;

#[derive(Clone, Copy)]
pub struct Part {
    pub name: &'static str,
    /// A full run of fewer cases fails.
    pub minimum: u64,
    pub ask: fn(&mut Trial),
}

/// An answer of the drop-in to be changed.
#[derive(Clone, Copy)]
pub struct Spoil {
    case: u64,
    bit: usize,
}

/// One run of one part.
pub struct Trial {
    pub random: Random,
    pub cases: u64,
    pub mismatches: u64,
    /// The first mismatches, with all that is needed to repeat them.
    pub shown: Vec<String>,
    /// A small run tests the part itself, with fewer cases.
    small: bool,
    spoil: Option<Spoil>,
}

impl Trial {
    pub fn new(seed: u64, small: bool, spoil: Option<Spoil>) -> Self {
        Self {
            random: Random::new(seed),
            cases: 0,
            mismatches: 0,
            shown: Vec::new(),
            small,
            spoil,
        }
    }

    /// How often a drawn case is repeated: `full` times in a full run.
    pub fn rounds(&self, full: u64) -> u64 {
        match self.small {
            true => full.div_ceil(1000),
            false => full,
        }
    }

    /// The step through a range of values that a full run takes whole.
    pub fn stride(&self) -> usize {
        match self.small {
            true => 61,
            false => 1,
        }
    }

    /// Both must give one answer.
    pub fn ask(&mut self, question: Question) {
        let wanted = rust::answer(&question);
        self.judge(&wanted, dropin::answer(&question), &question);
    }

    /// A listed difference: the Rust must give this answer, and the drop-in that.
    pub fn differ(&mut self, question: Question, of_rust: &Answer, of_dropin: &Answer) {
        let found = quiet(|| rust::answer(&question)).unwrap_or(Answer::Panicked);
        self.count(&found == of_rust, || {
            format!("wanted of the Rust {of_rust:02X?} found {found:02X?} at {question:02X?}")
        });
        self.judge(of_dropin, dropin::answer(&question), &question);
    }

    /// The drop-in must have given this answer.
    pub fn judge(&mut self, wanted: &Answer, mut found: Answer, question: &impl Debug) {
        if let Some(spoil) = self.spoil.filter(|spoil| spoil.case <= self.cases) {
            found.spoil(spoil.bit);
            self.spoil = None;
        }
        self.count(wanted == &found, || {
            format!("wanted {wanted:02X?} found {found:02X?} at {question:02X?}")
        });
    }

    fn count(&mut self, right: bool, text: impl FnOnce() -> String) {
        self.cases += 1;
        if !right {
            self.mismatches += 1;
            if self.shown.len() < SHOWN {
                self.shown.push(text());
            }
        }
    }
}

impl Part {
    fn trial(&self, seed: u64, small: bool, spoil: Option<Spoil>) -> Trial {
        let mut trial = Trial::new(seed, small, spoil);
        (self.ask)(&mut trial);
        trial
    }

    /// The part itself, and how many cases it had.
    pub fn run(&self, plan: Plan) -> (bool, u64) {
        let trial = self.trial(plan.seed, plan.small, None);
        let minimum = if plan.small { 1 } else { self.minimum };
        let right = trial.mismatches == 0 && trial.cases >= minimum;
        show(self.name, &trial.shown);
        say(
            right,
            &format!(
                "{}: {} cases (at least {minimum}), {} mismatches",
                self.name, trial.cases, trial.mismatches
            ),
        );
        (right, trial.cases)
    }

    pub fn spoiled(&self, seed: u64) -> bool {
        notices(self.name, seed, |spoil| self.trial(seed, true, spoil))
    }
}

/// Whether a part notices an answer of the drop-in that is another one.
pub fn notices(name: &str, seed: u64, small: impl Fn(Option<Spoil>) -> Trial) -> bool {
    let right = small(None);
    let mut random = Random::new(seed ^ right.cases);
    let noticed = (0..SPOILED).filter(|_| {
        let case = random.below(right.cases.max(1) as usize) as u64;
        let bit = random.below(1 << 20);
        small(Some(Spoil { case, bit })).mismatches == 1
    });
    let noticed = noticed.count() as u64;
    let good = right.mismatches == 0 && noticed == SPOILED;
    say(
        good,
        &format!("{name}: {noticed} of {SPOILED} spoiled answers noticed"),
    );
    good
}

pub fn show(name: &str, mismatches: &[String]) {
    for text in mismatches.iter().take(SHOWN) {
        println!("MISMATCH {name}: {text}");
    }
}

pub fn say(good: bool, text: &str) {
    println!("{} {text}", if good { "ok    " } else { "FAILED" });
}
