//! Drawn cases, as many as are asked for. A case is one call, or one stream with all its pushes, put to both
//! sides, whose whole answers are compared.
//!
//! Every part has a fixed share. It is drawn in blocks, each from a seed of its own, and threads take blocks:
//! so the seed decides the cases, and the number of threads does not.

mod readers;
mod replies;
mod requests;

use crate::plan::Plan;
use crate::random::Random;
use crate::trial::{self, Trial, SHOWN};
use std::sync::atomic::{AtomicU64, Ordering};
use std::thread;

const BLOCK: u64 = 10_000;
/// Cases of a small run, which tests the part itself.
const SMALL: u64 = 20;

#[derive(Clone, Copy)]
pub struct Drawn {
    pub name: &'static str,
    /// Of a thousand cases.
    pub share: u64,
    /// Draws one case and asks it.
    pub one: fn(&mut Trial),
}

/// What the blocks of one thread, or of all, came to.
#[derive(Default)]
struct Sum {
    cases: u64,
    mismatches: u64,
    /// What the blocks' generators would draw next, added up: it tells whether two runs drew the same.
    mark: u64,
    /// With the block's number: the first blocks' are shown.
    shown: Vec<(u64, String)>,
}

impl Sum {
    fn of(block: u64, mut trial: Trial) -> Self {
        Self {
            cases: trial.cases,
            mismatches: trial.mismatches,
            mark: trial.random.next(),
            shown: trial.shown.into_iter().map(|text| (block, text)).collect(),
        }
    }

    fn join(mut self, other: Self) -> Self {
        self.cases += other.cases;
        self.mismatches += other.mismatches;
        self.mark = self.mark.wrapping_add(other.mark);
        self.shown.extend(other.shown);
        self.shown.sort_by_key(|(block, _)| *block);
        self.shown.truncate(SHOWN);
        self
    }

    /// A thread that panicked brings no sum: of neither side a panic is wanted here.
    fn panicked() -> Self {
        Self {
            mismatches: 1,
            shown: vec![(0, "a side panicked".to_string())],
            ..Self::default()
        }
    }
}

impl Drawn {
    /// So many cases, all drawn from one seed.
    fn block(&self, seed: u64, cases: u64, spoil: Option<trial::Spoil>) -> Trial {
        let mut trial = Trial::new(seed, false, spoil);
        for _ in 0..cases {
            (self.one)(&mut trial);
        }
        trial
    }

    /// Whether a small run notices an answer of the drop-in that is another one.
    fn spoiled(&self, seed: u64) -> bool {
        trial::notices(self.name, seed, |spoil| self.block(seed, SMALL, spoil))
    }

    /// Takes blocks as long as there are some.
    fn work(&self, seeds: u64, cases: u64, next: &AtomicU64) -> Sum {
        let mut sum = Sum::default();
        loop {
            let block = next.fetch_add(1, Ordering::Relaxed);
            let first = block * BLOCK;
            if first >= cases {
                return sum;
            }
            let seed = Random::new(seeds ^ block).next();
            let trial = self.block(seed, BLOCK.min(cases - first), None);
            sum = sum.join(Sum::of(block, trial));
        }
    }

    fn sum(&self, seeds: u64, cases: u64, threads: u64) -> Sum {
        let next = AtomicU64::new(0);
        thread::scope(|scope| {
            let work = || self.work(seeds, cases, &next);
            let started: Vec<_> = (0..threads).map(|_| scope.spawn(work)).collect();
            let sums = started.into_iter().map(|thread| thread.join());
            sums.map(|sum| sum.unwrap_or_else(|_| Sum::panicked()))
                .fold(Sum::default(), Sum::join)
        })
    }

    /// The part itself, and its mark.
    fn full(&self, seeds: u64, cases: u64, threads: u64) -> (bool, u64) {
        let sum = self.sum(seeds, cases, threads);
        let right = sum.mismatches == 0 && sum.cases == cases && cases > 0;
        let texts: Vec<String> = sum.shown.into_iter().map(|(_, text)| text).collect();
        trial::show(self.name, &texts);
        trial::say(
            right,
            &format!(
                "{}: {} cases, {} mismatches",
                self.name, sum.cases, sum.mismatches
            ),
        );
        (right, sum.mark)
    }
}

/// Whether the number of threads leaves the cases as they are.
fn threads_do_not_matter(part: &Drawn, seeds: u64) -> bool {
    let [one, three] = [1, 3].map(|threads| part.sum(seeds, 5 * BLOCK + 1, threads));
    let same = one.mark == three.mark && one.cases == three.cases;
    trial::say(same, "drawn: one thread and three draw the same cases");
    same
}

fn parts() -> Vec<Drawn> {
    [requests::PARTS, replies::PARTS, readers::PARTS].concat()
}

/// All parts; whether each test passed.
pub fn run(plan: Plan) -> Vec<bool> {
    let parts = parts();
    let mut random = Random::new(plan.seed);
    let mut mark = 0_u64;
    let mut passed = Vec::new();
    for (part, cases) in parts.iter().zip(shared(plan.cases, &parts)) {
        let (right, marked) = part.full(random.next(), cases, plan.threads);
        passed.push(right);
        mark = mark.wrapping_add(marked);
    }
    let Plan { seed, cases, .. } = plan;
    println!("drawn: {cases} cases, seed {seed}, mark {mark:016X}");
    passed
}

/// The same parts, small, each with spoiled answers; and whether threads matter.
pub fn spoiled(plan: Plan) -> Vec<bool> {
    let parts = parts();
    let mut random = Random::new(!plan.seed);
    let mut passed = vec![threads_do_not_matter(&parts[1], random.next())];
    passed.extend(parts.iter().map(|part| part.spoiled(random.next())));
    passed
}

/// The cases of each part: its share, and to the last what is left.
fn shared(cases: u64, parts: &[Drawn]) -> Vec<u64> {
    let mut left = cases;
    let mut shared = Vec::new();
    for (behind, part) in (0..parts.len()).rev().zip(parts) {
        let share = u128::from(cases) * u128::from(part.share) / 1_000;
        shared.push(if behind == 0 { left } else { share as u64 });
        left -= share as u64;
    }
    shared
}
