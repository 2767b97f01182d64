//! The named parts: how one is run on two threads, counted and judged.

use crate::process::{Program, Seen, Way};
use reference::random::Random;
use reference::reader::streams::cut;
use std::collections::BTreeSet;
use std::path::PathBuf;
use std::sync::atomic::{AtomicUsize, Ordering};
use std::{fs, thread};

/// Where all this writes.
const PLACE: &str = "target/oracle/readreply";
const THREADS: usize = 2;
/// Mismatches shown of one part; all are counted.
const SHOWN: usize = 5;
/// Bytes of an input that are printed, at most.
const PRINTED: usize = 600;
/// Pieces that are each waited for, at most.
const WAITED: usize = 24;
/// Cases of a small run, which tests the part itself.
const SMALL: usize = 8;
/// Small runs of one part with a spoiled answer.
const SPOILED: usize = 3;

/// An input, and how it comes.
#[derive(Clone)]
pub struct Case {
    pub input: Vec<u8>,
    pub way: Way,
}

#[derive(Clone, Copy)]
pub struct Part {
    pub what: &'static str,
    /// A full run of fewer cases fails.
    minimum: usize,
    make: fn(&mut Random) -> Vec<Case>,
}

/// What a full run of one part came to.
pub struct Outcome {
    pub passed: bool,
    pub cases: usize,
    pub by_pipe: usize,
    /// The numbers that the reference refused with.
    pub refusals: BTreeSet<String>,
}

/// One answer to be falsified: a part that then finds no mismatch compares nothing.
#[derive(Clone, Copy)]
struct Spoil {
    case: usize,
    how: usize,
}

/// Every other input comes as a file, the others through a pipe, cut at random.
pub fn cases(random: &mut Random, inputs: Vec<Vec<u8>>) -> Vec<Case> {
    let numbered = inputs.into_iter().enumerate();
    numbered
        .map(|(index, input)| {
            let way = match index % 2 {
                0 => Way::File,
                _ => through_pipe(random, &input),
            };
            Case { input, way }
        })
        .collect()
}

/// Finely or in a few pieces. To wait for many takes long on a busy machine.
fn through_pipe(random: &mut Random, input: &[u8]) -> Way {
    let pieces = cut(random, input).into_iter().map(<[u8]>::len);
    let fine: Vec<usize> = pieces.filter(|length| *length > 0).collect();
    match random.below(8) {
        0 if fine.len() <= WAITED => Way::Reads(fine),
        0..4 => Way::Pieces(fine),
        _ => Way::Reads(few(random, input.len())),
    }
}

/// One to four pieces, cut anywhere.
fn few(random: &mut Random, length: usize) -> Vec<usize> {
    let mut rest = length;
    let mut pieces = Vec::new();
    for _ in 0..random.below(4) {
        let piece = random.below(rest + 1);
        pieces.push(piece);
        rest -= piece;
    }
    pieces
}

impl Part {
    pub const fn new(
        what: &'static str,
        minimum: usize,
        make: fn(&mut Random) -> Vec<Case>,
    ) -> Self {
        Self {
            what,
            minimum,
            make,
        }
    }

    fn made(&self, seed: u64) -> Vec<Case> {
        (self.make)(&mut Random::new(seed))
    }

    /// Some of the cases, from all over the part.
    fn some(&self, seed: u64, most: usize) -> Vec<Case> {
        let cases = self.made(seed);
        // An odd step, so that both ways of the input are among them.
        let step = cases.len().div_ceil(most) | 1;
        cases.into_iter().step_by(step).collect()
    }

    /// Runs the part in full.
    pub fn full(&self, program: &Program, seed: u64) -> Outcome {
        let cases = self.made(seed);
        let all = judged(program, &cases, None);
        let texts = all.iter().zip(&cases);
        let texts = texts.filter_map(|(judged, case)| Some((judged, case, judged.wrong.as_ref()?)));
        for (Judged { case, .. }, made, text) in texts.take(SHOWN) {
            println!("MISMATCH {}: {}{text}", self.what, self.shown(*case, made));
        }
        let mismatches = wrong(&all);
        let passed = mismatches == 0 && cases.len() >= self.minimum;
        println!(
            "{} {}: {} cases (at least {}), {mismatches} mismatches",
            verdict(passed),
            self.what,
            cases.len(),
            self.minimum,
        );
        let by_pipe = |case: &&Case| !matches!(case.way, Way::File);
        Outcome {
            passed,
            cases: cases.len(),
            by_pipe: cases.iter().filter(by_pipe).count(),
            refusals: all.iter().filter_map(refusal).collect(),
        }
    }

    /// All that is needed to repeat a case. The input is kept, and printed if it is short.
    fn shown(&self, number: usize, case: &Case) -> String {
        let Case { input, way } = case;
        let name = self
            .what
            .replace(|letter: char| !letter.is_alphanumeric(), "-");
        let file = format!("{PLACE}/{name}.{number}.in");
        let kept = fs::write(&file, input).map_or("could not be written", |()| "has it");
        let length = input.len();
        let mut way = format!("{way:?}");
        way.truncate(PRINTED);
        let printed = match length {
            0..=PRINTED => format!("input {input:02X?}\n"),
            _ => String::new(),
        };
        format!("case {number}, {length} bytes, {file} {kept}\n{printed}way {way}\n")
    }

    /// Whether small runs notice one falsified answer, wherever it is.
    pub fn notices(&self, program: &Program, seed: u64) -> bool {
        let cases = self.some(seed, SMALL);
        let mut random = Random::new(!seed);
        let noticed = (0..SPOILED).all(|round| {
            let spoil = Spoil {
                case: random.below(cases.len().max(1)),
                how: random.below(1 << 32) * SPOILED + round,
            };
            wrong(&judged(program, &cases, Some(spoil))) > 0
        });
        println!(
            "{} notices a spoiled answer: {}",
            verdict(noticed),
            self.what
        );
        noticed
    }

    /// How many of so many cases this program has wrong.
    pub fn wrong(&self, program: &Program, seed: u64, most: usize) -> usize {
        wrong(&judged(program, &self.some(seed, most), None))
    }
}

/// One case judged.
struct Judged {
    case: usize,
    /// What the reference says of it.
    wanted: String,
    /// What is wrong, if anything is.
    wrong: Option<String>,
}

/// Runs all cases, two at a time, and judges them in order.
fn judged(program: &Program, cases: &[Case], spoil: Option<Spoil>) -> Vec<Judged> {
    let next = AtomicUsize::new(0);
    let worker = |number: usize| {
        let scratch = PathBuf::from(format!("{PLACE}/{number}.in"));
        let mut all = Vec::new();
        loop {
            let case = next.fetch_add(1, Ordering::Relaxed);
            let Some(Case { input, way }) = cases.get(case) else {
                return all;
            };
            let mut seen = program.run(input, way, &scratch);
            if let Some(spoil) = spoil.filter(|spoil| spoil.case == case) {
                seen = seen.map(|seen| spoiled(seen, spoil.how));
            }
            let wanted = reference::text(input);
            // An input that makes no reader need not be read to its end.
            let unread = seen.as_ref().is_ok_and(|seen| seen.unread);
            let unread = unread && reference::no_reader(input).is_some();
            all.push(Judged {
                case,
                wrong: difference(Seen::right(&wanted, unread), seen),
                wanted,
            });
        }
    };
    let mut all: Vec<Judged> = thread::scope(|scope| {
        let worker = &worker;
        let threads = (0..THREADS).map(|number| scope.spawn(move || worker(number)));
        let threads: Vec<_> = threads.collect();
        let ends = threads.into_iter().map(|thread| thread.join());
        ends.flat_map(|end| end.expect("the Rust and the model agree"))
            .collect()
    });
    all.sort_by_key(|judged| judged.case);
    all
}

fn wrong(all: &[Judged]) -> usize {
    all.iter().filter(|judged| judged.wrong.is_some()).count()
}

/// What is wrong with a run, if anything is.
fn difference(wanted: Seen, seen: std::io::Result<Seen>) -> Option<String> {
    match seen {
        Err(error) => Some(format!("could not be run: {error}")),
        Ok(seen) if seen == wanted => None,
        Ok(seen) => Some(format!(
            "{}{}",
            told("wanted", &wanted),
            told("found", &seen)
        )),
    }
}

fn told(who: &str, seen: &Seen) -> String {
    let errors = String::from_utf8_lossy(&seen.errors);
    let output = String::from_utf8_lossy(&seen.output);
    let unread = match seen.unread {
        true => "input left unread",
        false => "all input read",
    };
    format!(
        "{who} {}, {unread}, errors {errors:?}, output\n{output}",
        seen.ended
    )
}

/// One byte changed, one lacking, or one on standard error.
fn spoiled(mut seen: Seen, how: usize) -> Seen {
    let length = seen.output.len().max(1);
    match (how % SPOILED, seen.output.get_mut(how % length)) {
        (0, Some(byte)) => *byte ^= 1 << (how / length % 8),
        (1, _) => drop(seen.output.pop()),
        _ => seen.errors.push(b'!'),
    }
    seen
}

/// The number that the reference refuses with.
fn refusal(judged: &Judged) -> Option<String> {
    let last = judged.wanted.lines().last()?;
    Some(last.strip_prefix("refused ")?.to_string())
}

pub fn verdict(passed: bool) -> &'static str {
    if passed {
        "ok    "
    } else {
        "FAILED"
    }
}

/// Makes the place that all this writes to.
pub fn make_place() -> std::io::Result<()> {
    fs::create_dir_all(PLACE)
}
