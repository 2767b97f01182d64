//! Strict mode (document 02, K1): the port beside the model on streams with echoes, and beside both the Rust on the same
//! streams, cut alike, in which every echo is exchanged (exchange.rs).

mod covered;
mod known;

use super::bad;
use super::discards;
use super::echoes;
use super::exchange::{exchange, Exchanged};
use super::had;
use super::kinds::way;
use super::model::{Model, MOST_WANTED};
use super::opened;
use super::over;
use super::sides::{difference, shown, Sides};
use super::states::{self, HARMS};
use super::streams::{self, cut, Asked, Make, Thing};
use super::wraps;
use crate::random::Random;
use crate::told::Flag;
use crate::trial::{Outcome, Part, Trial};
use dalybms_lib::protocol::exposed;

pub const OF: &str = "FrameReader, strict";

/// Streams of one kind for every count of frames, and for the few that most replies have.
const LONG: u64 = 2;
const SHORT: u64 = 14_500;
const EACH: u64 = LONG * (MOST_WANTED as u64 + 1) + SHORT;
/// Every so many streams one is pushed byte by byte as well.
const BYTE_BY_BYTE: u64 = 4;

/// Demanded of all parts together.
const STREAMS: u64 = 100_000;
const PUSHES: u64 = 5_000_000;

pub fn parts() -> Vec<Part> {
    [&KINDS[..], &STATES, &opened::STRICT, &known::PARTS].concat()
}

const KINDS: [Part; 8] = [
    kind("our question as it was sent", |trial| {
        of_kind(trial, echoes::AS_SENT)
    }),
    kind(
        "echoes numbered 1, as the next frame, or otherwise",
        |trial| of_kind(trial, echoes::NUMBERED),
    ),
    kind(
        "echoes with start bytes, or right frames begun inside",
        |trial| of_kind(trial, echoes::WITH_STARTS),
    ),
    kind("echoes behind noise, and several in a row", |trial| {
        of_kind(trial, echoes::BEHIND_OTHERS)
    }),
    kind("echoes where the board begins again", |trial| {
        of_kind(trial, echoes::AMONG_RESTARTS)
    }),
    kind(
        "our address with another command, a wrong sum, or cut off",
        |trial| of_kind(trial, echoes::BESIDE_NO_ECHOES),
    ),
    kind("mixtures", |trial| of_kind(trial, echoes::ANY)),
    Part::new(OF, "streams as the other mode has them", 60_000, others).of_streams(8 * 200),
];

const STATES: [Part; 3] = [
    Part::new(
        OF,
        "511 to 514 discarded, echoes among them",
        100_000,
        about_512,
    )
    .of_streams(4 * 2 * 2 * 100),
    Part::new(
        OF,
        "readers given by hand that hold bytes, and whose counts wrap",
        40_000,
        given,
    )
    .of_streams(6_000),
    Part::new(
        OF,
        "each kind of bad state (8, nothing touched)",
        6 * 500 * 8,
        bad_states,
    ),
];

const fn kind(what: &'static str, run: fn(&mut Trial)) -> Part {
    Part::new(OF, what, 20 * EACH, run).of_streams(EACH)
}

fn of_kind(trial: &mut Trial, things: &[Thing]) {
    for wanted in (0..=MOST_WANTED).step_by(trial.stride()) {
        for _ in 0..trial.rounds(LONG) {
            with_echoes(trial, wanted, things);
        }
    }
    for _ in 0..trial.rounds(SHORT) {
        let wanted = 1 + trial.random.below(4);
        with_echoes(trial, wanted, things);
    }
}

/// In each the rules find an echo, but in those to a reader that wants no frame.
fn with_echoes(trial: &mut Trial, wanted: usize, things: &[Thing]) {
    let asked = Asked::drawn(&mut trial.random, wanted);
    loop {
        let stream = echoes::stream(&mut trial.random, asked, things);
        let exchanged = strictly(trial, asked, &stream);
        if wanted == 0 || exchanged.has_echo() {
            return compare(trial, asked, &stream, &exchanged);
        }
    }
}

/// Echoes are in them too, and now and then a frame of the board has our address by accident.
fn others(trial: &mut Trial) {
    let makes: [Make; 8] = [
        streams::clean,
        streams::all_starts,
        streams::inside_thrown,
        streams::echoes,
        streams::restarts,
        streams::damaged,
        streams::drawn,
        streams::mixed,
    ];
    for make in makes {
        for _ in 0..trial.rounds(200) {
            let wanted = trial.random.below(12);
            let asked = Asked::drawn(&mut trial.random, wanted);
            let stream = make(&mut trial.random, asked);
            let exchanged = strictly(trial, asked, &stream);
            compare(trial, asked, &stream, &exchanged);
        }
    }
}

/// A stream in every cutting, each to a reader of its own.
fn compare(trial: &mut Trial, asked: Asked, stream: &[u8], exchanged: &Exchanged) {
    trial.streams += 1;
    covered::note(trial, asked.wanted, stream, exchanged);
    pushed(trial, asked, stream, exchanged, &[stream.len(), 0]);
    let at_random = cut_anyhow(&mut trial.random, stream);
    pushed(trial, asked, stream, exchanged, &at_random);
    if trial.streams % BYTE_BY_BYTE == 0 {
        trial.saw(covered::BYTE_BY_BYTE, 0);
        pushed(trial, asked, stream, exchanged, &vec![1; stream.len()]);
    }
}

fn strictly(trial: &mut Trial, asked: Asked, stream: &[u8]) -> Exchanged {
    let reader = Model::new(asked.command, asked.size, true);
    exchange(&mut trial.random, reader, stream)
}

/// The lengths of the chunks.
pub fn cut_anyhow(random: &mut Random, stream: &[u8]) -> Vec<usize> {
    cut(random, stream).into_iter().map(<[u8]>::len).collect()
}

fn pushed(
    trial: &mut Trial,
    asked: Asked,
    stream: &[u8],
    exchanged: &Exchanged,
    cutting: &[usize],
) -> Option<Sides> {
    let mut sides = Sides::opened(trial, asked, true)?;
    let right = push_all(trial, &mut sides, stream, &exchanged.bytes, cutting);
    (right && ends_alike(trial, &sides, stream)).then_some(sides)
}

/// Both streams, cut alike.
pub fn push_all(
    trial: &mut Trial,
    sides: &mut Sides,
    stream: &[u8],
    exchanged: &[u8],
    cutting: &[usize],
) -> bool {
    let (mut ours, mut theirs) = (stream, exchanged);
    cutting.iter().all(|length| {
        let (chunk, behind) = ours.split_at(*length);
        let (beside, behind_it) = theirs.split_at(*length);
        (ours, theirs) = (behind, behind_it);
        let way = way(&mut trial.random);
        sides.push_beside(trial, way, chunk, beside)
    })
}

/// At the end once more, the port beside the Rust and no model between them. What is held then is of no echo that was
/// exchanged; once complete, the Rust has what came behind.
fn ends_alike(trial: &mut Trial, sides: &Sides, stream: &[u8]) -> bool {
    let (ours, rust) = (&sides.ours, exposed::reader_fields(&sides.rust));
    let held = match sides.rust.is_complete() {
        true => &[],
        false => rust.pending,
    };
    let counts = ours.counts;
    let all = trial.port.discarded_all(counts.discarded);
    trial.agrees(
        (
            rust.command,
            rust.n_frames,
            rust.discarded as u32,
            [None; 2],
        ),
        (
            counts.command,
            counts.wanted,
            all,
            [
                difference(rust.frames, ours.collected()),
                difference(held, ours.held()),
            ],
        ),
        || format!("{} stream {}", ours.shown(), shown(stream)),
    )
}

/// Echoes and noise of a known length, then the board's frames, all or all but one.
fn about_512(trial: &mut Trial) {
    for case in 0..4 * 2 * 2 {
        for _ in 0..trial.rounds(100) {
            let (count, complete, whole) = (511 + case % 4, case / 4 % 2, case / 8);
            let random = &mut trial.random;
            let wanted = 1 + random.below(3);
            let asked = Asked::drawn(random, wanted);
            let mut stream = discards::thrown(random, asked, count, echoes::numbered);
            for number in 1..wanted + complete {
                stream.extend(echoes::from_board(random, asked, number));
            }
            let cutting = match whole {
                1 => vec![stream.len()],
                _ => cut_anyhow(random, &stream),
            };
            trial.streams += 1;
            let exchanged = strictly(trial, asked, &stream);
            covered::note(trial, wanted, &stream, &exchanged);
            if let Some(sides) = pushed(trial, asked, &stream, &exchanged, &cutting) {
                over::check_count(trial, &sides, count);
            }
        }
    }
}

/// What is held can be the beginning of an echo.
fn given(trial: &mut Trial) {
    for round in 0..trial.rounds(6_000) {
        let random = &mut trial.random;
        let wanted = 1 + random.below(6);
        let collected = random.below(wanted);
        let asked = Asked::drawn(random, wanted);
        let stream = echoes::onward(random, asked, collected + 1);
        let (mut reader, stream) = states::holding(random, asked, collected, stream);
        reader.counts.strict = Flag(1);
        wraps::wrap_soon(random, &mut reader.counts, round);
        let model = Model::of(&reader).expect("a bad state");
        let exchanged = exchange(random, model, &stream);
        if reader.counts.held > 0 && exchanged.begins_with_echo() {
            trial.saw(covered::HELD_ALREADY, 0);
        }
        let (held, beside) = exchanged.bytes.split_at(reader.counts.held);
        let cutting = cut_anyhow(&mut trial.random, &stream);
        trial.streams += 1;
        let mut sides = Sides::given_beside(&reader, held).expect("a bad state");
        push_all(trial, &mut sides, &stream, beside, &cutting);
    }
}

/// The mode makes no state bad and none good.
fn bad_states(trial: &mut Trial) {
    for harm in HARMS {
        for _ in 0..trial.rounds(500) {
            let (mut reader, stream) = states::waiting(&mut trial.random);
            harm(&mut trial.random, &mut reader);
            reader.counts.strict = Flag(1);
            bad::compare_bad(trial, &reader, &stream);
        }
    }
}

/// Whether the parts together had streams, pushes and all that there is to meet.
pub fn enough(outcomes: &[Outcome]) -> Vec<bool> {
    let mut passed = vec![had(OF, outcomes, STREAMS, PUSHES)];
    passed.extend(covered::all(outcomes));
    passed
}
