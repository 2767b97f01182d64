//! Document 02's five counts in place of one (K3), in both modes: bytes whose reason is known from their making, counts that
//! wrap alone, and five that stand for 512 or 513, by themselves or once their sum has wrapped.

use super::bad;
use super::discards::{before_start, have_wrong_sums, wrong_sum};
use super::echoes;
use super::exchange::exchange;
use super::kinds::way;
use super::model::{Model, MOST_DISCARDED, MOST_WANTED};
use super::saw_enough;
use super::sides::{shown, Sides};
use super::states;
use super::streams::{self, Asked};
use super::strict::{cut_anyhow, push_all};
use super::told::{Counts, Discarded, Reader};
use crate::frames::{self, FRAME, HOST, START};
use crate::random::Random;
use crate::told::Flag;
use crate::trial::{Outcome, Part, Trial};

const OF: &str = "FrameReader, five counts";

/// Streams for every count of frames, and for the few that most replies have.
const LONG: u64 = 2;
const SHORT: u64 = 6_000;
const EACH: u64 = LONG * MOST_WANTED as u64 + SHORT;

pub const PARTS: [Part; 6] = [
    Part::new(
        OF,
        "their sum modulo 2^32, by itself",
        25 * 49 + 200_000,
        sums,
    ),
    Part::new(OF, "bytes whose reason is known", 20 * EACH, |trial| {
        known(trial, false)
    })
    .of_streams(EACH),
    Part::new(
        OF,
        "bytes whose reason is known, strict",
        20 * EACH,
        |trial| known(trial, true),
    )
    .of_streams(EACH),
    Part::new(
        OF,
        "each count alone wraps from 4,294,967,295",
        9 * 600 * 3,
        each_wraps,
    )
    .of_streams(9 * 600),
    Part::new(
        OF,
        "512 and 513 made of five, and 1 to 4 times 2^32 more",
        2 * 5 * 2 * 300 * 8,
        about_512,
    ),
    Part::new(
        OF,
        "512 made of five without the mark, and one byte more",
        5 * 300 * 4,
        one_more,
    )
    .of_streams(5 * 300),
];

/// What is met in the streams whose reasons are known, in either mode; the number is the reason's place among the five.
const MET: [&str; 2] = [
    "streams with bytes thrown for a reason, the fewest for any of four",
    "strict streams with bytes thrown for a reason, the fewest for any of five",
];

/// Numbers about which a sum goes wrong.
const EDGES: [u32; 7] = [0, 1, 512, 513, 1 << 31, u32::MAX - 1, u32::MAX];

/// Each of the five with each, and drawn ones.
fn sums(trial: &mut Trial) {
    for pair in 0..25 {
        for numbers in 0..49 {
            let mut counts = [0; 5];
            counts[pair / 5] = EDGES[numbers / 7];
            counts[pair % 5] = EDGES[numbers % 7];
            check_sum(trial, counts);
        }
    }
    for _ in 0..trial.rounds(200_000) {
        let counts = [(); 5].map(|()| trial.random.word() >> trial.random.below(32));
        check_sum(trial, counts);
    }
}

fn check_sum(trial: &mut Trial, counts: [u32; 5]) {
    let wanted = counts.map(u64::from).iter().sum::<u64>() % (1 << 32);
    let found = trial.port.discarded_all(Discarded::of(counts));
    trial.check(wanted, found.into(), || format!("{counts:?}"));
}

fn known(trial: &mut Trial, strict: bool) {
    for wanted in (1..=MOST_WANTED).step_by(trial.stride()) {
        for _ in 0..trial.rounds(LONG) {
            compare(trial, wanted, strict);
        }
    }
    for _ in 0..trial.rounds(SHORT) {
        let wanted = 1 + trial.random.below(4);
        compare(trial, wanted, strict);
    }
}

/// A stream whole and cut at random: the five are then what it was made of.
fn compare(trial: &mut Trial, wanted: usize, strict: bool) {
    let asked = Asked::drawn(&mut trial.random, wanted);
    let (stream, thrown) = made(&mut trial.random, asked, strict);
    trial.streams += 1;
    for (why, _) in (0..).zip(thrown).filter(|(_, bytes)| *bytes > 0) {
        trial.saw(MET[usize::from(strict)], why);
    }
    let over = thrown.iter().sum::<u32>() > MOST_DISCARDED as u32;
    let model = Model::new(asked.command, asked.size, strict);
    let exchanged = exchange(&mut trial.random, model, &stream).bytes;
    for cutting in [vec![stream.len()], cut_anyhow(&mut trial.random, &stream)] {
        let Some(mut sides) = Sides::opened(trial, asked, strict) else {
            return;
        };
        if push_all(trial, &mut sides, &stream, &exchanged, &cutting) {
            let counts = sides.ours.counts;
            trial.check(
                (Discarded::of(thrown), over.into(), wanted),
                (counts.discarded, counts.mark, counts.collected),
                || shown(&stream),
            );
        }
    }
}

/// A whole reply, and between its frames as many bytes as may be thrown away, or about so many, or fewer: with the reasons.
fn made(random: &mut Random, asked: Asked, strict: bool) -> (Vec<u8>, [u32; 5]) {
    let mut rest = match random.below(2) {
        0 => 511 + random.below(4),
        _ => random.below(200),
    };
    let (mut stream, mut thrown) = (Vec::new(), [0; 5]);
    for number in 1..=asked.wanted {
        let mut here = match number == asked.wanted {
            true => rest,
            false => random.below(rest + 1),
        };
        rest -= here;
        while here > 0 {
            let (bytes, why) = piece(random, asked, number, strict, here);
            here -= bytes.len();
            stream.extend(bytes);
            thrown = std::array::from_fn(|place| thrown[place] + why[place]);
        }
        let frame = echoes::from_board(random, asked, number);
        stream.extend(addressed(random, frame, !strict));
    }
    (stream, thrown)
}

/// Some bytes before the frame with this number, at most so many, and what they add to each count.
fn piece(
    random: &mut Random,
    asked: Asked,
    number: usize,
    strict: bool,
    most: usize,
) -> (Vec<u8>, [u32; 5]) {
    let kinds = if most < FRAME { 1 } else { 5 };
    match random.below(kinds) {
        1 => (wrong_sum(random, asked, number), [12, 1, 0, 0, 0]),
        2 => {
            let frame = streams::other_command(random, asked, number);
            (addressed(random, frame, true), [0, 0, 13, 0, 0])
        }
        3 if asked.wanted > 1 => {
            let frame = streams::other_number(random, asked, number);
            (addressed(random, frame, !strict), [0, 0, 0, 13, 0])
        }
        4 if strict => (echoes::numbered(random, asked, number), [0, 0, 0, 0, 13]),
        _ => {
            let count = 1 + random.below(most.min(20));
            let bytes = before_start(random, asked, count);
            (bytes, [count as u32, 0, 0, 0, 0])
        }
    }
}

/// The frame with the board's address or, where it may be, every other time with ours.
fn addressed(random: &mut Random, mut frame: Vec<u8>, ours: bool) -> Vec<u8> {
    frame[1] = match random.below(2) {
        0 if ours => HOST,
        _ => 0x01,
    };
    frames::put_sum(&mut frame);
    frame
}

/// In each mode, but for echoes: without strict mode there are none.
fn each_wraps(trial: &mut Trial) {
    for (why, strict) in (0..9).map(|case| (case % 5, case < 5)) {
        for _ in 0..trial.rounds(600) {
            let wanted = 2 + trial.random.below(4);
            let asked = Asked::drawn(&mut trial.random, wanted);
            let (stream, bytes) = alone(&mut trial.random, asked, why, strict);
            let mut counts = [(); 5].map(|()| trial.random.word());
            let fewer = [0, trial.random.below(bytes)][trial.random.below(2)];
            counts[why] = u32::MAX - fewer as u32;
            let reader = given(&mut trial.random, asked, strict, Flag(1), counts);
            counts[why] = (bytes - 1 - fewer) as u32;
            trial.streams += 1;
            let model = Model::of(&reader).expect("a bad state");
            let exchanged = exchange(&mut trial.random, model, &stream).bytes;
            let cutting = cut_anyhow(&mut trial.random, &stream);
            let mut sides = Sides::given(&reader).expect("a bad state");
            if push_all(trial, &mut sides, &stream, &exchanged, &cutting) {
                let found = sides.ours.counts;
                trial.check(
                    (Discarded::of(counts), Flag(1), 1),
                    (found.discarded, found.mark, found.collected),
                    || format!("{} stream {}", reader.shown(), shown(&stream)),
                );
            }
        }
    }
}

/// Bytes thrown for one reason and no other, and behind them frame 1; and how many those are.
fn alone(random: &mut Random, asked: Asked, why: usize, strict: bool) -> (Vec<u8>, usize) {
    loop {
        let few = 1 + random.below(20);
        let bytes = match why {
            0 => before_start(random, asked, few),
            1 => vec![START; few],
            2 => streams::other_command(random, asked, 1),
            3 => {
                let frame = streams::other_number(random, asked, 1);
                addressed(random, frame, !strict)
            }
            _ => echoes::numbered(random, asked, 1),
        };
        let stream = [&bytes[..], &echoes::from_board(random, asked, 1)].concat();
        if why != 1 || have_wrong_sums(&stream, few) {
            return (stream, bytes.len());
        }
    }
}

/// A reader that has neither collected nor held anything, with these counts.
fn given(random: &mut Random, asked: Asked, strict: bool, mark: Flag, thrown: [u32; 5]) -> Reader {
    let mut reader = Reader::ZERO;
    random.fill(&mut reader.frames);
    reader.counts = Counts {
        command: asked.command,
        mark,
        strict: strict.into(),
        taken: random.word(),
        discarded: Discarded::of(thrown),
        cleared: random.word(),
        wanted: asked.wanted,
        ..Counts::ZERO
    };
    reader
}

/// Five counts that stand for this one, 512 or more: about a fifth in each, or such that their sum is so often 2^32 more.
fn standing_for(random: &mut Random, all: u32, wraps: u64) -> [u32; 5] {
    let mut counts = [103, 103, 103, 103, all - 412];
    while wraps > 0 {
        counts = [(); 5].map(|()| random.word());
        let others = counts[1..].iter().map(|count| u64::from(*count)).sum();
        let first = ((wraps << 32) + u64::from(all)).checked_sub(others);
        if let Some(first) = first.and_then(|first| u32::try_from(first).ok()) {
            counts[0] = first;
            break;
        }
    }
    counts.rotate_left(random.below(5));
    counts
}

/// Only 513 without the mark is a bad state, whatever the five are by themselves.
fn about_512(trial: &mut Trial) {
    for case in 0..2 * 2 * 5 {
        for _ in 0..trial.rounds(300) {
            let (all, mark, wraps) = (512 + case % 2, case / 2 % 2, case / 4);
            let (mut reader, stream) = states::waiting(&mut trial.random);
            let five = standing_for(&mut trial.random, all, wraps.into());
            reader.counts.discarded = Discarded::of(five);
            reader.counts.mark = Flag(mark as u8);
            match (all, mark) {
                (513, 0) => {
                    reader.counts.strict = Flag(trial.random.below(2) as u8);
                    bad::compare_bad(trial, &reader, &stream);
                }
                _ => bad::compare_good(trial, &reader, &stream),
            }
        }
    }
}

/// Nothing is pushed, and then one byte that is thrown away.
fn one_more(trial: &mut Trial) {
    for wraps in 0..5 {
        for _ in 0..trial.rounds(300) {
            let wanted = 1 + trial.random.below(4);
            let asked = Asked::drawn(&mut trial.random, wanted);
            let mut five = standing_for(&mut trial.random, 512, wraps);
            let strict = trial.random.below(2) == 1;
            let reader = given(&mut trial.random, asked, strict, Flag(0), five);
            trial.streams += 1;
            let mut sides = Sides::given(&reader).expect("a bad state");
            for (chunk, status) in [(&[][..], 0), (&[0], 2)] {
                let way = way(&mut trial.random);
                if !sides.push(trial, way, chunk) {
                    break;
                }
                five[0] = five[0].wrapping_add(chunk.len() as u32);
                let counts = sides.ours.counts;
                trial.check(
                    (status, Flag(status / 2), Discarded::of(five)),
                    (sides.said.status, counts.mark, counts.discarded),
                    || reader.shown(),
                );
            }
        }
    }
}

/// Whether each reason was met in either mode.
pub fn enough(outcomes: &[Outcome]) -> [bool; 2] {
    [
        saw_enough(OF, outcomes, MET[0], 0..=3, 3_000),
        saw_enough(OF, outcomes, MET[1], 0..=4, 3_000),
    ]
}
