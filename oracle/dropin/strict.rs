//! `FrameReader::new_strict`, which the Rust has not (document 02, K1): on streams with echoes, beside the Rust's reader
//! on the same streams, cut alike, in which every echo is exchanged (compare/reader/exchange.rs).

use crate::account::reader;
use crate::answer::Answer;
use crate::discards;
use crate::echoes::{self, ANY};
use crate::question::Question;
use crate::reader::exchange::{exchange, Exchanged};
use crate::reader::model::Model;
use crate::readers::cutting;
use crate::sides::{dropin, rust};
use crate::streams::Asked;
use crate::trial::{Part, Trial};
use daly::protocol::FrameReader;

pub const PARTS: &[Part] = &[
    Part {
        name: "FrameReader::new_strict, streams with echoes for 0 to 85 frames, cut at random",
        minimum: 1_700,
        ask: long,
    },
    Part {
        name: "FrameReader::new_strict, streams with echoes for a few frames, in three cuttings",
        minimum: 10_000,
        ask: short,
    },
    Part {
        name: "FrameReader::new_strict, 511 to 514 discarded bytes, echoes among them",
        minimum: 400,
        ask: over,
    },
    Part {
        name: "account: what became of every byte that a strict reader took, by the reader's rules",
        minimum: 1_700,
        ask: accounts,
    },
    Part {
        name: "account: a refused strict reader takes nothing and counts nothing",
        minimum: 20,
        ask: |trial| reader::refused(trial, FrameReader::new_strict),
    },
];

fn strictly(trial: &mut Trial, asked: Asked, stream: &[u8]) -> Exchanged {
    let reader = Model::new(asked.command, asked.size, true);
    exchange(&mut trial.random, reader, stream)
}

/// The Rust is asked about the exchanged stream.
fn read(trial: &mut Trial, asked: Asked, stream: Vec<u8>, cuttings: Vec<Vec<usize>>) {
    let exchanged = strictly(trial, asked, &stream).bytes;
    let request = asked.request(&mut trial.random);
    let size = asked.size;
    let found = dropin::read(FrameReader::new_strict, &request, size, &stream, &cuttings);
    let wanted = rust::answer(&Question::Read {
        request: request.clone(),
        size,
        stream: exchanged,
        cuttings: cuttings.clone(),
    });
    let question = Question::Read {
        request,
        size,
        stream,
        cuttings,
    };
    trial.judge(&wanted, Answer::Values(found), &question);
}

/// Each has an echo that the rules find, but those to a reader that wants no frame.
fn drawn(trial: &mut Trial, wanted: usize) -> (Asked, Vec<u8>) {
    let asked = Asked::drawn(&mut trial.random, wanted);
    loop {
        let stream = echoes::stream(&mut trial.random, asked, ANY);
        if wanted == 0 || strictly(trial, asked, &stream).has_echo() {
            return (asked, stream);
        }
    }
}

fn long(trial: &mut Trial) {
    for wanted in 0..=85 {
        for _ in 0..trial.rounds(20) {
            let (asked, stream) = drawn(trial, wanted);
            let at_random = cutting(&mut trial.random, &stream);
            read(trial, asked, stream, vec![at_random]);
        }
    }
}

fn short(trial: &mut Trial) {
    for _ in 0..trial.rounds(10_000) {
        let wanted = 1 + trial.random.below(4);
        let (asked, stream) = drawn(trial, wanted);
        let at_random = cutting(&mut trial.random, &stream);
        let cuttings = vec![at_random, vec![stream.len()], vec![1; stream.len()]];
        read(trial, asked, stream, cuttings);
    }
}

fn over(trial: &mut Trial) {
    for count in 511..=514 {
        for _ in 0..trial.rounds(100) {
            let random = &mut trial.random;
            let wanted = 1 + random.below(3);
            let asked = Asked::drawn(random, wanted);
            let mut stream = discards::thrown(random, asked, count, echoes::numbered);
            for number in 1..=wanted {
                stream.extend(echoes::from_board(random, asked, number));
            }
            let at_random = cutting(random, &stream);
            read(trial, asked, stream, vec![at_random]);
        }
    }
}

fn accounts(trial: &mut Trial) {
    for wanted in 0..=85 {
        for _ in 0..trial.rounds(20) {
            let (asked, stream) = drawn(trial, wanted);
            reader::push(trial, asked, &stream, true);
        }
    }
}
