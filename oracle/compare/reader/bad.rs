//! Readers given by hand in bad states, and in the good ones beside them: every question about them.

use super::copies;
use super::kinds::chunk_size;
use super::model::{bad_state, Model};
use super::port::Way;
use super::sides::{difference, shown, Sides};
use super::states::{waiting, HARMS, NEIGHBOURS};
use super::told::*;
use super::OF;
use crate::told::{CompletedTold, MissingTold, Told};
use crate::trial::{Part, Trial};

pub const PARTS: [Part; 3] = [
    Part::new(
        OF,
        "each kind of bad state, at its edge and beyond (8, nothing touched)",
        6 * 2_000 * 2 * ASKED,
        alone,
    ),
    Part::new(
        OF,
        "several kinds of bad state at once",
        64 * 500 * ASKED,
        together,
    ),
    Part::new(
        OF,
        "the good states beside the bad ones",
        7 * 2_000 * 2 * ASKED,
        beside,
    ),
];

/// Questions about each state: the five pushes, `missing`, completeness and copying out.
const ASKED: u64 = 8;

fn alone(trial: &mut Trial) {
    for (which, harm) in HARMS.into_iter().enumerate() {
        for _ in 0..trial.rounds(2_000) {
            let (mut reader, stream) = waiting(&mut trial.random);
            harm(&mut trial.random, &mut reader);
            let only: [bool; 6] = std::array::from_fn(|reason| reason == which);
            assert_eq!(bad_state(&reader), only, "not this reason alone");
            compare_bad(trial, &reader, &stream);
            compare_bad(trial, &reader, &[]);
        }
    }
}

/// Whichever is made last holds, so the state is bad.
fn together(trial: &mut Trial) {
    for choice in 0..64 {
        for _ in 0..trial.rounds(500) {
            let (mut reader, stream) = waiting(&mut trial.random);
            let chosen = (0..6).filter(|which| choice == 0 || (choice >> which) & 1 == 1);
            let first = trial.random.below(6);
            for which in chosen {
                HARMS[(which + first) % 6](&mut trial.random, &mut reader);
            }
            compare_bad(trial, &reader, &stream);
        }
    }
}

fn beside(trial: &mut Trial) {
    for neighbour in NEIGHBOURS {
        for _ in 0..trial.rounds(2_000) {
            let (mut reader, stream) = waiting(&mut trial.random);
            neighbour(&mut trial.random, &mut reader);
            compare_good(trial, &reader, &stream);
            compare_good(trial, &reader, &[]);
        }
    }
}

/// Every question is answered 8, and every byte stays.
pub fn compare_bad(trial: &mut Trial, reader: &Reader, chunk: &[u8]) {
    assert!(Model::of(reader).is_none(), "a good state");
    for way in Way::all(chunk_size(&mut trial.random)) {
        let after = trial.port.push(way, reader, chunk);
        trial.check(
            (Said::REFUSED, reader.counts, None, None),
            (
                after.said,
                after.reader.counts,
                difference(&reader.frames, &after.reader.frames),
                difference(&FENCE, &after.fence),
            ),
            || format!("{way:?} {} chunk {}", reader.shown(), shown(chunk)),
        );
    }
    compare_told(trial, reader, (Told::refused(8), Told::refused(8)));
    copies::compare_given(trial, reader);
}

pub fn compare_good(trial: &mut Trial, reader: &Reader, chunk: &[u8]) {
    for way in Way::all(chunk_size(&mut trial.random)) {
        let mut sides = Sides::given(reader).expect("a bad state");
        sides.push(trial, way, chunk);
    }
    let model = Model::of(reader).expect("a bad state");
    let missing = MissingTold {
        number: 0,
        missing: model.missing(),
    };
    let completed = CompletedTold {
        number: 0,
        complete: model.is_complete().into(),
    };
    compare_told(trial, reader, (missing, completed));
    copies::compare_given(trial, reader);
}

fn compare_told(trial: &mut Trial, reader: &Reader, wanted: (MissingTold, CompletedTold)) {
    let missing = trial.port.missing(reader);
    trial.check(wanted.0, missing, || reader.shown());
    let completed = trial.port.completed(reader);
    trial.check(wanted.1, completed, || reader.shown());
}
