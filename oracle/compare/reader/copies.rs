//! The collected bytes copied out, into some places of a larger buffer.

use super::kinds::{mixture, pushed};
use super::model::{Model, MOST_WANTED};
use super::sides::difference;
use super::states;
use super::streams::cut;
use super::told::Reader;
use super::OF;
use crate::frames::{FRAME, LONGEST};
use crate::random::Random;
use crate::told::{ListTold, Told};
use crate::trial::{Part, Trial};

pub const PARTS: [Part; 2] = [
    Part::new(
        OF,
        "copied out: every count of frames, every room about their bytes",
        86 * 32,
        every_room,
    ),
    Part::new(
        OF,
        "copied out: what the Rust's into_bytes has, complete or not",
        40_000,
        after_streams,
    )
    .of_streams(2_000),
];

/// Document 01's numbers: first a bad state, then too little room.
const BAD_STATE: u8 = 8;
const NO_ROOM: u8 = 9;
/// Places of every buffer, of which some are lent.
const PLACES: usize = LONGEST + 100;
/// The lent ones begin here or before.
const LAST_START: usize = 40;

/// Counts one case: the answer, and every place of the buffer. Of a good state these bytes are copied.
fn compare(trial: &mut Trial, reader: &Reader, room: usize, bytes: Option<&[u8]>) {
    let before = trial.random.bytes(PLACES);
    let start = trial.random.below(LAST_START + 1);
    let mut wanted = before.clone();
    let told = match bytes {
        None => ListTold::refused(BAD_STATE),
        Some(bytes) if room < bytes.len() => ListTold::refused(NO_ROOM),
        Some(bytes) => {
            let count = bytes.len();
            wanted[start..start + count].copy_from_slice(bytes);
            ListTold { number: 0, count }
        }
    };
    let left = trial.port.copy_out(reader, before, start, room);
    trial.check(
        (told, None),
        (left.told, difference(&wanted, &left.buffer)),
        || format!("room {room} {}", reader.shown()),
    );
}

/// Room for exactly the bytes, for more, for fewer or for none.
fn any_room(random: &mut Random, exact: usize) -> usize {
    let drawn = random.below(LONGEST + FRAME);
    let rooms = [exact, exact + 1, exact.saturating_sub(1), 0, drawn];
    rooms[random.below(rooms.len())]
}

/// Of a reader given by hand, good or bad.
pub fn compare_given(trial: &mut Trial, reader: &Reader) {
    let model = Model::of(reader);
    let room = any_room(&mut trial.random, reader.collected().len());
    let bytes = model.as_ref().map(|model| &model.collected[..]);
    compare(trial, reader, room, bytes);
}

fn every_room(trial: &mut Trial) {
    for count in (0..=MOST_WANTED).step_by(trial.stride()) {
        let exact = FRAME * count;
        let about = exact.saturating_sub(16)..=exact + 16;
        for room in about.chain([0, LONGEST, LONGEST + FRAME]) {
            let wanted = count + trial.random.below(MOST_WANTED - count + 1);
            let (reader, _) = states::begun_with(&mut trial.random, wanted, count);
            compare(trial, &reader, room, Some(&reader.frames[..exact]));
        }
    }
}

/// Of readers that were pushed, not made by hand.
fn after_streams(trial: &mut Trial) {
    for _ in 0..trial.rounds(2_000) {
        let (asked, stream) = mixture(trial, 20);
        let chunks = cut(&mut trial.random, &stream);
        let some = trial.random.below(chunks.len() + 1);
        if let Some(sides) = pushed(trial, asked, &chunks[..some]) {
            let rust = sides.rust.into_bytes();
            let room = any_room(&mut trial.random, rust.len());
            compare(trial, &sides.ours, rust.len(), Some(&rust));
            compare(trial, &sides.ours, room, Some(&rust));
        }
    }
}
