//! The writers of replies, twice: every byte beside a plain model of document 02, and what is written through the
//! Rust's decoders and its `FrameReader`.

mod acknowledged;
mod flags;
mod known;
mod lists;
mod model;
mod port;
mod records;

use crate::frames::FRAME;
use crate::original;
use crate::random::Random;
use crate::told::{Left, ListTold, Told};
use crate::trial::{Part, Trial};
use dalybms_lib::protocol::{exposed, FrameReader};
use port::{FENCE, NO_ROOM};
use std::fmt::Debug;

/// Drawn inputs of a writer: ten of one frame and two of lists are 10^7 together.
const ONE_FRAME: u64 = 900_000;
const LIST: u64 = 500_000;

pub fn parts() -> Vec<Part> {
    [
        &records::parts()[..],
        &lists::parts(),
        &flags::parts(),
        &acknowledged::parts(),
        known::PARTS,
    ]
    .concat()
}

/// The parts that every writer goes through.
fn of_writer<W: Writer>(of: &'static str, drawn_inputs: u64) -> [Part; 3] {
    [
        Part::new(
            of,
            "drawn inputs beside the model",
            drawn_inputs,
            drawn::<W>,
        ),
        Part::new(
            of,
            "drawn inputs read by the Rust",
            drawn_inputs,
            read_back::<W>,
        ),
        Part::new(
            of,
            "every address, every room about the reply",
            256 * 8,
            addresses::<W>,
        ),
    ]
}

/// A writer of the port, with what document 02 has it write and what the Rust makes of that.
pub trait Writer {
    const COMMAND: u8;
    /// How many inputs a full run draws.
    const DRAWN: u64;
    type Input: Debug;
    /// What the Rust's decoder says.
    type Read: PartialEq + Debug;

    /// Any input; one that is accepted where that is asked.
    fn drawn(random: &mut Random, accepted: bool) -> Self::Input;

    /// # Safety
    ///
    /// `out` has `room` places, alive and lent to nobody else.
    unsafe fn ask(address: u8, input: &Self::Input, out: *mut u8, room: usize) -> ListTold;

    /// The reply, or why there is none; that there is no room comes after that.
    fn model(address: u8, input: &Self::Input) -> Result<Vec<u8>, u8>;

    fn read(reply: &[u8], input: &Self::Input) -> Self::Read;
    /// What it is to be.
    fn meant(input: &Self::Input) -> Self::Read;

    /// The bytes that the Rust expects.
    fn size(_: &Self::Input) -> usize {
        FRAME
    }
}

/// One question, but for its input.
#[derive(Clone, Copy, Debug)]
pub struct Lent {
    pub address: u8,
    pub room: usize,
}

/// The first place where two buffers differ, with what each has there.
fn first_difference(wanted: &[u8], found: &[u8]) -> Option<(usize, u8, u8)> {
    if wanted == found {
        return None;
    }
    let mut places = wanted.iter().zip(found).enumerate();
    places
        .find(|(_, (wanted, found))| wanted != found)
        .map(|(place, (wanted, found))| (place, *wanted, *found))
}

/// What the model leaves of a buffer. Nothing is written but a whole reply.
fn wanted<W: Writer>(input: &W::Input, lent: Lent, before: Vec<u8>) -> Left<u8> {
    let reply = match W::model(lent.address, input) {
        Ok(reply) if reply.len() > lent.room => Err(NO_ROOM),
        told => told,
    };
    let mut left = Left {
        told: ListTold::refused(reply.as_ref().err().copied().unwrap_or(0)),
        buffer: before,
    };
    if let Ok(reply) = reply {
        left.told.count = reply.len();
        left.buffer[FENCE..FENCE + reply.len()].copy_from_slice(&reply);
    }
    left
}

/// Counts one case: the answer and the whole buffer must be the model's.
fn beside_model<W: Writer>(trial: &mut Trial, input: &W::Input, lent: Lent) {
    let before = port::buffer(&mut trial.random, lent.room);
    let ours = trial.port.write::<W>(input, lent, before.clone());
    let wanted = wanted::<W>(input, lent, before);
    let differing = first_difference(&wanted.buffer, &ours.buffer);
    trial.check((wanted.told, None), (ours.told, differing), || {
        format!("{lent:02X?} {input:?}")
    });
}

/// What the Rust's reader has collected, to the end.
#[derive(Debug, PartialEq)]
struct Collected {
    number: u8,
    complete: bool,
    missing: usize,
    discarded: usize,
    pending: usize,
    just_these: bool,
}

/// All of it in drawn pieces, empty ones among them.
fn collected(random: &mut Random, command: u8, size: usize, reply: &[u8]) -> Collected {
    let mut reader = FrameReader::new(&[0xA5, 0x40, command], size);
    let most = 1 + random.below(reply.len() + 1);
    let mut number = 0;
    let mut rest = reply;
    while !rest.is_empty() {
        let (piece, behind) = rest.split_at(random.below(most + 1).min(rest.len()));
        number = original::number(&reader.push(piece)).max(number);
        rest = behind;
    }
    let fields = exposed::reader_fields(&reader);
    Collected {
        number,
        complete: reader.is_complete(),
        missing: reader.missing(),
        discarded: fields.discarded,
        pending: fields.pending.len(),
        just_these: reader.into_bytes() == reply,
    }
}

/// Just the reply, and at once.
const IN_STEP: Collected = Collected {
    number: 0,
    complete: true,
    missing: 0,
    discarded: 0,
    pending: 0,
    just_these: true,
};

/// Counts one case, of an input that is accepted: the Rust must read what was meant and collect what was written.
fn by_rust<W: Writer>(trial: &mut Trial, input: &W::Input, lent: Lent) {
    let before = port::buffer(&mut trial.random, lent.room);
    let ours = trial.port.wrote::<W>(input, lent, before);
    let size = W::size(input);
    let told = ListTold {
        number: 0,
        count: size,
    };
    let found = (ours.told == told).then(|| {
        let reader = collected(&mut trial.random, W::COMMAND, size, &ours.bytes);
        (W::read(&ours.bytes, input), reader)
    });
    let wanted = Some((W::meant(input), IN_STEP));
    trial.check((told, wanted), (ours.told, found), || {
        format!("{lent:02X?} {input:?} written {:02X?}", ours.bytes)
    });
}

/// Both, the second where a reply is written.
fn compare<W: Writer>(trial: &mut Trial, input: &W::Input, lent: Lent) {
    beside_model::<W>(trial, input, lent);
    if W::model(lent.address, input).is_ok_and(|reply| reply.len() <= lent.room) {
        by_rust::<W>(trial, input, lent);
    }
}

/// A board's, the host's, or any.
fn address(random: &mut Random) -> u8 {
    match random.below(8) {
        0 => 0x01,
        1 => 0x40,
        _ => random.byte(),
    }
}

/// Every other room is about the reply or about a frame, short ones among them.
fn about(random: &mut Random, size: usize) -> usize {
    match random.below(8) {
        0 => random.below(size + 1),
        1 => (size + random.below(3)).saturating_sub(1),
        2 => FRAME - 1 + random.below(3),
        3 => size,
        _ => size + random.below(30),
    }
}

fn drawn<W: Writer>(trial: &mut Trial) {
    for _ in 0..trial.rounds(W::DRAWN) {
        let random = &mut trial.random;
        let input = W::drawn(random, false);
        let (address, room) = (address(random), about(random, W::size(&input)));
        beside_model::<W>(trial, &input, Lent { address, room });
    }
}

fn read_back<W: Writer>(trial: &mut Trial) {
    for _ in 0..trial.rounds(W::DRAWN) {
        let random = &mut trial.random;
        let input = W::drawn(random, true);
        let room = W::size(&input) + random.below(20) * random.below(2);
        let address = address(random);
        by_rust::<W>(trial, &input, Lent { address, room });
    }
}

/// None, a frame's and the reply's, one less and one more of each, and much.
fn rooms(size: usize) -> [usize; 8] {
    let short = size.saturating_sub(1);
    [
        0,
        FRAME - 1,
        FRAME,
        FRAME + 1,
        short,
        size,
        size + 1,
        size + 2 * FRAME,
    ]
}

fn in_every_room<W: Writer>(trial: &mut Trial, input: &W::Input, address: u8) {
    for room in rooms(W::size(input)) {
        compare::<W>(trial, input, Lent { address, room });
    }
}

fn addresses<W: Writer>(trial: &mut Trial) {
    for address in (0..=255).step_by(trial.stride()) {
        let input = W::drawn(&mut trial.random, false);
        in_every_room::<W>(trial, &input, address);
    }
}
