//! The decoders that store a list in a lent buffer, 95 to 98: what they share.

use crate::frames::{self, FRAME};
use crate::one_frame::Reads;
use crate::original::{self, Listed};
use crate::port::AskList;
use crate::random::Random;
use crate::told::*;
use crate::trial::{Part, Trial};

/// Document 01's number of a buffer shorter than the values.
const NO_ROOM: u8 = 9;
/// Places of every buffer, lent or behind the lent ones.
const PLACES: usize = 300;
/// Places lent at most: more than any list has, also the Rust's.
const MOST_ROOM: usize = 290;

/// A decoder of the port beside the Rust's.
pub trait List {
    const COMMAND: u8;
    /// Values in each numbered frame; none where the reply is one frame without a number.
    const PER: Option<usize>;
    type Place: Place;
    const ASK: AskList<Self::Place>;

    /// What the Rust stores.
    fn rust(reply: &[u8], n: u8) -> Listed<Self::Place>;

    /// The places that a buffer must have.
    fn places(n: u8) -> usize {
        usize::from(n)
    }

    /// A right reply.
    fn reply(random: &mut Random, n: u8) -> Vec<u8> {
        match Self::PER {
            Some(per) => frames::numbered(random, Self::COMMAND, usize::from(n).div_ceil(per)),
            None => frames::reply(random, Self::COMMAND, FRAME),
        }
    }
}

/// The part that every list goes through.
pub const fn room_part<L: List>(of: &'static str) -> Part {
    Part::new(of, "room exact, larger, short and none", 12_000, room::<L>)
}

/// A list whose reply is one frame.
pub struct OneFrame<L>(L);

/// With a count drawn, most often about the edges, and room enough.
impl<L: List> Reads for OneFrame<L> {
    fn command(_: &mut Random) -> u8 {
        L::COMMAND
    }

    fn compare(trial: &mut Trial, reply: &[u8], _: u8, known: Option<u8>) {
        let n = match trial.random.below(4) {
            0 => trial.random.below(3) as u8,
            1 => 46 + trial.random.below(5) as u8,
            _ => trial.random.byte(),
        };
        let room = enough::<L>(&mut trial.random, n);
        compare::<L>(trial, Case { reply, n, room }, known);
    }
}

/// One question: a reply, the count of values, and how many places are lent.
#[derive(Clone, Copy)]
pub struct Case<'a> {
    pub reply: &'a [u8],
    pub n: u8,
    pub room: usize,
}

/// Room enough, and often more.
pub fn enough<L: List>(random: &mut Random, n: u8) -> usize {
    L::places(n) + random.below(MOST_ROOM - L::places(n) + 1) * random.below(2)
}

/// Asks both sides, and counts one case: they must agree in the answer and in every place of the
/// buffer, and where the number is known beforehand it must be theirs.
pub fn compare<L: List>(trial: &mut Trial, case: Case, known: Option<u8>) {
    let before: Vec<L::Place> = (0..PLACES)
        .map(|_| Place::drawn(&mut trial.random))
        .collect();
    let Case { reply, n, room } = case;
    let ours = trial.port.list(L::ASK, reply, n, before.clone(), room);
    let wanted = wanted::<L>(case, before);
    let known = known.unwrap_or(wanted.told.number);
    let differing = first_difference(&wanted.buffer, &ours.buffer);
    trial.check(
        (known, wanted.told, None),
        (ours.told.number, ours.told, differing),
        || format!("n {n} room {room} {}", frames::shown(reply, L::COMMAND)),
    );
}

/// The Rust's answer in the port's form. The Rust makes its own room, so 9 is by document 01's
/// rule: after 1, before all else.
fn wanted<L: List>(case: Case, before: Vec<L::Place>) -> Left<L::Place> {
    let listed = L::rust(case.reply, case.n);
    let number = match original::number(&listed) {
        1 => 1,
        _ if case.room < L::places(case.n) => NO_ROOM,
        number => number,
    };
    let mut wanted = Left {
        told: ListTold::refused(number),
        buffer: before,
    };
    if let (0, Ok(values)) = (number, listed) {
        wanted.told.count = values.len();
        wanted.buffer[..values.len()].copy_from_slice(&values);
    }
    wanted
}

/// The first place where two buffers differ, with what each has there.
fn first_difference<P: Place>(wanted: &[P], found: &[P]) -> Option<(usize, P, P)> {
    (0..PLACES)
        .map(|place| (place, wanted[place], found[place]))
        .find(|(_, wanted, found)| wanted != found)
}

/// Room for exactly the values, for more, for fewer and for none, with replies that are right, cut
/// and damaged: 1 comes before 9, and 9 before every other refusal.
fn room<L: List>(trial: &mut Trial) {
    for n in (0..=255).step_by(trial.stride()) {
        let places = L::places(n);
        let drawn = trial.random.below(MOST_ROOM + 1);
        for room in [
            0,
            places.saturating_sub(1),
            places,
            places + 1,
            drawn,
            MOST_ROOM,
        ] {
            for _ in 0..trial.rounds(4) {
                compare_room::<L>(trial, n, room);
            }
        }
    }
}

fn compare_room<L: List>(trial: &mut Trial, n: u8, room: usize) {
    let ask = |trial: &mut Trial, reply: &[u8], known| {
        compare::<L>(trial, Case { reply, n, room }, known);
    };
    let short = (room < L::places(n)).then_some(NO_ROOM);
    let mut reply = L::reply(&mut trial.random, n);
    ask(trial, &reply, short.or(Some(0)));
    if !reply.is_empty() {
        let place = trial.random.below(reply.len());
        ask(trial, &reply[..place], Some(1));
        reply[place] ^= trial.random.change();
        ask(trial, &reply, short);
    }
}
