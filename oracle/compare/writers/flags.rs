//! The replies that carry flags, 97 and 98.

use super::port::*;
use super::{in_every_room, model, of_writer, Writer, ONE_FRAME};
use crate::original;
use crate::random::Random;
use crate::told::{Flag, ListTold};
use crate::trial::{Part, Trial};

pub fn parts() -> Vec<Part> {
    [
        &of_writer::<CellBalanceState>("write_cell_balance_state", ONE_FRAME)[..],
        &of_writer::<ErrorCodes>("write_error_codes", ONE_FRAME),
        OTHERS,
    ]
    .concat()
}

const OTHERS: &[Part] = &[
    Part::new(
        "write_cell_balance_state",
        "every length to 300, in every room",
        301 * 8,
        lengths,
    ),
    Part::new(
        "write_cell_balance_state",
        "each flag alone in every length to 50, in every room",
        51 * 25 * 8,
        each_flag,
    ),
    Part::new(
        "write_error_codes",
        "no fault, all, each alone and with every other, in every room",
        (2 + 48 * 48) * 8,
        pairs,
    ),
];

const FAULTS: usize = 48;

fn flags(random: &mut Random, length: usize) -> Vec<bool> {
    let (one, other) = (random.next(), random.next());
    (0..length)
        .map(|place| (one.rotate_left(place as u32) ^ (other >> (place % 61))) & 1 != 0)
        .collect()
}

pub struct CellBalanceState;

impl Writer for CellBalanceState {
    const COMMAND: u8 = 0x97;
    const DRAWN: u64 = ONE_FRAME;
    type Input = Vec<bool>;
    type Read = Result<Vec<Flag>, u8>;

    /// Where any will do, one in eight is empty or too long.
    fn drawn(random: &mut Random, accepted: bool) -> Vec<bool> {
        let length = match random.below(32) {
            0 if !accepted => 0,
            1 if !accepted => 49 + random.below(252),
            2 if !accepted => [49, 255, 256, 257][random.below(4)],
            _ => 1 + random.below(48),
        };
        flags(random, length)
    }

    unsafe fn ask(address: u8, input: &Vec<bool>, out: *mut u8, room: usize) -> ListTold {
        // SAFETY: the caller's; the flags are a live slice.
        unsafe { daly_write_cell_balance_state(address, input.as_ptr(), input.len(), out, room) }
    }

    fn model(address: u8, input: &Vec<bool>) -> Result<Vec<u8>, u8> {
        model::cell_balance_state(address, input)
    }

    fn read(reply: &[u8], input: &Vec<bool>) -> Self::Read {
        let read = original::cell_balance_state(reply, input.len() as u8);
        let number = original::number(&read);
        read.map_err(|_| number)
    }

    fn meant(input: &Vec<bool>) -> Self::Read {
        Ok(input.iter().copied().map(Flag::from).collect())
    }
}

fn lengths(trial: &mut Trial) {
    for length in 0..=300 {
        let (address, input) = (trial.random.byte(), flags(&mut trial.random, length));
        in_every_room::<CellBalanceState>(trial, &input, address);
    }
}

fn each_flag(trial: &mut Trial) {
    for length in (1..=50).step_by(trial.stride().min(7)) {
        for place in 0..length {
            let mut input = vec![false; length];
            input[place] = true;
            let address = trial.random.byte();
            in_every_room::<CellBalanceState>(trial, &input, address);
        }
    }
}

pub struct ErrorCodes;

impl Writer for ErrorCodes {
    const COMMAND: u8 = 0x98;
    const DRAWN: u64 = ONE_FRAME;
    type Input = [bool; FAULTS];
    type Read = Result<Vec<u8>, u8>;

    fn drawn(random: &mut Random, _: bool) -> Self::Input {
        let bits = random.next() & (random.next() | random.next());
        std::array::from_fn(|position| (bits >> position) & 1 != 0)
    }

    unsafe fn ask(address: u8, input: &Self::Input, out: *mut u8, room: usize) -> ListTold {
        // SAFETY: the caller's; the faults are 48, alive.
        unsafe { daly_write_error_codes(address, input, out, room) }
    }

    fn model(address: u8, input: &Self::Input) -> Result<Vec<u8>, u8> {
        Ok(model::error_codes(address, input))
    }

    fn read(reply: &[u8], _: &Self::Input) -> Self::Read {
        let read = original::error_codes(reply);
        let number = original::number(&read);
        read.map_err(|_| number)
    }

    /// In rising order, but 17 before 16.
    fn meant(input: &Self::Input) -> Self::Read {
        let order = (0..16).chain([17, 16]).chain(18..FAULTS);
        Ok(order
            .filter(|position| input[*position])
            .map(|position| position as u8)
            .collect())
    }
}

fn pairs(trial: &mut Trial) {
    for all in [false, true] {
        let address = trial.random.byte();
        in_every_room::<ErrorCodes>(trial, &[all; FAULTS], address);
    }
    for one in 0..FAULTS {
        for other in (0..FAULTS).step_by(trial.stride().min(5)) {
            let mut input = [false; FAULTS];
            (input[one], input[other]) = (true, true);
            let address = trial.random.byte();
            in_every_room::<ErrorCodes>(trial, &input, address);
        }
    }
}
