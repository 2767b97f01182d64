//! The acknowledgements of D9, DA and 21, which carry nothing.

use super::port::*;
use super::{compare, model, of_writer, Lent, Writer, ONE_FRAME};
use crate::original::{self, ONLY_CHECKED};
use crate::random::Random;
use crate::told::ListTold;
use crate::trial::{Part, Trial};

pub fn parts() -> Vec<Part> {
    [
        of_acknowledgement::<0>("write_set_discharge_mosfet"),
        of_acknowledgement::<1>("write_set_charge_mosfet"),
        of_acknowledgement::<2>("write_set_soc"),
    ]
    .concat()
}

fn of_acknowledgement<const WHICH: usize>(of: &'static str) -> Vec<Part> {
    let others = [Part::new(
        of,
        "every address with every room to 40",
        256 * 41,
        every_room::<WHICH>,
    )];
    [
        &of_writer::<Acknowledgement<WHICH>>(of, ONE_FRAME)[..],
        &others,
    ]
    .concat()
}

type Ask = unsafe extern "C" fn(u8, *mut u8, usize) -> ListTold;

/// With its command, as document 01 has it, in the order of the Rust's decoders that only check.
const WRITERS: [(u8, Ask); 3] = [
    (0xD9, daly_write_set_discharge_mosfet),
    (0xDA, daly_write_set_charge_mosfet),
    (0x21, daly_write_set_soc),
];

pub struct Acknowledgement<const WHICH: usize>;

impl<const WHICH: usize> Writer for Acknowledgement<WHICH> {
    const COMMAND: u8 = WRITERS[WHICH].0;
    const DRAWN: u64 = ONE_FRAME;
    type Input = ();
    type Read = u8;

    fn drawn(_: &mut Random, _: bool) {}

    unsafe fn ask(address: u8, (): &(), out: *mut u8, room: usize) -> ListTold {
        // SAFETY: the caller's.
        unsafe { WRITERS[WHICH].1(address, out, room) }
    }

    fn model(address: u8, (): &()) -> Result<Vec<u8>, u8> {
        Ok(model::acknowledgement(address, Self::COMMAND))
    }

    fn read(reply: &[u8], (): &()) -> u8 {
        original::number(&ONLY_CHECKED[WHICH].1(reply))
    }

    fn meant((): &()) -> u8 {
        0
    }
}

fn every_room<const WHICH: usize>(trial: &mut Trial) {
    for address in (0..=255).step_by(trial.stride()) {
        for room in 0..=40 {
            compare::<Acknowledgement<WHICH>>(trial, &(), Lent { address, room });
        }
    }
}
