//! The replies that are only checked, by the decoders that the port has for them, and the size of a one-frame reply.

use crate::buffers::number;
use crate::frames;
use crate::one_frame::{self, Reads};
use crate::original::{self, ONLY_CHECKED};
use crate::random::Random;
use crate::trial::{Part, Trial};
use dalybms_lib::protocol::*;
use translated::frame::{Mosfet, Refusal};
use translated::reading::{self, Acknowledged as Ours};

pub fn parts() -> Vec<Part> {
    [
        &one_frame::parts::<Acknowledged<0>>("decode_set_discharge_mosfet")[..],
        &one_frame::parts::<Acknowledged<1>>("decode_set_charge_mosfet"),
        &one_frame::parts::<Acknowledged<2>>("decode_set_soc"),
        &one_frame::parts::<Acknowledged<3>>("decode_bms_reset"),
        &[
            Part::new(
                "the four that only check",
                "right replies to every command",
                4 * 256,
                every_command,
            ),
            Part::new(
                "reply_size",
                "beside the Rust's eleven of one frame",
                11,
                sizes,
            ),
        ],
    ]
    .concat()
}

/// In the order of `ONLY_CHECKED`.
const OURS: [fn(&[u8]) -> Result<(), Refusal>; 4] = [
    |reply| Ours::SetMosfet(Mosfet::Discharge).decode(reply),
    |reply| Ours::SetMosfet(Mosfet::Charge).decode(reply),
    |reply| Ours::SetSoc.decode(reply),
    |reply| Ours::BmsReset.decode(reply),
];

/// One of the four.
struct Acknowledged<const WHICH: usize>;

impl<const WHICH: usize> Reads for Acknowledged<WHICH> {
    fn command(_: &mut Random) -> u8 {
        ONLY_CHECKED[WHICH].0
    }

    fn compare(trial: &mut Trial, reply: &[u8], command: u8, known: Option<u8>) {
        let ours = trial.port.answered(number(OURS[WHICH](reply)));
        let rust = original::number(&ONLY_CHECKED[WHICH].1(reply));
        trial.check_known(known.unwrap_or(rust), rust, ours, || {
            frames::shown(reply, command)
        });
    }
}

/// Each of the four takes the replies to its own command, and refuses those to every other.
fn every_command(trial: &mut Trial) {
    for command in 0..=255 {
        let reply = frames::reply(&mut trial.random, command, frames::FRAME);
        let known = |which: usize| {
            if ONLY_CHECKED[which].0 == command {
                0
            } else {
                2
            }
        };
        Acknowledged::<0>::compare(trial, &reply, command, Some(known(0)));
        Acknowledged::<1>::compare(trial, &reply, command, Some(known(1)));
        Acknowledged::<2>::compare(trial, &reply, command, Some(known(2)));
        Acknowledged::<3>::compare(trial, &reply, command, Some(known(3)));
    }
}

fn sizes(trial: &mut Trial) {
    for (name, size) in [
        ("Soc", Soc::reply_size as fn() -> usize),
        ("CellVoltageRange", CellVoltageRange::reply_size),
        ("TemperatureRange", TemperatureRange::reply_size),
        ("MosfetStatus", MosfetStatus::reply_size),
        ("Status", Status::reply_size),
        ("CellBalanceState", CellBalanceState::reply_size),
        ("ErrorCode", ErrorCode::reply_size),
        ("SetDischargeMosfet", SetDischargeMosfet::reply_size),
        ("SetChargeMosfet", SetChargeMosfet::reply_size),
        ("SetSoc", SetSoc::reply_size),
        ("BmsReset", BmsReset::reply_size),
    ] {
        let ours = trial.port.answered(reading::reply_size());
        trial.check_known(13, size(), ours, || name.to_string());
    }
}
