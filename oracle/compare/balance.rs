//! The list of balance flags, 97.

use crate::frames;
use crate::lists::{self, Case, List, OneFrame};
use crate::one_frame;
use crate::original::{self, Listed};
use crate::port::*;
use crate::told::Flag;
use crate::trial::{Part, Trial};

pub fn parts() -> Vec<Part> {
    let of = "CellBalanceState";
    let others = [
        one_frame::data_part::<OneFrame<CellBalanceState>>(of),
        Part::new(of, "every count, each flag alone", 256 * 65, every_count),
        lists::room_part::<CellBalanceState>(of),
    ];
    [
        &one_frame::parts::<OneFrame<CellBalanceState>>(of)[..],
        &others,
    ]
    .concat()
}

pub struct CellBalanceState;

impl List for CellBalanceState {
    const COMMAND: u8 = 0x97;
    const PER: Option<usize> = None;
    type Place = Flag;
    const ASK: AskList<Flag> = daly_cell_balance_state;

    fn places(n: u8) -> usize {
        usize::from(n).clamp(1, 48)
    }

    fn rust(reply: &[u8], n: u8) -> Listed<Flag> {
        original::cell_balance_state(reply, n)
    }
}

/// No flag, and each of the eight data bytes' bits.
fn every_count(trial: &mut Trial) {
    for n in (0..=255).step_by(trial.stride()) {
        for flags in [0].into_iter().chain((0..64).map(|bit| 1_u64 << bit)) {
            let data = flags.to_le_bytes();
            let reply = &frames::frame(&mut trial.random, CellBalanceState::COMMAND, &data);
            let room = CellBalanceState::places(n);
            lists::compare::<CellBalanceState>(trial, Case { reply, n, room }, Some(0));
        }
    }
}
