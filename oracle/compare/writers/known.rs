//! Replies and refusals written down by hand, and held against the port and the model.

use super::acknowledged::Acknowledgement;
use super::flags::{CellBalanceState, ErrorCodes};
use super::lists::{CellTemperatures, CellVoltages};
use super::port::*;
use super::records::{CellVoltageRange, MosfetStatus, Soc, Status, TemperatureRange};
use super::{wanted, Lent, Writer};
use crate::frames::FRAME;
use crate::trial::{Part, Trial};

pub const PARTS: &[Part] = &[
    Part::new("writers", "a record of each kind by hand", 5, records),
    Part::new("writers", "lists by hand", 6, lists),
    Part::new("writers", "flags by hand", 3, flags),
    Part::new("writers", "acknowledgements by hand", 4, acknowledgements),
    Part::new("writers", "11 comes first, then 12, then 9", 28, refusals),
];

/// The bytes of a text such as `A5 01`.
fn bytes(text: &str) -> Vec<u8> {
    let byte = |word| u8::from_str_radix(word, 16).expect("a byte in hexadecimal");
    text.split_whitespace().map(byte).collect()
}

/// Counts one case: the answer, and the places that were lent as they are then.
fn check<W: Writer>(trial: &mut Trial, input: &W::Input, lent: Lent, known: Result<&str, u8>) {
    let before = vec![0xEE; 2 * FENCE + lent.room];
    let mut kept = before.clone();
    let number = known.err().unwrap_or(0);
    let reply = bytes(known.unwrap_or(""));
    kept[FENCE..FENCE + reply.len()].copy_from_slice(&reply);
    let model = wanted::<W>(input, lent, before.clone());
    let ours = trial.port.write::<W>(input, lent, before);
    trial.check_known(
        (number, reply.len(), kept),
        (model.told.number, model.told.count, model.buffer),
        (ours.told.number, ours.told.count, ours.buffer),
        || format!("{lent:02X?} {input:?}"),
    );
}

/// With the address of a board, and three places more than are needed.
fn written<W: Writer>(trial: &mut Trial, input: &W::Input, reply: &str) {
    let room = bytes(reply).len() + 3;
    check::<W>(trial, input, Lent { address: 1, room }, Ok(reply));
}

fn refused<W: Writer>(trial: &mut Trial, input: &W::Input, room: usize, number: u8) {
    check::<W>(trial, input, Lent { address: 1, room }, Err(number));
}

const MODE_2: MosfetStatusWire = MosfetStatusWire {
    mode: 2,
    charging_mosfet: true,
    discharging_mosfet: false,
    bms_cycles: 7,
    capacity_ah: 120_000,
};

fn records(trial: &mut Trial) {
    let soc = SocWire {
        total_voltage: 523,
        current: 30_000 - 121,
        soc_percent: 874,
    };
    written::<Soc>(trial, &soc, "A5 01 90 08 02 0B 00 00 74 B7 03 6A E3"); // P6
    let range = CellVoltageRangeWire {
        highest_voltage: 3301,
        highest_cell: 3,
        lowest_voltage: 3277,
        lowest_cell: 16,
    };
    written::<CellVoltageRange>(trial, &range, "A5 01 91 08 0C E5 03 0C CD 10 00 00 1C");
    let range = TemperatureRangeWire {
        highest_temperature: 25,
        highest_sensor: 1,
        lowest_temperature: -128,
        lowest_sensor: 2,
    };
    written::<TemperatureRange>(trial, &range, "A5 01 92 08 41 01 A8 02 00 00 00 00 2C");
    written::<MosfetStatus>(trial, &MODE_2, "A5 01 93 08 02 01 00 07 00 01 D4 C0 E0");
    let status = StatusWire {
        cells: 16,
        temperature_sensors: 2,
        charger_running: false,
        load_running: true,
        states: [false, true, false, false, true, false, false, false],
        cycles: 300,
    };
    written::<Status>(trial, &status, "A5 01 94 08 10 02 00 01 12 01 2C 00 94");
}

fn lists(trial: &mut Trial) {
    let one = "A5 01 95 08 01 0C E5 0C E6 0C E7 00 1A";
    let two = one.to_string() + " A5 01 95 08 02 0C E8 00 00 00 00 00 39";
    written::<CellVoltages>(trial, &vec![3301, 3302, 3303], one);
    written::<CellVoltages>(trial, &vec![3301, 3302, 3303, 3304], &two);
    let one = "A5 01 96 08 01 00 28 FF 41 3C 3D 3E 64";
    let two = one.to_string() + " A5 01 96 08 02 29 00 00 00 00 00 00 6F";
    let degrees = vec![-40, 0, 215, 25, 20, 21, 22, 1];
    written::<CellTemperatures>(trial, &degrees[..7].to_vec(), one);
    written::<CellTemperatures>(trial, &degrees, &two);
    let nothing = Lent {
        address: 1,
        room: 0,
    };
    check::<CellVoltages>(trial, &vec![], nothing, Ok(""));
    check::<CellTemperatures>(trial, &vec![], nothing, Ok(""));
}

fn flags(trial: &mut Trial) {
    let mut nine = vec![false; 9];
    (nine[0], nine[7], nine[8]) = (true, true, true);
    written::<CellBalanceState>(trial, &nine, "A5 01 97 08 81 01 00 00 00 00 00 00 C7");
    let mut faults = [false; 48];
    for position in [0, 16, 27, 28, 47] {
        faults[position] = true;
    }
    written::<ErrorCodes>(trial, &faults, "A5 01 98 08 01 00 01 08 01 00 08 00 59");
    written::<ErrorCodes>(trial, &[true; 48], "A5 01 98 08 FF FF FF 0F FF FF 0F 00 5F");
}

fn acknowledgements(trial: &mut Trial) {
    written::<Acknowledgement<0>>(trial, &(), "A5 01 D9 08 00 00 00 00 00 00 00 00 87");
    written::<Acknowledgement<1>>(trial, &(), "A5 01 DA 08 00 00 00 00 00 00 00 00 88");
    written::<Acknowledgement<2>>(trial, &(), "A5 01 21 08 00 00 00 00 00 00 00 00 CF");
    let host = Lent {
        address: 0x40,
        room: FRAME,
    };
    let reply = "A5 40 21 08 00 00 00 00 00 00 00 00 0E";
    check::<Acknowledgement<2>>(trial, &(), host, Ok(reply));
}

/// So many sensors of 20 degrees, but for the last.
fn sensors(length: usize, last: i32) -> Vec<i32> {
    let mut degrees = vec![20; length];
    degrees[length - 1] = last;
    degrees
}

fn refusals(trial: &mut Trial) {
    for room in [0, 2000] {
        refused::<CellVoltages>(trial, &vec![0; 256], room, 11);
        refused::<CellVoltages>(trial, &vec![0; 300], room, 11);
        for last in [20, 216, -41] {
            refused::<CellTemperatures>(trial, &sensors(300, last), room, 11);
        }
        for last in [216, -41, i32::MIN, i32::MAX] {
            refused::<CellTemperatures>(trial, &sensors(255, last), room, 12);
        }
        for length in [0, 49, 256] {
            refused::<CellBalanceState>(trial, &vec![true; length], room, 12);
        }
        refused::<MosfetStatus>(trial, &MosfetStatusWire { mode: 3, ..MODE_2 }, room, 12);
    }
    refused::<CellVoltages>(trial, &vec![0; 255], 1104, 9);
    refused::<CellTemperatures>(trial, &sensors(255, 215), 480, 9);
    refused::<CellBalanceState>(trial, &vec![true; 48], 12, 9);
    refused::<MosfetStatus>(trial, &MODE_2, 12, 9);
}
