//! Document 01's numbers to check, written down by hand and held against both sides.

use crate::balance::CellBalanceState;
use crate::faults::ErrorCode;
use crate::frames;
use crate::lists::{self, Case, List};
use crate::original;
use crate::port::*;
use crate::told::*;
use crate::trial::{Part, Trial};

pub const PARTS: &[Part] = &[
    Part::new("P1", "the Soc request", 1, soc_request),
    Part::new("P2 to P5", "the SetSoc request", 7, set_soc_requests),
    Part::new("P6", "a Soc reply, and with a byte appended", 4, soc_reply),
    Part::new("P7", "temperatures that wrap", 2, temperatures),
    Part::new("P8", "capacity to the nearest f32", 2, capacities),
    Part::new("P9", "balance with counts 0 and 49", 4, balance),
    Part::new("P10", "the order of two faults", 2, faults),
];

/// Bits of the percentage, then bytes 10, 11 and 12 of the request.
const SET_SOC: [(u32, [u8; 3]); 7] = [
    (0x3E80_0000, [0x00, 0x03, 0x11]), // 0.25
    (0x424A_0000, [0x01, 0xF9, 0x08]), // 50.5
    (0x3D4C_CCCC, [0x00, 0x00, 0x0E]), // below 0.05
    (0x3D4C_CCCD, [0x00, 0x01, 0x0F]), // above 0.05
    (0x7FC0_0000, [0x00, 0x00, 0x0E]), // NaN
    (0x7F80_0000, [0x03, 0xE8, 0xF9]), // infinity
    (0xBD23_D70A, [0x00, 0x00, 0x0E]), // -0.04
];

fn soc_request(trial: &mut Trial) {
    let known = [0, 0xA5, 0x40, 0x90, 0x08, 0, 0, 0, 0, 0, 0, 0, 0, 0x7D];
    let ours = trial.port.request(0x90, false, 0.0, 0xFF);
    trial.check_known(
        known,
        original::request(0x90, false, 0.0, 0xFF),
        ours,
        String::new,
    );
}

fn set_soc_requests(trial: &mut Trial) {
    for (bits, [high, low, sum]) in SET_SOC {
        let known = [0, 0xA5, 0x40, 0x21, 0x08, 0, 0, 0, 0, 0, 0, high, low, sum];
        let percent = f32::from_bits(bits);
        let ours = trial.port.request(0x21, false, percent, 0xFF);
        let rust = original::request(0x21, false, percent, 0xFF);
        trial.check_known(known, rust, ours, || format!("bits {bits:08X}"));
    }
}

const SOC: [u8; 14] = [
    0xA5, 0x01, 0x90, 0x08, 0x02, 0x0B, 0x00, 0x00, 0x74, 0xB7, 0x03, 0x6A, 0xE3, 0x00,
];

fn soc_reply(trial: &mut Trial) {
    let record = SocTold {
        number: 0,
        total_voltage: Bits(f32::from_bits(0x4251_3333)), // 52.3
        current: Bits(f32::from_bits(0xC141_999A)),       // -12.1
        soc_percent: Bits(f32::from_bits(0x42AE_CCCD)),   // 87.4
    };
    let counts = SocCountsTold {
        number: 0,
        total_voltage: 523,
        current: -121,
        soc_percent: 874,
    };
    for (reply, record, counts) in [
        (&SOC[..13], record, counts),
        (&SOC[..], Told::refused(3), Told::refused(3)),
    ] {
        let ours = trial.port.record(daly_soc, reply);
        trial.check_known(record, original::soc(reply), ours, String::new);
        let ours = trial.port.record(daly_soc_counts, reply);
        trial.check(counts, ours, String::new);
    }
}

fn temperatures(trial: &mut Trial) {
    for (highest, lowest, known) in [(167, 168, (127, -128)), (255, 0, (-41, -40))] {
        let reply = frames::frame(&mut trial.random, 0x92, &[highest, 3, lowest, 4]);
        let known = TemperatureRangeTold {
            number: 0,
            highest_temperature: known.0,
            highest_sensor: 3,
            lowest_temperature: known.1,
            lowest_sensor: 4,
        };
        let ours = trial.port.record(daly_temperature_range, &reply);
        let rust = original::temperature_range(&reply);
        trial.check_known(known, rust, ours, || format!("bytes {highest} {lowest}"));
    }
}

/// 16,777,219 becomes 16,777,220 and 16,777,217 becomes 16,777,216; then they are divided.
fn capacities(trial: &mut Trial) {
    for (low, bits) in [(0x03, 0x4683_1271), (0x01, 0x4683_126F)] {
        let data = [2, 1, 0, 9, 0x01, 0x00, 0x00, low];
        let reply = frames::frame(&mut trial.random, 0x93, &data);
        let known = MosfetStatusTold {
            number: 0,
            mode: 2,
            charging_mosfet: Flag(1),
            discharging_mosfet: Flag(0),
            bms_cycles: 9,
            capacity_ah: Bits(f32::from_bits(bits)),
        };
        let ours = trial.port.record(daly_mosfet_status, &reply);
        let rust = original::mosfet_status(&reply);
        trial.check_known(known, rust, ours, || format!("capacity 010000{low:02X}"));
    }
}

/// The Rust's list is the known one, and the port's is the Rust's.
fn check_list<L: List>(trial: &mut Trial, data: &[u8], n: u8, known: &[L::Place]) {
    let reply = &frames::frame(&mut trial.random, L::COMMAND, data);
    let rust = L::rust(reply, n).ok();
    trial.check(Some(known.to_vec()), rust, || format!("count {n}"));
    let room = L::places(n);
    lists::compare::<L>(trial, Case { reply, n, room }, Some(0));
}

fn balance(trial: &mut Trial) {
    let flags = [1, 0, 0, 0, 0, 0, 0, 1].map(Flag);
    let data = [0x81; 8];
    check_list::<CellBalanceState>(trial, &data, 0, &flags[..1]);
    check_list::<CellBalanceState>(trial, &data, 49, &flags.repeat(6));
}

fn faults(trial: &mut Trial) {
    check_list::<ErrorCode>(trial, &[0, 0, 3, 0, 0, 0, 0, 0], 0, &[17, 16]);
}
