//! Whole counts: divided, they are the Rust's floats.

use super::{told, whole};
use crate::answer::{Answer, Value};
use crate::frames::{self, FRAME};
use crate::question::Question;
use crate::replies::{damage, known_mode};
use crate::sides::rust;
use crate::trial::Trial;
use daly::account::{self, CellVoltageRangeCounts, MosfetStatusCounts, SocCounts};
use daly::protocol::MosfetMode;

fn over(count: i32, parts: f32) -> Value {
    Value::Bits((count as f32 / parts).to_bits())
}

/// The Rust's answer without the record as `{:?}` shows it, which stands last.
fn of_rust(question: &Question) -> Answer {
    let mut answer = rust::answer(question);
    if let Answer::Values(values) = &mut answer {
        values.pop();
    }
    answer
}

fn soc(counts: SocCounts) -> Vec<Value> {
    vec![
        over(counts.total_voltage.into(), 10.0),
        over(counts.current, 10.0),
        over(counts.soc_percent.into(), 10.0),
    ]
}

fn cell_voltage_range(counts: CellVoltageRangeCounts) -> Vec<Value> {
    vec![
        over(counts.highest_voltage.into(), 1000.0),
        whole(counts.highest_cell),
        over(counts.lowest_voltage.into(), 1000.0),
        whole(counts.lowest_cell),
    ]
}

fn mosfet_status(counts: MosfetStatusCounts) -> Vec<Value> {
    let mode = match counts.mode {
        MosfetMode::Stationary => 0,
        MosfetMode::Charging => 1,
        MosfetMode::Discharging => 2,
    };
    vec![
        Value::Whole(mode),
        Value::Flag(counts.charging_mosfet),
        Value::Flag(counts.discharging_mosfet),
        whole(counts.bms_cycles),
        Value::Bits((counts.capacity_ah as f32 / 1000.0).to_bits()),
        whole(counts.capacity_ah),
    ]
}

pub fn counts(trial: &mut Trial) {
    for command in [0x90, 0x91, 0x93] {
        for _ in 0..trial.rounds(3_000) {
            let right = frames::reply(&mut trial.random, command, FRAME);
            let any = frames::any_reply(&mut trial.random, command);
            for reply in [right, any] {
                decode(trial, command, reply);
            }
        }
    }
}

fn decode(trial: &mut Trial, command: u8, mut reply: Vec<u8>) {
    known_mode(command, &mut reply);
    let found = match command {
        0x90 => told(SocCounts::decode(&reply), soc),
        0x91 => told(CellVoltageRangeCounts::decode(&reply), cell_voltage_range),
        _ => told(MosfetStatusCounts::decode(&reply), mosfet_status),
    };
    let question = Question::Decode {
        command,
        count: 0,
        reply: reply.clone(),
    };
    let mut wanted = of_rust(&question);
    if let (0x93, Answer::Values(values)) = (command, &mut wanted) {
        // An f32 can lose digits of the capacity.
        values.push(whole(u32::from_be_bytes(reply[8..12].try_into().unwrap())));
    }
    trial.judge(&wanted, found, &question);
}

pub fn millivolts(trial: &mut Trial) {
    for count in 0..=255_u8 {
        for _ in 0..trial.rounds(10) {
            let frames = usize::from(count).div_ceil(3);
            let mut reply = frames::numbered(&mut trial.random, 0x95, frames);
            match trial.random.below(8) {
                0 => reply.truncate(trial.random.below(reply.len() + 1)),
                1 if frames > 0 => damage(&mut trial.random, &mut reply),
                _ => {}
            }
            let found = told(account::cell_millivolts(&reply, count), |cells| {
                let volts = cells.into_iter().map(|cell| over(cell.into(), 1000.0));
                volts.collect()
            });
            let question = Question::Decode {
                command: 0x95,
                count,
                reply,
            };
            trial.judge(&of_rust(&question), found, &question);
        }
    }
}
