//! What the Rust answers to a question, as bytes.

use crate::original::{self, Listed};
use crate::told::{Bits, Flag};
use dalybms_lib::protocol::FrameReader;

pub const REQUEST: u8 = 1;
pub const DECODE: u8 = 2;
pub const READER: u8 = 3;

/// A byte of a question; one that it does not have is 0.
fn at(question: &[u8], place: usize) -> u8 {
    question.get(place).copied().unwrap_or(0)
}

fn two(question: &[u8], place: usize) -> usize {
    usize::from(at(question, place)) * 256 + usize::from(at(question, place + 1))
}

fn request(question: &[u8]) -> Vec<u8> {
    let bits = (2..6).fold(0, |bits, place| bits << 8 | u32::from(at(question, place)));
    let percent = f32::from_bits(bits);
    original::request(at(question, 1), at(question, 2) != 0, percent, 0).to_vec()
}

/// 0 and the parts, or the refusal's number alone.
fn told(number: u8, parts: &[&[u8]]) -> Vec<u8> {
    match number {
        0 => [&[0], parts.concat().as_slice()].concat(),
        _ => vec![number],
    }
}

fn float(bits: Bits) -> [u8; 4] {
    bits.0.to_bits().to_be_bytes()
}

/// An i8 is written as an i32.
fn degrees(degrees: i8) -> [u8; 4] {
    i32::from(degrees).to_be_bytes()
}

fn soc(reply: &[u8]) -> Vec<u8> {
    let t = original::soc(reply);
    told(
        t.number,
        &[
            &float(t.total_voltage),
            &float(t.current),
            &float(t.soc_percent),
        ],
    )
}

fn cell_voltage_range(reply: &[u8]) -> Vec<u8> {
    let t = original::cell_voltage_range(reply);
    let (high, low) = (float(t.highest_voltage), float(t.lowest_voltage));
    told(
        t.number,
        &[&high, &[t.highest_cell], &low, &[t.lowest_cell]],
    )
}

fn temperature_range(reply: &[u8]) -> Vec<u8> {
    let t = original::temperature_range(reply);
    let (high, low) = (
        degrees(t.highest_temperature),
        degrees(t.lowest_temperature),
    );
    told(
        t.number,
        &[&high, &[t.highest_sensor], &low, &[t.lowest_sensor]],
    )
}

fn mosfet_status(reply: &[u8]) -> Vec<u8> {
    let t = original::mosfet_status(reply);
    let bytes = [
        t.mode,
        t.charging_mosfet.0,
        t.discharging_mosfet.0,
        t.bms_cycles,
    ];
    told(t.number, &[&bytes, &float(t.capacity_ah)])
}

fn status(reply: &[u8]) -> Vec<u8> {
    let t = original::status(reply);
    let front = [
        t.cells,
        t.temperature_sensors,
        t.charger_running.0,
        t.load_running.0,
    ];
    let inputs = [t.di1.0, t.di2.0, t.di3.0, t.di4.0];
    let outputs = [t.do1.0, t.do2.0, t.do3.0, t.do4.0];
    told(
        t.number,
        &[&front, &inputs, &outputs, &t.cycles.to_be_bytes()],
    )
}

fn listed<P>(listed: Listed<P>, bytes: impl Fn(P) -> Vec<u8>) -> Vec<u8> {
    let number = original::number(&listed);
    let values = listed.into_iter().flatten();
    told(number, &[&values.flat_map(bytes).collect::<Vec<u8>>()])
}

fn decode(question: &[u8]) -> Vec<u8> {
    let (command, count) = (at(question, 1), at(question, 2));
    let reply = question.get(3..).unwrap_or(&[]);
    match command {
        0x90 => soc(reply),
        0x91 => cell_voltage_range(reply),
        0x92 => temperature_range(reply),
        0x93 => mosfet_status(reply),
        0x94 => status(reply),
        0x95 => listed(original::cell_voltages(reply, count), |v| float(v).to_vec()),
        0x96 => listed(original::cell_temperatures(reply, count), |v| {
            v.to_be_bytes().to_vec()
        }),
        0x97 => listed(original::cell_balance_state(reply, count), |Flag(v)| {
            vec![v]
        }),
        0x98 => listed(original::error_codes(reply), |v| vec![v]),
        _ => only_checked(command, reply),
    }
}

fn only_checked(command: u8, reply: &[u8]) -> Vec<u8> {
    let checked = original::ONLY_CHECKED.iter().find(|(of, _)| *of == command);
    let (_, decode) = checked.expect("a command of the protocol");
    vec![original::number(&decode(reply))]
}

/// The last push's number, then what the reader says of itself.
fn reader(question: &[u8]) -> Vec<u8> {
    let mut reader = FrameReader::new(&[0, 0, at(question, 1)], two(question, 2));
    let stream = question.get(6..).unwrap_or(&[]);
    let mut last = reader.push(&[]);
    for chunk in stream.chunks(two(question, 4).max(1)) {
        last = reader.push(chunk);
    }
    let complete = u8::from(reader.is_complete());
    let told = [
        0,
        original::number(&last),
        complete,
        reader.missing() as u8,
        0,
    ];
    [told.as_slice(), &reader.into_bytes()].concat()
}

/// `None` where the Rust panics.
pub fn answer(question: &[u8]) -> Option<Vec<u8>> {
    original::quiet(|| match question[0] {
        REQUEST => request(question),
        DECODE => decode(question),
        READER => reader(question),
        kind => unreachable!("kind {kind}"),
    })
}
