// One source for both sides: `sides.rs` includes it twice, and only what `lib` is differs, as in a
// controller that changes its `use` lines. Records are taken apart whole: both sides have the same fields.

use crate::answer::{Answer, Value};
use crate::question::Question;
use lib::protocol::*;
use lib::Error;
use std::fmt::Debug;

pub fn answer(question: &Question) -> Answer {
    let values = match question {
        Question::Request {
            command,
            enable,
            soc_percent,
        } => Ok(vec![Value::Bytes(request(*command, *enable, *soc_percent))]),
        Question::Size { command, count } => Ok(vec![Value::Whole(size(*command, *count) as i64)]),
        Question::Decode {
            command,
            count,
            reply,
        } => decode(*command, *count, reply),
        Question::Read {
            request,
            size,
            stream,
            cuttings,
        } => Ok(read(FrameReader::new, request, *size, stream, cuttings)),
    };
    values.map_or_else(|error| Answer::Refused(name(error)), Answer::Values)
}

/// The variant's name.
fn name(error: Error) -> String {
    format!("{error:?}")
}

fn request(command: u8, enable: bool, soc_percent: f32) -> Vec<u8> {
    let host = Address::Host;
    match command {
        0x90 => Soc::request(host),
        0x91 => CellVoltageRange::request(host),
        0x92 => TemperatureRange::request(host),
        0x93 => MosfetStatus::request(host),
        0x94 => Status::request(host),
        0x95 => CellVoltages::request(host),
        0x96 => CellTemperatures::request(host),
        0x97 => CellBalanceState::request(host),
        0x98 => ErrorCode::request(host),
        0xD9 => SetDischargeMosfet::request(host, enable),
        0xDA => SetChargeMosfet::request(host, enable),
        0x21 => SetSoc::request(host, soc_percent),
        _ => BmsReset::request(host),
    }
}

fn size(command: u8, count: u8) -> usize {
    match command {
        0x90 => Soc::reply_size(),
        0x91 => CellVoltageRange::reply_size(),
        0x92 => TemperatureRange::reply_size(),
        0x93 => MosfetStatus::reply_size(),
        0x94 => Status::reply_size(),
        0x95 => CellVoltages::reply_size(count),
        0x96 => CellTemperatures::reply_size(count),
        0x97 => CellBalanceState::reply_size(),
        0x98 => ErrorCode::reply_size(),
        0xD9 => SetDischargeMosfet::reply_size(),
        0xDA => SetChargeMosfet::reply_size(),
        0x21 => SetSoc::reply_size(),
        _ => BmsReset::reply_size(),
    }
}

fn decode(command: u8, count: u8, reply: &[u8]) -> Result<Vec<Value>, Error> {
    match command {
        0x90 => Soc::decode(reply).map(soc),
        0x91 => CellVoltageRange::decode(reply).map(cell_voltage_range),
        0x92 => TemperatureRange::decode(reply).map(temperature_range),
        0x93 => MosfetStatus::decode(reply).map(mosfet_status),
        0x94 => Status::decode(reply).map(status),
        0x95 => CellVoltages::decode(reply, count).map(cell_voltages),
        0x96 => CellTemperatures::decode(reply, count).map(each(whole)),
        0x97 => CellBalanceState::decode(reply, count).map(each(Value::Flag)),
        0x98 => ErrorCode::decode(reply).map(error_codes),
        0xD9 => SetDischargeMosfet::decode(reply).map(nothing),
        0xDA => SetChargeMosfet::decode(reply).map(nothing),
        0x21 => SetSoc::decode(reply).map(nothing),
        _ => BmsReset::decode(reply).map(nothing),
    }
}

fn whole(number: impl Into<i64>) -> Value {
    Value::Whole(number.into())
}

fn bits(float: f32) -> Value {
    Value::Bits(float.to_bits())
}

/// The copy of a record, as `{:?}` shows it.
fn shown(record: &(impl Debug + Clone)) -> Value {
    Value::Text(format!("{:?}", record.clone()))
}

fn each<T>(value: fn(T) -> Value) -> impl FnOnce(Vec<T>) -> Vec<Value> {
    move |values| values.into_iter().map(value).collect()
}

fn nothing((): ()) -> Vec<Value> {
    Vec::new()
}

fn soc(record: Soc) -> Vec<Value> {
    let shown = shown(&record);
    let Soc {
        total_voltage,
        current,
        soc_percent,
    } = record;
    vec![bits(total_voltage), bits(current), bits(soc_percent), shown]
}

fn cell_voltage_range(record: CellVoltageRange) -> Vec<Value> {
    let shown = shown(&record);
    let CellVoltageRange {
        highest_voltage,
        highest_cell,
        lowest_voltage,
        lowest_cell,
    } = record;
    vec![
        bits(highest_voltage),
        whole(highest_cell),
        bits(lowest_voltage),
        whole(lowest_cell),
        shown,
    ]
}

fn temperature_range(record: TemperatureRange) -> Vec<Value> {
    let shown = shown(&record);
    let TemperatureRange {
        highest_temperature,
        highest_sensor,
        lowest_temperature,
        lowest_sensor,
    } = record;
    vec![
        whole(highest_temperature),
        whole(highest_sensor),
        whole(lowest_temperature),
        whole(lowest_sensor),
        shown,
    ]
}

fn mosfet_status(record: MosfetStatus) -> Vec<Value> {
    let shown = shown(&record);
    let MosfetStatus {
        mode,
        charging_mosfet,
        discharging_mosfet,
        bms_cycles,
        capacity_ah,
    } = record;
    let mode = match mode {
        MosfetMode::Stationary => 0,
        MosfetMode::Charging => 1,
        MosfetMode::Discharging => 2,
    };
    vec![
        Value::Whole(mode),
        Value::Flag(charging_mosfet),
        Value::Flag(discharging_mosfet),
        whole(bms_cycles),
        bits(capacity_ah),
        shown,
    ]
}

fn status(record: Status) -> Vec<Value> {
    let shown = shown(&record);
    let Status {
        cells,
        temperature_sensors,
        charger_running,
        load_running,
        states,
        cycles,
    } = record;
    let mut values = vec![
        whole(cells),
        whole(temperature_sensors),
        Value::Flag(charger_running),
        Value::Flag(load_running),
        whole(cycles),
        shown,
    ];
    values.extend(io_state(states).map(Value::Flag));
    values
}

fn io_state(states: IOState) -> [bool; 8] {
    let IOState {
        di1,
        di2,
        di3,
        di4,
        do1,
        do2,
        do3,
        do4,
    } = states;
    [di1, di2, di3, di4, do1, do2, do3, do4]
}

fn cell_voltages(voltages: CellVoltages) -> Vec<Value> {
    let mut values: Vec<Value> = voltages.iter().copied().map(bits).collect();
    values.push(shown(&voltages));
    values
}

/// A fault's name, and its place as the compiler numbers it.
fn error_codes(codes: Vec<ErrorCode>) -> Vec<Value> {
    let both = |code: ErrorCode| [shown(&code), whole(code as u8)];
    codes.into_iter().flat_map(both).collect()
}

/// What the reader says when it is made, what every push answers and the reader says then, and its bytes.
pub fn read(
    new: fn(&[u8], usize) -> FrameReader,
    request: &[u8],
    size: usize,
    stream: &[u8],
    cuttings: &[Vec<usize>],
) -> Vec<Value> {
    let mut values = Vec::new();
    for cutting in cuttings {
        let mut reader = new(request, size);
        values.reserve(3 * cutting.len() + 3);
        values.extend([Value::Flag(reader.is_complete()), missing(&reader)]);
        let mut rest = stream;
        for length in cutting {
            let (chunk, behind) = rest.split_at(*length);
            rest = behind;
            let said = reader.push(chunk);
            values.push(said.map_or_else(|error| Value::Text(name(error)), |()| Value::Flag(true)));
            values.extend([Value::Flag(reader.is_complete()), missing(&reader)]);
        }
        values.push(Value::Bytes(reader.into_bytes()));
    }
    values
}

fn missing(reader: &FrameReader) -> Value {
    Value::Whole(reader.missing() as i64)
}
