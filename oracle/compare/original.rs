//! The Rust, with its answers in the form of the port's.

use crate::frames::FRAME;
use crate::told::*;
use dalybms_lib::protocol::*;
use dalybms_lib::Error;
use std::panic::{self, UnwindSafe};
use std::sync::Mutex;

/// Document 01's number of a command that no request has.
const UNKNOWN_COMMAND: u8 = 10;

/// `None` where the Rust panics, without its message. All threads have one hook, so one asks at a time.
pub fn quiet<T>(ask: impl FnOnce() -> T + UnwindSafe) -> Option<T> {
    static HOOK: Mutex<()> = Mutex::new(());
    let _alone = HOOK.lock();
    let hook = panic::take_hook();
    panic::set_hook(Box::new(|_| {}));
    let answer = panic::catch_unwind(ask).ok();
    panic::set_hook(hook);
    answer
}

/// Document 01's refusal number.
pub fn number<T>(result: &Result<T, Error>) -> u8 {
    match result {
        Ok(_) => 0,
        Err(Error::ReplySizeError) => 1,
        Err(Error::UnexpectedFrame) => 2,
        Err(Error::CheckSumError) => 3,
        Err(Error::FrameNoError) => 4,
    }
}

/// The checks of every one-frame decoder, in their order.
pub fn frame_check(buffer: &[u8], command: u8) -> u8 {
    number(
        &exposed::validate_len(buffer, FRAME)
            .and_then(|()| exposed::validate_frame_header(buffer, command))
            .and_then(|()| exposed::validate_checksum(buffer)),
    )
}

/// The decoders that only check, with their commands.
pub const ONLY_CHECKED: [(u8, fn(&[u8]) -> Result<(), Error>); 4] = [
    (0xD9, SetDischargeMosfet::decode),
    (0xDA, SetChargeMosfet::decode),
    (0x21, SetSoc::decode),
    (0x00, BmsReset::decode),
];

fn build(command: u8, enable: bool, soc_percent: f32) -> Option<Vec<u8>> {
    let host = Address::Host;
    Some(match command {
        0x90 => Soc::request(host),
        0x91 => CellVoltageRange::request(host),
        0x92 => TemperatureRange::request(host),
        0x93 => MosfetStatus::request(host),
        0x94 => Status::request(host),
        0x95 => CellVoltages::request(host),
        0x96 => CellTemperatures::request(host),
        0x97 => CellBalanceState::request(host),
        0x98 => ErrorCode::request(host),
        0xD9 => SetDischargeMosfet::request(host, enable),
        0xDA => SetChargeMosfet::request(host, enable),
        0x21 => SetSoc::request(host, soc_percent),
        0x00 => BmsReset::request(host),
        _ => return None,
    })
}

pub fn has_request(command: u8) -> bool {
    build(command, false, 0.0).is_some()
}

/// What the port is to answer: the Rust's 13 bytes, or the refusal and an untouched output.
pub fn request(command: u8, enable: bool, soc_percent: f32, fill: u8) -> Sent {
    let Some(bytes) = build(command, enable, soc_percent) else {
        let mut sent = [fill; 1 + FRAME];
        sent[0] = UNKNOWN_COMMAND;
        return sent;
    };
    let mut sent = [0; 1 + FRAME];
    sent[1..].copy_from_slice(&bytes);
    sent
}

/// The Rust's record in the form of the port's.
fn told<R, T: Told>(result: Result<R, Error>, fields: impl FnOnce(R) -> T) -> T {
    let number = number(&result);
    result.map_or_else(|_| T::refused(number), fields)
}

pub fn soc(reply: &[u8]) -> SocTold {
    told(Soc::decode(reply), |record| SocTold {
        number: 0,
        total_voltage: Bits(record.total_voltage),
        current: Bits(record.current),
        soc_percent: Bits(record.soc_percent),
    })
}

pub fn cell_voltage_range(reply: &[u8]) -> CellVoltageRangeTold {
    told(CellVoltageRange::decode(reply), |record| {
        CellVoltageRangeTold {
            number: 0,
            highest_voltage: Bits(record.highest_voltage),
            highest_cell: record.highest_cell,
            lowest_voltage: Bits(record.lowest_voltage),
            lowest_cell: record.lowest_cell,
        }
    })
}

pub fn temperature_range(reply: &[u8]) -> TemperatureRangeTold {
    told(TemperatureRange::decode(reply), |record| {
        TemperatureRangeTold {
            number: 0,
            highest_temperature: record.highest_temperature,
            highest_sensor: record.highest_sensor,
            lowest_temperature: record.lowest_temperature,
            lowest_sensor: record.lowest_sensor,
        }
    })
}

/// Panics where the mode is unknown and all else is right.
pub fn mosfet_status(reply: &[u8]) -> MosfetStatusTold {
    told(MosfetStatus::decode(reply), |record| MosfetStatusTold {
        number: 0,
        mode: match record.mode {
            MosfetMode::Stationary => 0,
            MosfetMode::Charging => 1,
            MosfetMode::Discharging => 2,
        },
        charging_mosfet: record.charging_mosfet.into(),
        discharging_mosfet: record.discharging_mosfet.into(),
        bms_cycles: record.bms_cycles,
        capacity_ah: Bits(record.capacity_ah),
    })
}

pub fn status(reply: &[u8]) -> StatusTold {
    told(Status::decode(reply), |record| StatusTold {
        number: 0,
        cells: record.cells,
        temperature_sensors: record.temperature_sensors,
        charger_running: record.charger_running.into(),
        load_running: record.load_running.into(),
        di1: record.states.di1.into(),
        di2: record.states.di2.into(),
        di3: record.states.di3.into(),
        di4: record.states.di4.into(),
        do1: record.states.do1.into(),
        do2: record.states.do2.into(),
        do3: record.states.do3.into(),
        do4: record.states.do4.into(),
        cycles: record.cycles,
    })
}

/// What a list's decoder stores, or why it refuses.
pub type Listed<P> = Result<Vec<P>, Error>;

pub fn cell_voltages(reply: &[u8], n_cells: u8) -> Listed<Bits> {
    let voltages = CellVoltages::decode(reply, n_cells)?;
    Ok(voltages.iter().copied().map(Bits).collect())
}

pub fn cell_temperatures(reply: &[u8], n_sensors: u8) -> Listed<i32> {
    CellTemperatures::decode(reply, n_sensors)
}

pub fn cell_balance_state(reply: &[u8], n_cells: u8) -> Listed<Flag> {
    let flags = CellBalanceState::decode(reply, n_cells)?;
    Ok(flags.into_iter().map(Flag::from).collect())
}

/// Positions in `ErrorCode`, as the compiler numbers its variants.
pub fn error_codes(reply: &[u8]) -> Listed<u8> {
    let codes = ErrorCode::decode(reply)?;
    Ok(codes.into_iter().map(|code| code as u8).collect())
}

/// The names of the faults listed, in the same order.
pub fn error_names(reply: &[u8]) -> Listed<String> {
    let codes = ErrorCode::decode(reply)?;
    Ok(codes.iter().map(|code| format!("{code:?}")).collect())
}

/// Of so many cells, and of so many sensors.
pub fn reply_sizes(n: u8) -> [usize; 2] {
    [CellVoltages::reply_size(n), CellTemperatures::reply_size(n)]
}
