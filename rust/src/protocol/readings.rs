//! The replies of one frame that are records.

use super::{plain_request, Address};
use crate::{ffi, Error};

/// Total voltage, current and state of charge.
#[derive(Debug, Clone, PartialEq)]
pub struct Soc {
    /// Total voltage, in volts.
    pub total_voltage: f32,
    /// Current, in amperes.
    pub current: f32,
    /// State of charge, in percent.
    pub soc_percent: f32,
}

impl Soc {
    const COMMAND: u8 = 0x90;

    /// The 13 bytes to send.
    pub fn request(address: Address) -> Vec<u8> {
        plain_request(address, Self::COMMAND)
    }

    /// How many bytes the reply has.
    pub fn reply_size() -> usize {
        ffi::FRAME
    }

    /// The record in a reply.
    pub fn decode(rx_buffer: &[u8]) -> Result<Self, Error> {
        let told = ffi::soc(rx_buffer)?;
        Ok(Self {
            total_voltage: told.total_voltage,
            current: told.current,
            soc_percent: told.soc_percent,
        })
    }
}

/// The highest and the lowest voltage of a cell.
#[derive(Debug, Clone, PartialEq)]
pub struct CellVoltageRange {
    /// Highest voltage, in volts.
    pub highest_voltage: f32,
    /// The cell that has it.
    pub highest_cell: u8,
    /// Lowest voltage, in volts.
    pub lowest_voltage: f32,
    /// The cell that has it.
    pub lowest_cell: u8,
}

impl CellVoltageRange {
    const COMMAND: u8 = 0x91;

    /// The 13 bytes to send.
    pub fn request(address: Address) -> Vec<u8> {
        plain_request(address, Self::COMMAND)
    }

    /// How many bytes the reply has.
    pub fn reply_size() -> usize {
        ffi::FRAME
    }

    /// The record in a reply.
    pub fn decode(rx_buffer: &[u8]) -> Result<Self, Error> {
        let told = ffi::cell_voltage_range(rx_buffer)?;
        Ok(Self {
            highest_voltage: told.highest_voltage,
            highest_cell: told.highest_cell,
            lowest_voltage: told.lowest_voltage,
            lowest_cell: told.lowest_cell,
        })
    }
}

/// The highest and the lowest temperature of a sensor.
#[derive(Debug, Clone, PartialEq)]
pub struct TemperatureRange {
    /// Highest temperature, in degrees Celsius. Over 127 it wraps, as in `dalybms_lib`.
    pub highest_temperature: i8,
    /// The sensor that has it.
    pub highest_sensor: u8,
    /// Lowest temperature, in degrees Celsius. Over 127 it wraps, as in `dalybms_lib`.
    pub lowest_temperature: i8,
    /// The sensor that has it.
    pub lowest_sensor: u8,
}

impl TemperatureRange {
    const COMMAND: u8 = 0x92;

    /// The 13 bytes to send.
    pub fn request(address: Address) -> Vec<u8> {
        plain_request(address, Self::COMMAND)
    }

    /// How many bytes the reply has.
    pub fn reply_size() -> usize {
        ffi::FRAME
    }

    /// The record in a reply.
    pub fn decode(rx_buffer: &[u8]) -> Result<Self, Error> {
        let told = ffi::temperature_range(rx_buffer)?;
        Ok(Self {
            highest_temperature: told.highest_temperature,
            highest_sensor: told.highest_sensor,
            lowest_temperature: told.lowest_temperature,
            lowest_sensor: told.lowest_sensor,
        })
    }
}

/// What the MOSFETs do.
#[derive(Debug, Clone, PartialEq)]
pub enum MosfetMode {
    /// Neither charging nor discharging.
    Stationary,
    /// Charging.
    Charging,
    /// Discharging.
    Discharging,
}

impl MosfetMode {
    pub(crate) fn at(mode: u8) -> Result<Self, Error> {
        match mode {
            0 => Ok(Self::Stationary),
            1 => Ok(Self::Charging),
            2 => Ok(Self::Discharging),
            other => Err(Error::Impossible(other)),
        }
    }
}

/// The MOSFETs and the remaining capacity.
#[derive(Debug, Clone, PartialEq)]
pub struct MosfetStatus {
    /// What the MOSFETs do.
    pub mode: MosfetMode,
    /// Whether the charging MOSFET is on.
    pub charging_mosfet: bool,
    /// Whether the discharging MOSFET is on.
    pub discharging_mosfet: bool,
    /// The board's count of cycles.
    pub bms_cycles: u8,
    /// Remaining capacity, in ampere-hours.
    pub capacity_ah: f32,
}

impl MosfetStatus {
    const COMMAND: u8 = 0x93;

    /// The 13 bytes to send.
    pub fn request(address: Address) -> Vec<u8> {
        plain_request(address, Self::COMMAND)
    }

    /// How many bytes the reply has.
    pub fn reply_size() -> usize {
        ffi::FRAME
    }

    /// The record in a reply. A mode over 2 is [`Error::UnknownMode`], where `dalybms_lib` panics.
    pub fn decode(rx_buffer: &[u8]) -> Result<Self, Error> {
        let told = ffi::mosfet_status(rx_buffer)?;
        Ok(Self {
            mode: MosfetMode::at(told.mode)?,
            charging_mosfet: told.charging_mosfet != 0,
            discharging_mosfet: told.discharging_mosfet != 0,
            bms_cycles: told.bms_cycles,
            capacity_ah: told.capacity_ah,
        })
    }
}

/// The digital inputs and outputs.
#[derive(Debug, Clone, PartialEq)]
pub struct IOState {
    /// Input 1.
    pub di1: bool,
    /// Input 2.
    pub di2: bool,
    /// Input 3.
    pub di3: bool,
    /// Input 4.
    pub di4: bool,
    /// Output 1.
    pub do1: bool,
    /// Output 2.
    pub do2: bool,
    /// Output 3.
    pub do3: bool,
    /// Output 4.
    pub do4: bool,
}

/// What the board consists of and does.
#[derive(Debug, Clone, PartialEq)]
pub struct Status {
    /// How many cells there are.
    pub cells: u8,
    /// How many temperature sensors there are.
    pub temperature_sensors: u8,
    /// Whether the charger is running.
    pub charger_running: bool,
    /// Whether a load is running.
    pub load_running: bool,
    /// The digital inputs and outputs.
    pub states: IOState,
    /// Cycles of charge and discharge.
    pub cycles: u16,
}

impl Status {
    const COMMAND: u8 = 0x94;

    /// The 13 bytes to send.
    pub fn request(address: Address) -> Vec<u8> {
        plain_request(address, Self::COMMAND)
    }

    /// How many bytes the reply has.
    pub fn reply_size() -> usize {
        ffi::FRAME
    }

    /// The record in a reply.
    pub fn decode(rx_buffer: &[u8]) -> Result<Self, Error> {
        let told = ffi::status(rx_buffer)?;
        Ok(Self {
            cells: told.cells,
            temperature_sensors: told.temperature_sensors,
            charger_running: told.charger_running != 0,
            load_running: told.load_running != 0,
            states: IOState {
                di1: told.di1 != 0,
                di2: told.di2 != 0,
                di3: told.di3 != 0,
                di4: told.di4 != 0,
                do1: told.do1 != 0,
                do2: told.do2 != 0,
                do3: told.do3 != 0,
                do4: told.do4 != 0,
            },
            cycles: told.cycles,
        })
    }
}
