//! Replies as a board sends them, for a bench that plays the board. Only with the feature `board`, which links
//! `libwriters.a` (`tools/build writers`) beside `libdaly.a`.
//!
//! What is written decodes to what was meant, for every input that is accepted: this is proved.
//!
//! ```
//! use daly::{board, protocol};
//!
//! // 52.3 V, −12.1 A, 87.4 %: the current is 30,000 more on the wire.
//! let counts = board::Soc { total_voltage: 523, current: 29_879, soc_percent: 874 };
//! let reply = board::soc(1, counts);
//!
//! let soc = protocol::Soc { total_voltage: 52.3, current: -12.1, soc_percent: 87.4 };
//! assert_eq!(protocol::Soc::decode(&reply), Ok(soc));
//! ```
//!
//! `address` is the sender's, byte 1 of every frame: any byte. A board has 1, and 40 hexadecimal is the host. Values
//! are the wire's own whole numbers. Bytes and bits without meaning are 0, and a true flag is 1.

use crate::account::CellVoltageRangeCounts;
use crate::ffi::board as ffi;
use crate::protocol::{Status, TemperatureRange};
use std::fmt::{self, Display, Formatter};

/// Why there is no reply. More may come, so a `match` needs a `_`.
#[derive(Clone, Copy, Debug, PartialEq, Eq)]
#[non_exhaustive]
pub enum Refused {
    /// More than 255 cells or sensors.
    CountTooLarge,
    /// What no reply can say: a mode over 2, a temperature outside −40 to 215 in a 96 reply, a balance list not of 1
    /// to 48 flags.
    ValueOutOfRange,
    /// The library answered this number, which it is proved not to do: another library was linked.
    Impossible(u8),
}

impl Refused {
    /// The library's number as a result; 0 is done.
    pub(crate) fn check(number: u8) -> Result<(), Self> {
        match number {
            0 => Ok(()),
            11 => Err(Self::CountTooLarge),
            12 => Err(Self::ValueOutOfRange),
            other => Err(Self::Impossible(other)),
        }
    }

    /// The refusal's number, as the library tells it.
    ///
    /// ```
    /// use daly::board;
    ///
    /// assert_eq!(board::cell_voltages(1, &[3300; 256]).unwrap_err().number(), 11);
    /// assert_eq!(board::cell_balance_state(1, &[]).unwrap_err().number(), 12);
    /// ```
    pub fn number(self) -> u8 {
        match self {
            Self::CountTooLarge => 11,
            Self::ValueOutOfRange => 12,
            Self::Impossible(number) => number,
        }
    }
}

/// Words of this crate's own.
impl Display for Refused {
    fn fmt(&self, f: &mut Formatter<'_>) -> fmt::Result {
        f.write_str(match self {
            Self::CountTooLarge => "the cells or sensors are too many",
            Self::ValueOutOfRange => "no reply can say this value",
            Self::Impossible(number) => return write!(f, "the library answered {number}"),
        })
    }
}

impl std::error::Error for Refused {}

/// What a 90 reply carries, as it is on the wire.
#[derive(Clone, Copy, Debug, PartialEq, Eq)]
pub struct Soc {
    /// Total voltage, in tenths of a volt.
    pub total_voltage: u16,
    /// Current, in tenths of an ampere and 30,000 more than it is; 30,000 is no current.
    pub current: u16,
    /// State of charge, in tenths of a percent.
    pub soc_percent: u16,
}

/// The reply to 90.
pub fn soc(address: u8, counts: Soc) -> Vec<u8> {
    let wire = ffi::SocWire {
        total_voltage: counts.total_voltage,
        current: counts.current,
        soc_percent: counts.soc_percent,
    };
    ffi::soc(address, wire)
}

/// The reply to 91.
///
/// ```
/// use daly::{account::CellVoltageRangeCounts, board};
///
/// let counts = CellVoltageRangeCounts {
///     highest_voltage: 3302,
///     highest_cell: 3,
///     lowest_voltage: 3296,
///     lowest_cell: 8,
/// };
/// let reply = board::cell_voltage_range(1, counts);
/// assert_eq!(CellVoltageRangeCounts::decode(&reply), Ok(counts));
/// ```
pub fn cell_voltage_range(address: u8, counts: CellVoltageRangeCounts) -> Vec<u8> {
    let wire = ffi::CellVoltageRangeWire {
        highest_voltage: counts.highest_voltage,
        highest_cell: counts.highest_cell,
        lowest_voltage: counts.lowest_voltage,
        lowest_cell: counts.lowest_cell,
    };
    ffi::cell_voltage_range(address, wire)
}

/// The reply to 92. Every temperature has its byte, which is 40 more, modulo 256.
///
/// ```
/// use daly::{board, protocol::TemperatureRange};
///
/// let range = TemperatureRange {
///     highest_temperature: 30,
///     highest_sensor: 2,
///     lowest_temperature: -128,
///     lowest_sensor: 1,
/// };
/// let reply = board::temperature_range(1, &range);
/// assert_eq!(reply[4..8], [70, 2, 168, 1]);
/// assert_eq!(TemperatureRange::decode(&reply), Ok(range));
/// ```
pub fn temperature_range(address: u8, range: &TemperatureRange) -> Vec<u8> {
    let wire = ffi::TemperatureRangeWire {
        highest_temperature: range.highest_temperature,
        highest_sensor: range.highest_sensor,
        lowest_temperature: range.lowest_temperature,
        lowest_sensor: range.lowest_sensor,
    };
    ffi::temperature_range(address, wire)
}

/// What a 93 reply carries, as it is on the wire.
#[derive(Clone, Copy, Debug, PartialEq, Eq)]
pub struct MosfetStatus {
    /// 0 stationary, 1 charging, 2 discharging. There is no other.
    pub mode: u8,
    /// Whether the charging MOSFET is on.
    pub charging_mosfet: bool,
    /// Whether the discharging MOSFET is on.
    pub discharging_mosfet: bool,
    /// The board's count of cycles.
    pub bms_cycles: u8,
    /// Remaining capacity, in thousandths of an ampere-hour.
    pub capacity_ah: u32,
}

/// The reply to 93. A mode over 2 is [`Refused::ValueOutOfRange`].
///
/// ```
/// use daly::board::{mosfet_status, MosfetStatus, Refused};
/// use daly::{account::MosfetStatusCounts, protocol::MosfetMode};
///
/// let counts = MosfetStatus {
///     mode: 2,
///     charging_mosfet: true,
///     discharging_mosfet: false,
///     bms_cycles: 23,
///     capacity_ah: 91_234,
/// };
/// let read = MosfetStatusCounts {
///     mode: MosfetMode::Discharging,
///     charging_mosfet: true,
///     discharging_mosfet: false,
///     bms_cycles: 23,
///     capacity_ah: 91_234,
/// };
/// assert_eq!(MosfetStatusCounts::decode(&mosfet_status(1, counts).unwrap()), Ok(read));
///
/// let unknown = MosfetStatus { mode: 3, ..counts };
/// assert_eq!(mosfet_status(1, unknown), Err(Refused::ValueOutOfRange));
/// ```
pub fn mosfet_status(address: u8, counts: MosfetStatus) -> Result<Vec<u8>, Refused> {
    let wire = ffi::MosfetStatusWire {
        mode: counts.mode,
        charging_mosfet: counts.charging_mosfet,
        discharging_mosfet: counts.discharging_mosfet,
        bms_cycles: counts.bms_cycles,
        capacity_ah: counts.capacity_ah,
    };
    ffi::mosfet_status(address, wire)
}

/// The reply to 94. It does not look at the lists: say the numbers of cells and sensors that 95 to 97 then have.
///
/// ```
/// use daly::board;
/// use daly::protocol::{IOState, Status};
///
/// let status = Status {
///     cells: 16,
///     temperature_sensors: 4,
///     charger_running: true,
///     load_running: false,
///     states: IOState {
///         di1: true,
///         di2: false,
///         di3: false,
///         di4: false,
///         do1: false,
///         do2: true,
///         do3: false,
///         do4: false,
///     },
///     cycles: 300,
/// };
/// let reply = board::status(1, &status);
/// assert_eq!(reply[8], 0x21);
/// assert_eq!(Status::decode(&reply), Ok(status));
/// ```
pub fn status(address: u8, status: &Status) -> Vec<u8> {
    let states = &status.states;
    let wire = ffi::StatusWire {
        cells: status.cells,
        temperature_sensors: status.temperature_sensors,
        charger_running: status.charger_running,
        load_running: status.load_running,
        di1: states.di1,
        di2: states.di2,
        di3: states.di3,
        di4: states.di4,
        do1: states.do1,
        do2: states.do2,
        do3: states.do3,
        do4: states.do4,
        cycles: status.cycles,
    };
    ffi::status(address, wire)
}

/// The reply to 95, of cells in millivolts: a frame for every three. More than 255 are [`Refused::CountTooLarge`];
/// no cells are no bytes.
///
/// ```
/// use daly::{account::cell_millivolts, board};
///
/// let cells = [3301, 3298, 3302, 3297];
/// let reply = board::cell_voltages(1, &cells).unwrap();
/// assert_eq!(reply.len(), 26);
/// assert_eq!(cell_millivolts(&reply, 4), Ok(cells.to_vec()));
/// ```
pub fn cell_voltages(address: u8, cells: &[u16]) -> Result<Vec<u8>, Refused> {
    ffi::cell_voltages(address, cells)
}

/// The reply to 96, of sensors in degrees: a frame for every seven. More than 255 are [`Refused::CountTooLarge`], a
/// temperature outside −40 to 215 is [`Refused::ValueOutOfRange`]; no sensors are no bytes.
///
/// ```
/// use daly::board::{cell_temperatures, Refused};
/// use daly::protocol::CellTemperatures;
///
/// let degrees = [25, -40, 215];
/// let reply = cell_temperatures(1, &degrees).unwrap();
/// assert_eq!(CellTemperatures::decode(&reply, 3), Ok(degrees.to_vec()));
/// assert_eq!(cell_temperatures(1, &[216]), Err(Refused::ValueOutOfRange));
/// ```
pub fn cell_temperatures(address: u8, degrees: &[i32]) -> Result<Vec<u8>, Refused> {
    ffi::cell_temperatures(address, degrees)
}

/// The reply to 97, of a flag for each cell. Not of 1 to 48 flags it is [`Refused::ValueOutOfRange`].
///
/// ```
/// use daly::{board, protocol::CellBalanceState};
///
/// let flags = [true, false, true];
/// let reply = board::cell_balance_state(1, &flags).unwrap();
/// assert_eq!(CellBalanceState::decode(&reply, 3), Ok(flags.to_vec()));
/// ```
pub fn cell_balance_state(address: u8, flags: &[bool]) -> Result<Vec<u8>, Refused> {
    ffi::cell_balance_state(address, flags)
}

/// The reply to 98, of a flag for each fault, in the order of [`ErrorCode`](crate::protocol::ErrorCode).
///
/// ```
/// use daly::{board, protocol::ErrorCode};
///
/// let mut faults = [false; 48];
/// faults[ErrorCode::RtcErr as usize] = true;
/// let reply = board::error_codes(1, &faults);
/// assert_eq!(ErrorCode::decode(&reply), Ok(vec![ErrorCode::RtcErr]));
/// ```
pub fn error_codes(address: u8, faults: &[bool; 48]) -> Vec<u8> {
    ffi::error_codes(address, faults)
}

/// The acknowledgement of D9, which switches the discharging MOSFET.
///
/// ```
/// use daly::{board, protocol::SetDischargeMosfet};
///
/// assert_eq!(SetDischargeMosfet::decode(&board::set_discharge_mosfet(1)), Ok(()));
/// ```
pub fn set_discharge_mosfet(address: u8) -> Vec<u8> {
    ffi::set_discharge_mosfet(address)
}

/// The acknowledgement of DA, which switches the charging MOSFET.
///
/// ```
/// use daly::{board, protocol::SetChargeMosfet};
///
/// assert_eq!(SetChargeMosfet::decode(&board::set_charge_mosfet(1)), Ok(()));
/// ```
pub fn set_charge_mosfet(address: u8) -> Vec<u8> {
    ffi::set_charge_mosfet(address)
}

/// The acknowledgement of 21, which sets the state of charge.
///
/// ```
/// use daly::{board, protocol::SetSoc};
///
/// assert_eq!(SetSoc::decode(&board::set_soc(1)), Ok(()));
/// ```
pub fn set_soc(address: u8) -> Vec<u8> {
    ffi::set_soc(address)
}
