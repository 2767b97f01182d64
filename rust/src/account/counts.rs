//! The board's own whole numbers, beside the records with floats.

use crate::protocol::MosfetMode;
use crate::{ffi, Error};

/// [`Soc`](crate::protocol::Soc) in tenths.
///
/// ```
/// use daly::{account::SocCounts, protocol::Soc};
///
/// let reply = [0xA5, 0x01, 0x90, 0x08, 0x02, 0x0B, 0x00, 0x00, 0x74, 0xB7, 0x03, 0x6A, 0xE3];
/// let counts = SocCounts::decode(&reply)?;
/// assert_eq!((counts.total_voltage, counts.current, counts.soc_percent), (523, -121, 874));
/// assert_eq!(Soc::decode(&reply)?.current, -12.1);
/// # Ok::<(), daly::Error>(())
/// ```
#[derive(Clone, Copy, Debug, PartialEq, Eq)]
pub struct SocCounts {
    /// Total voltage, in tenths of a volt.
    pub total_voltage: u16,
    /// Current, in tenths of an ampere; below 0 while charging.
    pub current: i32,
    /// State of charge, in tenths of a percent.
    pub soc_percent: u16,
}

impl SocCounts {
    /// The counts in a 90 reply, which [`Soc::request`](crate::protocol::Soc::request) asks for.
    pub fn decode(rx_buffer: &[u8]) -> Result<Self, Error> {
        let told = ffi::account::soc_counts(rx_buffer)?;
        Ok(Self {
            total_voltage: told.total_voltage,
            current: told.current,
            soc_percent: told.soc_percent,
        })
    }
}

/// [`CellVoltageRange`](crate::protocol::CellVoltageRange) in millivolts.
///
/// ```
/// use daly::account::CellVoltageRangeCounts;
///
/// let reply = [0xA5, 0x01, 0x91, 0x08, 0x0C, 0xE6, 0x03, 0x0C, 0xE0, 0x08, 0x00, 0x00, 0x28];
/// let counts = CellVoltageRangeCounts::decode(&reply)?;
/// assert_eq!((counts.highest_voltage, counts.highest_cell), (3302, 3));
/// assert_eq!((counts.lowest_voltage, counts.lowest_cell), (3296, 8));
/// # Ok::<(), daly::Error>(())
/// ```
#[derive(Clone, Copy, Debug, PartialEq, Eq)]
pub struct CellVoltageRangeCounts {
    /// Highest voltage, in millivolts.
    pub highest_voltage: u16,
    /// The cell that has it.
    pub highest_cell: u8,
    /// Lowest voltage, in millivolts.
    pub lowest_voltage: u16,
    /// The cell that has it.
    pub lowest_cell: u8,
}

impl CellVoltageRangeCounts {
    /// The counts in a 91 reply, which
    /// [`CellVoltageRange::request`](crate::protocol::CellVoltageRange::request) asks for.
    pub fn decode(rx_buffer: &[u8]) -> Result<Self, Error> {
        let told = ffi::account::cell_voltage_range_counts(rx_buffer)?;
        Ok(Self {
            highest_voltage: told.highest_voltage,
            highest_cell: told.highest_cell,
            lowest_voltage: told.lowest_voltage,
            lowest_cell: told.lowest_cell,
        })
    }
}

/// [`MosfetStatus`](crate::protocol::MosfetStatus) with the capacity in thousandths, of which an `f32` can lose
/// digits.
///
/// ```
/// use daly::{account::MosfetStatusCounts, protocol::MosfetMode};
///
/// let reply = [0xA5, 0x01, 0x93, 0x08, 0x02, 0x01, 0x00, 0x17, 0x00, 0x01, 0x64, 0x62, 0x22];
/// let counts = MosfetStatusCounts::decode(&reply)?;
/// assert_eq!((counts.mode, counts.capacity_ah), (MosfetMode::Discharging, 91_234));
/// # Ok::<(), daly::Error>(())
/// ```
#[derive(Clone, Debug, PartialEq)]
pub struct MosfetStatusCounts {
    /// What the MOSFETs do.
    pub mode: MosfetMode,
    /// Whether the charging MOSFET is on.
    pub charging_mosfet: bool,
    /// Whether the discharging MOSFET is on.
    pub discharging_mosfet: bool,
    /// The board's count of cycles.
    pub bms_cycles: u8,
    /// Remaining capacity, in thousandths of an ampere-hour.
    pub capacity_ah: u32,
}

impl MosfetStatusCounts {
    /// The counts in a 93 reply, which [`MosfetStatus::request`](crate::protocol::MosfetStatus::request) asks for.
    pub fn decode(rx_buffer: &[u8]) -> Result<Self, Error> {
        let told = ffi::account::mosfet_status_counts(rx_buffer)?;
        Ok(Self {
            mode: MosfetMode::at(told.mode)?,
            charging_mosfet: told.charging_mosfet != 0,
            discharging_mosfet: told.discharging_mosfet != 0,
            bms_cycles: told.bms_cycles,
            capacity_ah: told.capacity_ah,
        })
    }
}

/// The cells' voltages, in millivolts, in the frames of a 95 reply, which
/// [`CellVoltages::request`](crate::protocol::CellVoltages::request) asks for.
///
/// ```
/// use daly::{account::cell_millivolts, Error};
///
/// let reply = [0xA5, 0x01, 0x95, 0x08, 0x01, 0x0C, 0xE5, 0x0C, 0xE2, 0x0C, 0xE6, 0x00, 0x15];
/// assert_eq!(cell_millivolts(&reply, 2), Ok(vec![3301, 3298]));
/// assert_eq!(cell_millivolts(&reply, 4), Err(Error::ReplySizeError));
/// ```
pub fn cell_millivolts(rx_buffer: &[u8], n_cells: u8) -> Result<Vec<u16>, Error> {
    ffi::account::cell_millivolts(rx_buffer, n_cells)
}
