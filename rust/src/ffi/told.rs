//! The answers, as the library lays them out. A flag is taken as a byte; it is 0 or 1.

use super::FRAMES;

#[repr(C)]
pub struct FrameKind {
    pub number: u8,
    pub echo: u8,
}

#[repr(C)]
pub struct Soc {
    pub number: u8,
    pub total_voltage: f32,
    pub current: f32,
    pub soc_percent: f32,
}

#[repr(C)]
pub struct SocCounts {
    pub number: u8,
    pub total_voltage: u16,
    pub current: i32,
    pub soc_percent: u16,
}

#[repr(C)]
pub struct CellVoltageRange {
    pub number: u8,
    pub highest_voltage: f32,
    pub highest_cell: u8,
    pub lowest_voltage: f32,
    pub lowest_cell: u8,
}

#[repr(C)]
pub struct CellVoltageRangeCounts {
    pub number: u8,
    pub highest_voltage: u16,
    pub highest_cell: u8,
    pub lowest_voltage: u16,
    pub lowest_cell: u8,
}

#[repr(C)]
pub struct TemperatureRange {
    pub number: u8,
    pub highest_temperature: i8,
    pub highest_sensor: u8,
    pub lowest_temperature: i8,
    pub lowest_sensor: u8,
}

#[repr(C)]
pub struct MosfetStatus {
    pub number: u8,
    pub mode: u8,
    pub charging_mosfet: u8,
    pub discharging_mosfet: u8,
    pub bms_cycles: u8,
    pub capacity_ah: f32,
}

#[repr(C)]
pub struct MosfetStatusCounts {
    pub number: u8,
    pub mode: u8,
    pub charging_mosfet: u8,
    pub discharging_mosfet: u8,
    pub bms_cycles: u8,
    pub capacity_ah: u32,
}

#[repr(C)]
pub struct Status {
    pub number: u8,
    pub cells: u8,
    pub temperature_sensors: u8,
    pub charger_running: u8,
    pub load_running: u8,
    pub di1: u8,
    pub di2: u8,
    pub di3: u8,
    pub di4: u8,
    pub do1: u8,
    pub do2: u8,
    pub do3: u8,
    pub do4: u8,
    pub cycles: u16,
}

#[repr(C)]
pub struct List {
    pub number: u8,
    pub count: usize,
}

#[repr(C)]
pub struct Pack {
    pub number: u8,
    pub agrees: u8,
    pub difference: i32,
}

/// Why bytes were discarded: how many for each reason, modulo 2^32. `dalybms_lib` has their sum alone.
///
/// A bad cable shows as noise and wrong sums, a second master as frames of another command.
#[derive(Clone, Copy, Debug, Default, PartialEq, Eq)]
#[repr(C)]
pub struct Discarded {
    /// Bytes before a start byte, A5.
    pub noise: u32,
    /// Wrong sums, one byte each time: what follows it, up to the next start byte, is noise.
    pub sum: u32,
    /// Right frames of another command, 13 bytes each.
    pub command: u32,
    /// Frames whose number is not the next, nor 1, 13 bytes each.
    pub number: u32,
    /// Echoes, by a strict reader, 13 bytes each. Of any other reader 0: it collects an echo, or finds its number wrong.
    pub echo: u32,
}

#[derive(Clone, Copy, Debug)]
#[repr(C)]
pub struct Counts {
    pub command: u8,
    pub mark: u8,
    pub strict: u8,
    pub taken: u32,
    pub discarded: Discarded,
    pub cleared: u32,
    pub wanted: usize,
    pub collected: usize,
    pub held: usize,
}

/// The collected frames stand at the front of `frames`, the held bytes behind them.
#[derive(Clone, Copy)]
#[repr(C)]
pub struct Reader {
    pub counts: Counts,
    pub frames: [u8; FRAMES],
}

#[repr(C)]
pub struct Said {
    pub status: u8,
    pub missing: u8,
    pub took: usize,
}

#[repr(C)]
pub struct Missing {
    pub number: u8,
    pub missing: usize,
}
