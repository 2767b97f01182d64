//! The port's writers, as the static library exports them.

use super::{Lent, Writer};
use crate::port::Port;
use crate::random::Random;
use crate::told::{Answer, Left, ListTold};

/// Places before what is lent, and as many behind it.
pub const FENCE: usize = 16;

pub const NO_ROOM: u8 = 9;
pub const COUNT_TOO_LARGE: u8 = 11;
pub const VALUE_OUT_OF_RANGE: u8 = 12;

#[derive(Clone, Copy, Debug)]
#[repr(C)]
pub struct SocWire {
    pub total_voltage: u16,
    pub current: u16,
    pub soc_percent: u16,
}

#[derive(Clone, Copy, Debug)]
#[repr(C)]
pub struct CellVoltageRangeWire {
    pub highest_voltage: u16,
    pub highest_cell: u8,
    pub lowest_voltage: u16,
    pub lowest_cell: u8,
}

#[derive(Clone, Copy, Debug)]
#[repr(C)]
pub struct TemperatureRangeWire {
    pub highest_temperature: i8,
    pub highest_sensor: u8,
    pub lowest_temperature: i8,
    pub lowest_sensor: u8,
}

#[derive(Clone, Copy, Debug)]
#[repr(C)]
pub struct MosfetStatusWire {
    pub mode: u8,
    pub charging_mosfet: bool,
    pub discharging_mosfet: bool,
    pub bms_cycles: u8,
    pub capacity_ah: u32,
}

/// `states` are `di1` to `di4`, then `do1` to `do4`.
#[derive(Clone, Copy, Debug)]
#[repr(C)]
pub struct StatusWire {
    pub cells: u8,
    pub temperature_sensors: u8,
    pub charger_running: bool,
    pub load_running: bool,
    pub states: [bool; 8],
    pub cycles: u16,
}

extern "C" {
    pub fn daly_write_soc(address: u8, counts: SocWire, out: *mut u8, room: usize) -> ListTold;
    pub fn daly_write_cell_voltage_range(
        address: u8,
        counts: CellVoltageRangeWire,
        out: *mut u8,
        room: usize,
    ) -> ListTold;
    pub fn daly_write_temperature_range(
        address: u8,
        range: TemperatureRangeWire,
        out: *mut u8,
        room: usize,
    ) -> ListTold;
    pub fn daly_write_mosfet_status(
        address: u8,
        counts: MosfetStatusWire,
        out: *mut u8,
        room: usize,
    ) -> ListTold;
    pub fn daly_write_status(
        address: u8,
        status: StatusWire,
        out: *mut u8,
        room: usize,
    ) -> ListTold;
    pub fn daly_write_cell_voltages(
        address: u8,
        cells: *const u16,
        n_cells: usize,
        out: *mut u8,
        room: usize,
    ) -> ListTold;
    pub fn daly_write_cell_temperatures(
        address: u8,
        degrees: *const i32,
        n_sensors: usize,
        out: *mut u8,
        room: usize,
    ) -> ListTold;
    pub fn daly_write_cell_balance_state(
        address: u8,
        flags: *const bool,
        n_flags: usize,
        out: *mut u8,
        room: usize,
    ) -> ListTold;
    pub fn daly_write_error_codes(
        address: u8,
        faults: *const [bool; 48],
        out: *mut u8,
        room: usize,
    ) -> ListTold;
    pub fn daly_write_set_discharge_mosfet(address: u8, out: *mut u8, room: usize) -> ListTold;
    pub fn daly_write_set_charge_mosfet(address: u8, out: *mut u8, room: usize) -> ListTold;
    pub fn daly_write_set_soc(address: u8, out: *mut u8, room: usize) -> ListTold;
}

/// Drawn bytes for so many lent places and the fences about them.
pub fn buffer(random: &mut Random, room: usize) -> Vec<u8> {
    let words = (2 * FENCE + room).div_ceil(8);
    (0..words)
        .flat_map(|_| random.next().to_le_bytes())
        .collect()
}

/// An answer, and the bytes that it says were written.
pub struct Wrote {
    pub told: ListTold,
    pub bytes: Vec<u8>,
}

/// A reply of no bytes has only the answer.
impl Answer for Wrote {
    fn flip(&mut self, bit: usize) {
        if bit % 2 == 0 || self.bytes.is_empty() {
            self.told.flip(bit / 2);
        } else {
            self.bytes.flip(bit / 2);
        }
    }
}

impl Port {
    /// Lends the places of the buffer behind its first fence.
    fn lend<W: Writer>(input: &W::Input, lent: Lent, buffer: &mut [u8]) -> ListTold {
        assert!(
            2 * FENCE + lent.room <= buffer.len(),
            "no such places to lend"
        );
        // The pointer is to the whole buffer, so that a write to a fence is one to memory of ours.
        let out = buffer.as_mut_ptr().wrapping_add(FENCE);
        // SAFETY: `out` has `room` places, alive and lent to nobody else.
        unsafe { W::ask(lent.address, input, out, lent.room) }
    }

    /// The whole buffer afterwards.
    pub fn write<W: Writer>(
        &mut self,
        input: &W::Input,
        lent: Lent,
        mut buffer: Vec<u8>,
    ) -> Left<u8> {
        let told = Self::lend::<W>(input, lent, &mut buffer);
        self.answered(Left { told, buffer })
    }

    /// Only what was written.
    pub fn wrote<W: Writer>(&mut self, input: &W::Input, lent: Lent, mut buffer: Vec<u8>) -> Wrote {
        let told = Self::lend::<W>(input, lent, &mut buffer);
        let bytes = buffer[FENCE..FENCE + told.count.min(lent.room)].to_vec();
        self.answered(Wrote { told, bytes })
    }
}
