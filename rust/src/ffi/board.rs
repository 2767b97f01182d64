//! What `include/daly_writers.h` declares, and calls of it that are safe for every argument.

use super::told::List;
pub use super::wire::{
    CellVoltageRangeWire, MosfetStatusWire, SocWire, StatusWire, TemperatureRangeWire,
};
use super::{cell_temperatures_reply_size, cell_voltages_reply_size, FLAGS, FRAME};
use crate::board::Refused;

/// A writer of a record: the sender's address, the record, the bytes lent.
type Write<T> = unsafe extern "C" fn(u8, T, *mut u8, usize) -> List;
/// A writer of a list: the sender's address, the values, the bytes lent.
type WriteList<T> = unsafe extern "C" fn(u8, *const T, usize, *mut u8, usize) -> List;
/// A writer of an acknowledgement: the sender's address, the bytes lent.
type Acknowledge = unsafe extern "C" fn(u8, *mut u8, usize) -> List;

extern "C" {
    fn daly_write_soc(address: u8, counts: SocWire, out: *mut u8, room: usize) -> List;
    fn daly_write_cell_voltage_range(
        address: u8,
        counts: CellVoltageRangeWire,
        out: *mut u8,
        room: usize,
    ) -> List;
    fn daly_write_temperature_range(
        address: u8,
        range: TemperatureRangeWire,
        out: *mut u8,
        room: usize,
    ) -> List;
    fn daly_write_mosfet_status(
        address: u8,
        counts: MosfetStatusWire,
        out: *mut u8,
        room: usize,
    ) -> List;
    fn daly_write_status(address: u8, status: StatusWire, out: *mut u8, room: usize) -> List;
    fn daly_write_cell_voltages(
        address: u8,
        cells: *const u16,
        n_cells: usize,
        out: *mut u8,
        room: usize,
    ) -> List;
    fn daly_write_cell_temperatures(
        address: u8,
        degrees: *const i32,
        n_sensors: usize,
        out: *mut u8,
        room: usize,
    ) -> List;
    fn daly_write_cell_balance_state(
        address: u8,
        flags: *const bool,
        n_flags: usize,
        out: *mut u8,
        room: usize,
    ) -> List;
    fn daly_write_error_codes(address: u8, faults: *const bool, out: *mut u8, room: usize) -> List;
    fn daly_write_set_discharge_mosfet(address: u8, out: *mut u8, room: usize) -> List;
    fn daly_write_set_charge_mosfet(address: u8, out: *mut u8, room: usize) -> List;
    fn daly_write_set_soc(address: u8, out: *mut u8, room: usize) -> List;
}

/// The bytes of `out` that were written.
fn kept(told: &List, mut out: Vec<u8>) -> Result<Vec<u8>, Refused> {
    Refused::check(told.number)?;
    out.truncate(told.count);
    Ok(out)
}

/// A reply that the library refuses only for too little room, and there was enough.
fn whole(told: &List, out: Vec<u8>) -> Vec<u8> {
    debug_assert_eq!((told.number, told.count), (0, FRAME), "no reply");
    out
}

fn record<T>(write: Write<T>, address: u8, record: T) -> (List, Vec<u8>) {
    let mut out = vec![0; FRAME];
    // SAFETY: pointer and length are those of a live vector that is lent to nobody else.
    let told = unsafe { write(address, record, out.as_mut_ptr(), out.len()) };
    (told, out)
}

pub fn soc(address: u8, counts: SocWire) -> Vec<u8> {
    let (told, out) = record(daly_write_soc, address, counts);
    whole(&told, out)
}

pub fn cell_voltage_range(address: u8, counts: CellVoltageRangeWire) -> Vec<u8> {
    let (told, out) = record(daly_write_cell_voltage_range, address, counts);
    whole(&told, out)
}

pub fn temperature_range(address: u8, range: TemperatureRangeWire) -> Vec<u8> {
    let (told, out) = record(daly_write_temperature_range, address, range);
    whole(&told, out)
}

pub fn mosfet_status(address: u8, counts: MosfetStatusWire) -> Result<Vec<u8>, Refused> {
    let (told, out) = record(daly_write_mosfet_status, address, counts);
    kept(&told, out)
}

pub fn status(address: u8, status: StatusWire) -> Vec<u8> {
    let (told, out) = record(daly_write_status, address, status);
    whole(&told, out)
}

/// Lends `room` bytes.
fn list<T>(
    write: WriteList<T>,
    address: u8,
    values: &[T],
    room: usize,
) -> Result<Vec<u8>, Refused> {
    let mut out = vec![0; room];
    let (first, n) = (values.as_ptr(), values.len());
    // SAFETY: as in `record`, and of the values; of no values the pointer is not null.
    let told = unsafe { write(address, first, n, out.as_mut_ptr(), room) };
    kept(&told, out)
}

/// The room for so many values; none where they are too many, which is refused before the room is looked at.
fn room(n: usize, reply_size: fn(u8) -> usize) -> usize {
    u8::try_from(n).map_or(0, reply_size)
}

pub fn cell_voltages(address: u8, cells: &[u16]) -> Result<Vec<u8>, Refused> {
    let room = room(cells.len(), cell_voltages_reply_size);
    list(daly_write_cell_voltages, address, cells, room)
}

pub fn cell_temperatures(address: u8, degrees: &[i32]) -> Result<Vec<u8>, Refused> {
    let room = room(degrees.len(), cell_temperatures_reply_size);
    list(daly_write_cell_temperatures, address, degrees, room)
}

pub fn cell_balance_state(address: u8, flags: &[bool]) -> Result<Vec<u8>, Refused> {
    list(daly_write_cell_balance_state, address, flags, FRAME)
}

pub fn error_codes(address: u8, faults: &[bool; FLAGS]) -> Vec<u8> {
    let mut out = vec![0; FRAME];
    // SAFETY: as in `record`; there are 48 faults.
    let told = unsafe { daly_write_error_codes(address, faults.as_ptr(), out.as_mut_ptr(), FRAME) };
    whole(&told, out)
}

fn acknowledgement(write: Acknowledge, address: u8) -> Vec<u8> {
    let mut out = vec![0; FRAME];
    // SAFETY: as in `record`.
    let told = unsafe { write(address, out.as_mut_ptr(), FRAME) };
    whole(&told, out)
}

pub fn set_discharge_mosfet(address: u8) -> Vec<u8> {
    acknowledgement(daly_write_set_discharge_mosfet, address)
}

pub fn set_charge_mosfet(address: u8) -> Vec<u8> {
    acknowledgement(daly_write_set_charge_mosfet, address)
}

pub fn set_soc(address: u8) -> Vec<u8> {
    acknowledgement(daly_write_set_soc, address)
}
