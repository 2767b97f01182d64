//! What `include/daly.h` declares, and calls of it that are safe for every argument.

pub mod account;
#[cfg(feature = "board")]
pub mod board;
mod reader;
mod told;
#[cfg(feature = "board")]
mod wire;

use crate::Error;
use told::{CellVoltageRange, FrameKind, List, MosfetStatus, Soc, Status, TemperatureRange};
pub use told::{Counts, Discarded, Reader};

/// Bytes of a frame.
pub const FRAME: usize = 13;
/// Bytes that a reader has room for: 85 frames.
pub const FRAMES: usize = 1105;
/// How many faults there are, and balance flags at most.
pub const FLAGS: usize = 48;

/// A record's decoder.
type Decode<T> = unsafe extern "C" fn(*const u8, usize) -> T;
/// A list's decoder: the reply, the count of values, the places lent.
type DecodeList<P> = unsafe extern "C" fn(*const u8, usize, u8, *mut P, usize) -> List;

extern "C" {
    fn daly_frame_check(buffer: *const u8, len: usize, command: u8) -> FrameKind;
    fn daly_request(command: u8, enable: bool, soc_percent: f32, out: *mut u8) -> u8;
    fn daly_soc(reply: *const u8, len: usize) -> Soc;
    fn daly_cell_voltage_range(reply: *const u8, len: usize) -> CellVoltageRange;
    fn daly_temperature_range(reply: *const u8, len: usize) -> TemperatureRange;
    fn daly_mosfet_status(reply: *const u8, len: usize) -> MosfetStatus;
    fn daly_status(reply: *const u8, len: usize) -> Status;
    fn daly_cell_voltages_reply_size(n_cells: u8) -> usize;
    fn daly_cell_voltages(
        reply: *const u8,
        len: usize,
        n_cells: u8,
        out: *mut f32,
        room: usize,
    ) -> List;
    fn daly_cell_temperatures_reply_size(n_sensors: u8) -> usize;
    fn daly_cell_temperatures(
        reply: *const u8,
        len: usize,
        n_sensors: u8,
        out: *mut i32,
        room: usize,
    ) -> List;
    fn daly_cell_balance_state(
        reply: *const u8,
        len: usize,
        n_cells: u8,
        out: *mut bool,
        room: usize,
    ) -> List;
    fn daly_error_codes(reply: *const u8, len: usize, out: *mut u8, room: usize) -> List;
}

/// Whether the reply is a right frame of this command. An echo is one, too, as in `dalybms_lib`.
pub fn check(reply: &[u8], command: u8) -> Result<(), Error> {
    // SAFETY: pointer and length are those of a live slice; of an empty one the pointer is not null.
    let kind = unsafe { daly_frame_check(reply.as_ptr(), reply.len(), command) };
    Error::check(kind.number)
}

/// The request of one of the thirteen commands, of which the library refuses none.
pub fn request(command: u8, enable: bool, soc_percent: f32) -> Vec<u8> {
    let mut out = [0; FRAME];
    // SAFETY: `out` is 13 bytes, alive and lent to nobody else.
    let number = unsafe { daly_request(command, enable, soc_percent, out.as_mut_ptr()) };
    debug_assert_eq!(number, 0, "no request of command {command:02X}");
    out.to_vec()
}

fn record<T>(decode: Decode<T>, reply: &[u8], number: fn(&T) -> u8) -> Result<T, Error> {
    // SAFETY: as in check.
    let told = unsafe { decode(reply.as_ptr(), reply.len()) };
    Error::check(number(&told)).map(|()| told)
}

pub fn soc(reply: &[u8]) -> Result<Soc, Error> {
    record(daly_soc, reply, |told| told.number)
}

pub fn cell_voltage_range(reply: &[u8]) -> Result<CellVoltageRange, Error> {
    record(daly_cell_voltage_range, reply, |told| told.number)
}

pub fn temperature_range(reply: &[u8]) -> Result<TemperatureRange, Error> {
    record(daly_temperature_range, reply, |told| told.number)
}

pub fn mosfet_status(reply: &[u8]) -> Result<MosfetStatus, Error> {
    record(daly_mosfet_status, reply, |told| told.number)
}

pub fn status(reply: &[u8]) -> Result<Status, Error> {
    record(daly_status, reply, |told| told.number)
}

/// Lends `room` places and keeps those that were filled.
fn list<P>(decode: DecodeList<P>, reply: &[u8], n: u8, room: usize) -> Result<Vec<P>, Error> {
    let mut out = Vec::with_capacity(room);
    // SAFETY: as in check; `out` has `room` places, alive and lent to nobody else.
    let told = unsafe { decode(reply.as_ptr(), reply.len(), n, out.as_mut_ptr(), room) };
    Error::check(told.number)?;
    // SAFETY: so many values stand at the front, at most `room`.
    unsafe { out.set_len(told.count) };
    Ok(out)
}

pub fn cell_voltages_reply_size(n_cells: u8) -> usize {
    // SAFETY: nothing is lent.
    unsafe { daly_cell_voltages_reply_size(n_cells) }
}

pub fn cell_voltages(reply: &[u8], n_cells: u8) -> Result<Vec<f32>, Error> {
    list(daly_cell_voltages, reply, n_cells, n_cells.into())
}

pub fn cell_temperatures_reply_size(n_sensors: u8) -> usize {
    // SAFETY: nothing is lent.
    unsafe { daly_cell_temperatures_reply_size(n_sensors) }
}

pub fn cell_temperatures(reply: &[u8], n_sensors: u8) -> Result<Vec<i32>, Error> {
    list(daly_cell_temperatures, reply, n_sensors, n_sensors.into())
}

pub fn cell_balance_state(reply: &[u8], n_cells: u8) -> Result<Vec<bool>, Error> {
    list(daly_cell_balance_state, reply, n_cells, FLAGS)
}

/// Positions in `ErrorCode`.
pub fn error_codes(reply: &[u8]) -> Result<Vec<u8>, Error> {
    /// In the form of the other lists; faults have no count.
    unsafe extern "C" fn decode(
        reply: *const u8,
        len: usize,
        _: u8,
        out: *mut u8,
        room: usize,
    ) -> List {
        // SAFETY: the caller's.
        unsafe { daly_error_codes(reply, len, out, room) }
    }
    list(decode, reply, 0, FLAGS)
}
