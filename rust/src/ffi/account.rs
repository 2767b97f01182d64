//! The calls that serve `crate::account`.

use super::told::{CellVoltageRangeCounts, Discarded, List, MosfetStatusCounts, Pack, SocCounts};
use super::{list, record};
use crate::Error;

extern "C" {
    fn daly_calc_crc(buffer: *const u8, len: usize) -> u8;
    fn daly_frame_refusal(buffer: *const u8, len: usize, k: usize) -> u8;
    fn daly_soc_counts(reply: *const u8, len: usize) -> SocCounts;
    fn daly_cell_voltage_range_counts(reply: *const u8, len: usize) -> CellVoltageRangeCounts;
    fn daly_mosfet_status_counts(reply: *const u8, len: usize) -> MosfetStatusCounts;
    fn daly_cell_millivolts(
        reply: *const u8,
        len: usize,
        n_cells: u8,
        out: *mut u16,
        room: usize,
    ) -> List;
    fn daly_pack_check(cells: *const u16, n_cells: usize, total_voltage: u16) -> Pack;
    fn daly_discarded_all(discarded: Discarded) -> u32;
}

pub fn calc_crc(buffer: &[u8]) -> u8 {
    // SAFETY: as in `super::check`.
    unsafe { daly_calc_crc(buffer.as_ptr(), buffer.len()) }
}

/// Whether there is a full frame k.
pub fn frame_refusal(buffer: &[u8], k: usize) -> Result<(), Error> {
    // SAFETY: as in `super::check`.
    Error::check(unsafe { daly_frame_refusal(buffer.as_ptr(), buffer.len(), k) })
}

pub fn soc_counts(reply: &[u8]) -> Result<SocCounts, Error> {
    record(daly_soc_counts, reply, |told| told.number)
}

pub fn cell_voltage_range_counts(reply: &[u8]) -> Result<CellVoltageRangeCounts, Error> {
    record(daly_cell_voltage_range_counts, reply, |told| told.number)
}

pub fn mosfet_status_counts(reply: &[u8]) -> Result<MosfetStatusCounts, Error> {
    record(daly_mosfet_status_counts, reply, |told| told.number)
}

pub fn cell_millivolts(reply: &[u8], n_cells: u8) -> Result<Vec<u16>, Error> {
    list(daly_cell_millivolts, reply, n_cells, n_cells.into())
}

pub fn pack_check(cells: &[u16], total_voltage: u16) -> Result<Pack, Error> {
    // SAFETY: as in `super::check`, of cells.
    let told = unsafe { daly_pack_check(cells.as_ptr(), cells.len(), total_voltage) };
    Error::check(told.number).map(|()| told)
}

pub fn discarded_all(discarded: Discarded) -> u32 {
    // SAFETY: nothing is lent.
    unsafe { daly_discarded_all(discarded) }
}
