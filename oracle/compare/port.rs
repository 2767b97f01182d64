//! The port, as the static library exports it.

use crate::frames::FRAME;
use crate::told::*;

extern "C" {
    fn daly_calc_crc(p: *const u8, len: usize) -> u8;
    fn daly_frame_check(p: *const u8, len: usize, command: u8) -> FrameKindTold;
    fn daly_frame_refusal(p: *const u8, len: usize, k: usize) -> u8;
    fn daly_request(command: u8, enable: bool, soc_percent: f32, out: *mut [u8; FRAME]) -> u8;
    pub fn daly_soc(p: *const u8, len: usize) -> SocTold;
    pub fn daly_soc_counts(p: *const u8, len: usize) -> SocCountsTold;
    pub fn daly_cell_voltage_range(p: *const u8, len: usize) -> CellVoltageRangeTold;
    pub fn daly_cell_voltage_range_counts(p: *const u8, len: usize) -> CellVoltageRangeCountsTold;
    pub fn daly_temperature_range(p: *const u8, len: usize) -> TemperatureRangeTold;
    pub fn daly_mosfet_status(p: *const u8, len: usize) -> MosfetStatusTold;
    pub fn daly_mosfet_status_counts(p: *const u8, len: usize) -> MosfetStatusCountsTold;
    pub fn daly_status(p: *const u8, len: usize) -> StatusTold;
    pub fn daly_cell_voltages(
        p: *const u8,
        len: usize,
        n_cells: u8,
        out: *mut Bits,
        room: usize,
    ) -> ListTold;
    pub fn daly_cell_millivolts(
        p: *const u8,
        len: usize,
        n_cells: u8,
        out: *mut u16,
        room: usize,
    ) -> ListTold;
    pub fn daly_cell_temperatures(
        p: *const u8,
        len: usize,
        n_sensors: u8,
        out: *mut i32,
        room: usize,
    ) -> ListTold;
    pub fn daly_cell_balance_state(
        p: *const u8,
        len: usize,
        n_cells: u8,
        out: *mut Flag,
        room: usize,
    ) -> ListTold;
    fn daly_error_codes(p: *const u8, len: usize, out: *mut u8, room: usize) -> ListTold;
    fn daly_pack_check(cells: *const u16, len: usize, total_voltage: u16) -> PackTold;
    pub fn daly_cell_voltages_reply_size(n_cells: u8) -> usize;
    pub fn daly_cell_temperatures_reply_size(n_sensors: u8) -> usize;
}

/// A record's decoder.
pub type AskRecord<T> = unsafe extern "C" fn(*const u8, usize) -> T;

/// A list's decoder: the reply, the count of values, and the lent buffer.
pub type AskList<P> = unsafe extern "C" fn(*const u8, usize, u8, *mut P, usize) -> ListTold;

/// The size of the reply for a count of values.
pub type AskSize = unsafe extern "C" fn(u8) -> usize;

/// The faults in the form of the other lists; they have no count.
///
/// # Safety
///
/// As of every other list.
pub unsafe extern "C" fn error_codes(
    p: *const u8,
    len: usize,
    _: u8,
    out: *mut u8,
    room: usize,
) -> ListTold {
    // SAFETY: the caller's.
    unsafe { daly_error_codes(p, len, out, room) }
}

/// One bit of one answer to be falsified: a part that then finds no mismatch compares nothing.
#[derive(Clone, Copy)]
pub struct Spoil {
    pub call: u64,
    pub bit: usize,
}

/// Every answer of the port comes through here, so that any can be spoiled.
pub struct Port {
    pub calls: u64,
    /// Of the calls, those that pushed into a reader.
    pub pushes: u64,
    spoil: Option<Spoil>,
}

impl Port {
    pub fn new(spoil: Option<Spoil>) -> Self {
        Self {
            calls: 0,
            pushes: 0,
            spoil,
        }
    }

    pub fn calc_crc(&mut self, buffer: &[u8]) -> u8 {
        // SAFETY: pointer and length are those of a live slice; of an empty one the pointer is not null.
        self.answered(unsafe { daly_calc_crc(buffer.as_ptr(), buffer.len()) })
    }

    pub fn frame_check(&mut self, buffer: &[u8], command: u8) -> FrameKindTold {
        // SAFETY: as in calc_crc.
        self.answered(unsafe { daly_frame_check(buffer.as_ptr(), buffer.len(), command) })
    }

    pub fn frame_refusal(&mut self, buffer: &[u8], k: usize) -> u8 {
        // SAFETY: as in calc_crc.
        self.answered(unsafe { daly_frame_refusal(buffer.as_ptr(), buffer.len(), k) })
    }

    /// The output holds `fill` in every place before the call.
    pub fn request(&mut self, command: u8, enable: bool, soc_percent: f32, fill: u8) -> Sent {
        let mut out = [fill; FRAME];
        // SAFETY: `out` is 13 bytes, alive and lent to nobody else.
        let number = unsafe { daly_request(command, enable, soc_percent, &mut out) };
        let mut sent = [number; 1 + FRAME];
        sent[1..].copy_from_slice(&out);
        self.answered(sent)
    }

    pub fn record<T: Answer>(&mut self, ask: AskRecord<T>, reply: &[u8]) -> T {
        // SAFETY: as in calc_crc.
        self.answered(unsafe { ask(reply.as_ptr(), reply.len()) })
    }

    /// Lends the first `room` places of the buffer.
    pub fn list<P: Place>(
        &mut self,
        ask: AskList<P>,
        reply: &[u8],
        n: u8,
        mut buffer: Vec<P>,
        room: usize,
    ) -> Left<P> {
        let out = buffer[..room].as_mut_ptr();
        // SAFETY: as in calc_crc; `out` has `room` places, alive and lent to nobody else.
        let told = unsafe { ask(reply.as_ptr(), reply.len(), n, out, room) };
        self.answered(Left { told, buffer })
    }

    pub fn pack_check(&mut self, cells: &[u16], total_voltage: u16) -> PackTold {
        // SAFETY: as in calc_crc.
        self.answered(unsafe { daly_pack_check(cells.as_ptr(), cells.len(), total_voltage) })
    }

    pub fn size(&mut self, ask: AskSize, n: u8) -> usize {
        // SAFETY: nothing is lent.
        self.answered(unsafe { ask(n) })
    }

    pub fn answered<A: Answer>(&mut self, mut answer: A) -> A {
        if let Some(spoil) = self.spoil.filter(|spoil| spoil.call == self.calls) {
            answer.flip(spoil.bit);
        }
        self.calls += 1;
        answer
    }
}
