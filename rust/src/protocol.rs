//! Requests to a board, its replies, and the reader that finds their frames on the line.
//!
//! The names and signatures are those of `dalybms_lib::protocol`.

mod codes;
mod commands;
mod lists;
mod reader;
mod readings;

pub use codes::ErrorCode;
pub use commands::{BmsReset, SetChargeMosfet, SetDischargeMosfet, SetSoc};
pub use lists::{CellBalanceState, CellTemperatures, CellVoltages};
pub use reader::FrameReader;
pub use readings::{
    CellVoltageRange, IOState, MosfetMode, MosfetStatus, Soc, Status, TemperatureRange,
};

/// How long to leave a board alone between two questions, as `dalybms_lib` has it.
pub const MINIMUM_DELAY: std::time::Duration = std::time::Duration::from_millis(4);

/// Who sends a request. The library builds requests of the host's alone, and there is no other.
#[derive(Debug)]
#[repr(u8)]
pub enum Address {
    /// The address of the host.
    Host = 0x40,
}

/// The request of a command that asks for a reply and carries no data.
fn plain_request(Address::Host: Address, command: u8) -> Vec<u8> {
    crate::ffi::request(command, false, 0.0)
}
