//! The commands that set something. Their replies are only checked.

use super::Address;
use crate::{ffi, Error};

/// Switches the discharging MOSFET.
pub struct SetDischargeMosfet;

impl SetDischargeMosfet {
    const COMMAND: u8 = 0xD9;

    /// The 13 bytes to send: `true` switches it on.
    pub fn request(Address::Host: Address, enable: bool) -> Vec<u8> {
        ffi::request(Self::COMMAND, enable, 0.0)
    }

    /// How many bytes the reply has.
    pub fn reply_size() -> usize {
        ffi::FRAME
    }

    /// Whether the reply is a right frame.
    pub fn decode(rx_buffer: &[u8]) -> Result<(), Error> {
        ffi::check(rx_buffer, Self::COMMAND)
    }
}

/// Switches the charging MOSFET.
pub struct SetChargeMosfet;

impl SetChargeMosfet {
    const COMMAND: u8 = 0xDA;

    /// The 13 bytes to send: `true` switches it on.
    pub fn request(Address::Host: Address, enable: bool) -> Vec<u8> {
        ffi::request(Self::COMMAND, enable, 0.0)
    }

    /// How many bytes the reply has.
    pub fn reply_size() -> usize {
        ffi::FRAME
    }

    /// Whether the reply is a right frame.
    pub fn decode(rx_buffer: &[u8]) -> Result<(), Error> {
        ffi::check(rx_buffer, Self::COMMAND)
    }
}

/// Sets the state of charge.
pub struct SetSoc;

impl SetSoc {
    const COMMAND: u8 = 0x21;

    /// The 13 bytes to send. The percentage is rounded to tenths, halves away from zero, and limited to 0
    /// to 100; a NaN is 0.
    pub fn request(Address::Host: Address, soc_percent: f32) -> Vec<u8> {
        ffi::request(Self::COMMAND, false, soc_percent)
    }

    /// How many bytes the reply has.
    pub fn reply_size() -> usize {
        ffi::FRAME
    }

    /// Whether the reply is a right frame.
    pub fn decode(rx_buffer: &[u8]) -> Result<(), Error> {
        ffi::check(rx_buffer, Self::COMMAND)
    }
}

/// Resets the board.
pub struct BmsReset;

impl BmsReset {
    const COMMAND: u8 = 0x00;

    /// The 13 bytes to send.
    pub fn request(address: Address) -> Vec<u8> {
        super::plain_request(address, Self::COMMAND)
    }

    /// How many bytes the reply has.
    pub fn reply_size() -> usize {
        ffi::FRAME
    }

    /// Whether the reply is a right frame.
    pub fn decode(rx_buffer: &[u8]) -> Result<(), Error> {
        ffi::check(rx_buffer, Self::COMMAND)
    }
}
