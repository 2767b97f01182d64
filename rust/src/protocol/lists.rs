//! The replies with a value for each cell or sensor.

use super::{plain_request, Address};
use crate::{ffi, Error};

/// The cells' voltages, in volts, in the order of the cells.
#[derive(Debug, Clone, PartialEq)]
pub struct CellVoltages(Vec<f32>);

impl CellVoltages {
    const COMMAND: u8 = 0x95;

    /// The 13 bytes to send.
    pub fn request(address: Address) -> Vec<u8> {
        plain_request(address, Self::COMMAND)
    }

    /// How many bytes the reply has: a frame for every three cells.
    pub fn reply_size(n_cells: u8) -> usize {
        ffi::cell_voltages_reply_size(n_cells)
    }

    /// The voltages in a reply's frames, one after the other.
    pub fn decode(rx_buffer: &[u8], n_cells: u8) -> Result<Self, Error> {
        ffi::cell_voltages(rx_buffer, n_cells).map(Self)
    }
}

impl std::ops::Deref for CellVoltages {
    type Target = [f32];

    fn deref(&self) -> &[f32] {
        &self.0
    }
}

/// The temperatures of the sensors.
pub struct CellTemperatures;

impl CellTemperatures {
    const COMMAND: u8 = 0x96;

    /// The 13 bytes to send.
    pub fn request(address: Address) -> Vec<u8> {
        plain_request(address, Self::COMMAND)
    }

    /// How many bytes the reply has: a frame for every seven sensors.
    pub fn reply_size(n_sensors: u8) -> usize {
        ffi::cell_temperatures_reply_size(n_sensors)
    }

    /// The temperatures, in degrees Celsius, in a reply's frames, one after the other. 255 sensors give
    /// 255, where `dalybms_lib` gives 259.
    pub fn decode(rx_buffer: &[u8], n_sensors: u8) -> Result<Vec<i32>, Error> {
        ffi::cell_temperatures(rx_buffer, n_sensors)
    }
}

/// Which cells are being balanced.
pub struct CellBalanceState;

impl CellBalanceState {
    const COMMAND: u8 = 0x97;

    /// The 13 bytes to send.
    pub fn request(address: Address) -> Vec<u8> {
        plain_request(address, Self::COMMAND)
    }

    /// How many bytes the reply has.
    pub fn reply_size() -> usize {
        ffi::FRAME
    }

    /// A flag for each cell. 0 cells give one flag, over 48 give 48.
    pub fn decode(rx_buffer: &[u8], n_cells: u8) -> Result<Vec<bool>, Error> {
        ffi::cell_balance_state(rx_buffer, n_cells)
    }
}
