//! The faults that a board reports.

use super::{plain_request, Address};
use crate::{ffi, Error};
use std::fmt::{self, Display, Formatter};

/// Declares the faults with what each says, and all of them in their order.
macro_rules! codes {
    ($($name:ident $words:literal,)*) => {
        /// A fault or an alarm of the board.
        #[derive(Debug, Clone, PartialEq)]
        pub enum ErrorCode {
            $(#[doc = $words] $name,)*
        }

        /// Words of this crate's own.
        impl Display for ErrorCode {
            fn fmt(&self, f: &mut Formatter<'_>) -> fmt::Result {
                f.write_str(match self {
                    $(Self::$name => $words,)*
                })
            }
        }

        /// A fault stands at the position by which the library names it.
        const ALL: [ErrorCode; ffi::FLAGS] = [$(ErrorCode::$name,)*];
    };
}

impl std::error::Error for ErrorCode {}

codes! {
    CellVoltHighLevel1 "a cell is over its voltage limit, level 1",
    CellVoltHighLevel2 "a cell is over its voltage limit, level 2",
    CellVoltLowLevel1 "a cell is under its voltage limit, level 1",
    CellVoltLowLevel2 "a cell is under its voltage limit, level 2",
    SumVoltHighLevel1 "the pack is over its voltage limit, level 1",
    SumVoltHighLevel2 "the pack is over its voltage limit, level 2",
    SumVoltLowLevel1 "the pack is under its voltage limit, level 1",
    SumVoltLowLevel2 "the pack is under its voltage limit, level 2",
    ChargeTempHighLevel1 "too hot to charge, level 1",
    ChargeTempHighLevel2 "too hot to charge, level 2",
    ChargeTempLowLevel1 "too cold to charge, level 1",
    ChargeTempLowLevel2 "too cold to charge, level 2",
    DischargeTempHighLevel1 "too hot to discharge, level 1",
    DischargeTempHighLevel2 "too hot to discharge, level 2",
    DischargeTempLowLevel1 "too cold to discharge, level 1",
    DischargeTempLowLevel2 "too cold to discharge, level 2",
    ChargeOvercurrentLevel1 "too much current into the pack, level 1",
    ChargeOvercurrentLevel2 "too much current into the pack, level 2",
    DischargeOvercurrentLevel1 "too much current out of the pack, level 1",
    DischargeOvercurrentLevel2 "too much current out of the pack, level 2",
    SocHighLevel1 "the state of charge is over its limit, level 1",
    SocHighLevel2 "the state of charge is over its limit, level 2",
    SocLowLevel1 "the state of charge is under its limit, level 1",
    SocLowLevel2 "the state of charge is under its limit, level 2",
    DiffVoltLevel1 "the cells' voltages are too far apart, level 1",
    DiffVoltLevel2 "the cells' voltages are too far apart, level 2",
    DiffTempLevel1 "the sensors' temperatures are too far apart, level 1",
    DiffTempLevel2 "the sensors' temperatures are too far apart, level 2",
    ChargeMosTempHighAlarm "the charging MOSFET is too hot",
    DischargeMosTempHighAlarm "the discharging MOSFET is too hot",
    ChargeMosTempSensorErr "the charging MOSFET's temperature is not measured",
    DischargeMosTempSensorErr "the discharging MOSFET's temperature is not measured",
    ChargeMosAdhesionErr "the charging MOSFET does not switch off",
    DischargeMosAdhesionErr "the discharging MOSFET does not switch off",
    ChargeMosOpenCircuitErr "the charging MOSFET does not switch on",
    DischargeMosOpenCircuitErr "the discharging MOSFET does not switch on",
    AfeCollectChipErr "the chip that measures the cells has failed",
    VoltageCollectDropped "the wiring that measures the cells has come off",
    CellTempSensorErr "a temperature sensor has failed",
    EepromErr "the EEPROM has failed",
    RtcErr "the board's clock has failed",
    PrechangeFailure "precharging has failed",
    CommunicationFailure "communication has failed",
    InternalCommunicationFailure "communication inside the board has failed",
    CurrentModuleFault "the current is not measured",
    SumVoltageDetectFault "the pack's voltage is not measured",
    ShortCircuitProtectFault "the protection against short circuits has failed",
    LowVoltForbiddenChargeFault "the voltage is too low to charge",
}

impl ErrorCode {
    const COMMAND: u8 = 0x98;

    /// The 13 bytes to send.
    pub fn request(address: Address) -> Vec<u8> {
        plain_request(address, Self::COMMAND)
    }

    /// How many bytes the reply has.
    pub fn reply_size() -> usize {
        ffi::FRAME
    }

    /// The faults in a reply, in the order of `dalybms_lib`: `ChargeOvercurrentLevel2` comes before
    /// `ChargeOvercurrentLevel1`, all others as they are declared.
    pub fn decode(rx_buffer: &[u8]) -> Result<Vec<Self>, Error> {
        let positions = ffi::error_codes(rx_buffer)?;
        positions.into_iter().map(Self::at).collect()
    }

    fn at(position: u8) -> Result<Self, Error> {
        let code = ALL.get(usize::from(position)).cloned();
        code.ok_or(Error::Impossible(position))
    }
}
