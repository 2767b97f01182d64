//! What a bench hands in, as the library lays it out.

#[repr(C)]
pub struct SocWire {
    pub total_voltage: u16,
    pub current: u16,
    pub soc_percent: u16,
}

#[repr(C)]
pub struct CellVoltageRangeWire {
    pub highest_voltage: u16,
    pub highest_cell: u8,
    pub lowest_voltage: u16,
    pub lowest_cell: u8,
}

#[repr(C)]
pub struct TemperatureRangeWire {
    pub highest_temperature: i8,
    pub highest_sensor: u8,
    pub lowest_temperature: i8,
    pub lowest_sensor: u8,
}

#[repr(C)]
pub struct MosfetStatusWire {
    pub mode: u8,
    pub charging_mosfet: bool,
    pub discharging_mosfet: bool,
    pub bms_cycles: u8,
    pub capacity_ah: u32,
}

#[repr(C)]
pub struct StatusWire {
    pub cells: u8,
    pub temperature_sensors: u8,
    pub charger_running: bool,
    pub load_running: bool,
    pub di1: bool,
    pub di2: bool,
    pub di3: bool,
    pub di4: bool,
    pub do1: bool,
    pub do2: bool,
    pub do3: bool,
    pub do4: bool,
    pub cycles: u16,
}
