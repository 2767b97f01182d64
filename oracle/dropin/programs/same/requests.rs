//! Prints every question that a controller can send.

use dalybms_lib::protocol::{
    Address, BmsReset, CellBalanceState, CellTemperatures, CellVoltageRange, CellVoltages,
    ErrorCode, MosfetStatus, SetChargeMosfet, SetDischargeMosfet, SetSoc, Soc, Status,
    TemperatureRange,
};

fn show(name: &str, request: Vec<u8>, reply_size: usize) {
    let bytes: Vec<String> = request.iter().map(|byte| format!("{byte:02X}")).collect();
    println!("{name:24} {} -> {reply_size}", bytes.join(" "));
}

fn main() {
    show("soc", Soc::request(Address::Host), Soc::reply_size());
    show(
        "cell_voltage_range",
        CellVoltageRange::request(Address::Host),
        CellVoltageRange::reply_size(),
    );
    show(
        "temperature_range",
        TemperatureRange::request(Address::Host),
        TemperatureRange::reply_size(),
    );
    show(
        "mosfet_status",
        MosfetStatus::request(Address::Host),
        MosfetStatus::reply_size(),
    );
    show(
        "status",
        Status::request(Address::Host),
        Status::reply_size(),
    );
    for cells in [0, 1, 3, 4, 16, 255] {
        show(
            "cell_voltages",
            CellVoltages::request(Address::Host),
            CellVoltages::reply_size(cells),
        );
    }
    for sensors in [0, 1, 7, 8, 16, 255] {
        show(
            "cell_temperatures",
            CellTemperatures::request(Address::Host),
            CellTemperatures::reply_size(sensors),
        );
    }
    show(
        "cell_balance_state",
        CellBalanceState::request(Address::Host),
        CellBalanceState::reply_size(),
    );
    show(
        "error_codes",
        ErrorCode::request(Address::Host),
        ErrorCode::reply_size(),
    );
    for enable in [false, true] {
        show(
            "set_discharge_mosfet",
            SetDischargeMosfet::request(Address::Host, enable),
            SetDischargeMosfet::reply_size(),
        );
        show(
            "set_charge_mosfet",
            SetChargeMosfet::request(Address::Host, enable),
            SetChargeMosfet::reply_size(),
        );
    }
    for soc in [
        0.0,
        0.05,
        0.25,
        50.5,
        87.4,
        100.0,
        250.0,
        -3.0,
        f32::NAN,
        f32::INFINITY,
    ] {
        show(
            "set_soc",
            SetSoc::request(Address::Host, soc),
            SetSoc::reply_size(),
        );
    }
    show(
        "reset",
        BmsReset::request(Address::Host),
        BmsReset::reply_size(),
    );
}
