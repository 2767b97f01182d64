//! Every record of one frame: decoded, taken apart, changed and printed.

use dalybms_lib::protocol::*;
use dalybms_lib::Error;

fn frame(command: u8, data: [u8; 8]) -> Vec<u8> {
    let mut frame = vec![0xA5, 0x01, command, 0x08];
    frame.extend(data);
    frame.push(
        frame
            .iter()
            .fold(0, |sum: u8, byte| sum.wrapping_add(*byte)),
    );
    frame
}

fn main() -> Result<(), Error> {
    let soc = Soc::decode(&frame(0x90, [0x02, 0x0B, 0, 0, 0x74, 0xB7, 0x03, 0x6A]))?;
    println!(
        "{:.1} V, {:.1} A, {:.1} %",
        soc.total_voltage, soc.current, soc.soc_percent
    );
    println!(
        "{:?}",
        Soc {
            current: -soc.current,
            ..soc.clone()
        }
    );

    let range = CellVoltageRange::decode(&frame(0x91, [0x0C, 0xE6, 3, 0x0C, 0xE0, 8, 0, 0]))?;
    let CellVoltageRange {
        highest_voltage,
        highest_cell,
        lowest_voltage,
        lowest_cell,
    } = range.clone();
    println!("cell {highest_cell} {highest_voltage} V, cell {lowest_cell} {lowest_voltage} V, {range:#?}");

    let range = TemperatureRange::decode(&frame(0x92, [65, 1, 168, 4, 0, 0, 0, 0]))?;
    println!(
        "{} to {}, {:?}",
        range.lowest_temperature, range.highest_temperature, range
    );

    for mode in 0..3 {
        let status = MosfetStatus::decode(&frame(0x93, [mode, 1, 0, 23, 0, 1, 0x64, 0x62]))?;
        let word = match status.mode {
            MosfetMode::Stationary => "rests",
            MosfetMode::Charging => "charges",
            MosfetMode::Discharging => "discharges",
        };
        println!("{word}: {status:?}");
    }

    let status = Status::decode(&frame(0x94, [8, 2, 1, 0, 0b1010_0101, 0x01, 0x02, 0]))?;
    let IOState {
        di1,
        di2,
        di3,
        di4,
        do1,
        do2,
        do3,
        do4,
    } = status.states.clone();
    println!(
        "{:?} {}",
        [di1, di2, di3, di4, do1, do2, do3, do4],
        status.cycles
    );
    println!("{status:#?}");
    Ok(())
}
