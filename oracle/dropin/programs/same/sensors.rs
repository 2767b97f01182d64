//! The sensors' temperatures and the cells' balance, for many counts.

use dalybms_lib::protocol::{CellBalanceState, CellTemperatures};

fn close(mut frame: Vec<u8>) -> Vec<u8> {
    frame.resize(12, 0x55);
    frame.push(
        frame
            .iter()
            .fold(0, |sum: u8, byte| sum.wrapping_add(*byte)),
    );
    frame
}

fn temperatures(sensors: u8) -> Vec<u8> {
    let frames = (0..CellTemperatures::reply_size(sensors) / 13).map(|place| {
        let number = place as u8 + 1;
        close(
            [
                &[0xA5, 0x01, 0x96, 0x08, number],
                &[number * 3, 0, 40, 255, 65, 39, 41][..],
            ]
            .concat(),
        )
    });
    frames.flatten().collect()
}

fn main() {
    for sensors in [0, 1, 2, 7, 8, 16, 100, 254] {
        let degrees: Vec<i32> = CellTemperatures::decode(&temperatures(sensors), sensors).unwrap();
        println!(
            "{sensors} {:?} {:?} {degrees:?}",
            degrees.iter().min(),
            degrees.iter().max()
        );
    }
    let reply = close(vec![
        0xA5,
        0x01,
        0x97,
        0x08,
        0b0000_0101,
        0xFF,
        0,
        0x80,
        1,
        0x0F,
    ]);
    for cells in [0, 1, 8, 16, 47, 48, 49, 255] {
        let flags: Vec<bool> = CellBalanceState::decode(&reply, cells).unwrap();
        println!(
            "{cells} {} of {} {flags:?}",
            flags.iter().filter(|flag| **flag).count(),
            flags.len()
        );
    }
}
