//! The cells' voltages as a slice: every way in which a slice is used.

use dalybms_lib::protocol::CellVoltages;

fn reply(cells: &[u16]) -> Vec<u8> {
    let mut reply = Vec::new();
    for (number, part) in (1..).zip(cells.chunks(3)) {
        let mut frame = vec![0xA5, 0x01, 0x95, 0x08, number];
        frame.extend(part.iter().flat_map(|cell| cell.to_be_bytes()));
        frame.resize(12, 0);
        frame.push(
            frame
                .iter()
                .fold(0, |sum: u8, byte| sum.wrapping_add(*byte)),
        );
        reply.extend(frame);
    }
    reply
}

fn spread(volts: &[f32]) -> f32 {
    let highest = volts.iter().copied().fold(f32::MIN, f32::max);
    let lowest = volts.iter().copied().fold(f32::MAX, f32::min);
    highest - lowest
}

fn main() {
    let cells: Vec<u16> = (0..255).map(|cell| 3200 + 7 * cell % 191).collect();
    for count in [1_u8, 2, 3, 4, 8, 16, 254, 255] {
        let volts = CellVoltages::decode(&reply(&cells[..count.into()]), count).unwrap();
        println!(
            "{} {} {:?} {:?}",
            volts.len(),
            volts.is_empty(),
            volts.first(),
            volts[volts.len() - 1]
        );
        println!("{} {}", spread(&volts), volts.iter().sum::<f32>());
        println!("{:?}", volts.clone());
    }
    let none = CellVoltages::decode(&[], 0).unwrap();
    println!("{none:?} {:?}", none.to_vec());
}
