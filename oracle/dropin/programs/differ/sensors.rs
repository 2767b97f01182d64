// README: 255 sensors give 255 temperatures
// daly: 255 temperatures

use dalybms_lib::protocol::CellTemperatures;

fn main() {
    let mut reply = vec![0xA5, 0x01, 0x96, 0x08, 0, 60, 60, 60, 60, 60, 60, 60, 0].repeat(37);
    for (number, frame) in (1..).zip(reply.chunks_mut(13)) {
        frame[4] = number;
        frame[12] = frame[..12]
            .iter()
            .fold(0, |sum: u8, byte| sum.wrapping_add(*byte));
    }
    let degrees = CellTemperatures::decode(&reply, 255).unwrap();
    println!("{} temperatures", degrees.len());
}
