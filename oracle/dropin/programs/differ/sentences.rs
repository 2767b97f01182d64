// README: the sentences (`{}`) of `Error` and `ErrorCode`
// daly: a cell is over its voltage limit, level 1

use dalybms_lib::protocol::ErrorCode;

fn main() {
    let mut reply = [0xFF; 13];
    reply[..4].copy_from_slice(&[0xA5, 0x01, 0x98, 0x08]);
    reply[12] = reply[..12]
        .iter()
        .fold(0, |sum: u8, byte| sum.wrapping_add(*byte));
    for fault in ErrorCode::decode(&reply).unwrap() {
        println!("{fault}");
    }
}
