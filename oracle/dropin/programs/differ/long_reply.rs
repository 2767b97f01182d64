// README: or for a reply over 1,105
// daly: Err(ReplyTooLong)

use dalybms_lib::protocol::{Address, CellVoltages, FrameReader};

fn main() {
    let mut reader = FrameReader::new(&CellVoltages::request(Address::Host), 1_106);
    println!("{:?}", reader.push(&[0xA5]));
}
