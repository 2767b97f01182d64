// README: an unknown mode is `Error::UnknownMode`
// daly: Err(UnknownMode)

use dalybms_lib::protocol::MosfetStatus;

fn main() {
    let reply = [0xA5, 0x01, 0x93, 0x08, 3, 0, 0, 0, 0, 0, 0, 0, 0x44];
    let answer = std::panic::catch_unwind(|| MosfetStatus::decode(&reply));
    println!("{:?}", answer.map_err(|_| "it panicked"));
}
