// README: a reader for a request under 3 bytes
// daly: Ok(Err(RequestTooShort))

use dalybms_lib::protocol::FrameReader;

fn main() {
    let answer = std::panic::catch_unwind(|| FrameReader::new(&[0xA5, 0x40], 13).push(&[]));
    println!("{:?}", answer.map_err(|_| "it panicked"));
}
