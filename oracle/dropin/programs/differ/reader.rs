// README: `{:?}` of a reader
// daly: FrameReader { counts

use dalybms_lib::protocol::{Address, FrameReader, Soc};

fn main() {
    let mut reader = FrameReader::new(&Soc::request(Address::Host), Soc::reply_size());
    reader.push(&[0, 0xA5, 1]).unwrap();
    println!("{reader:?}");
}
