//! A bad line: how much a reader bears, what it says then, and what it has all the same.

use dalybms_lib::protocol::{Address, CellVoltages, FrameReader, Soc};

const REPLY: [u8; 13] = [
    0xA5, 0x01, 0x90, 0x08, 0x02, 0x0B, 0, 0, 0x74, 0xB7, 0x03, 0x6A, 0xE3,
];

fn main() {
    for zeros in [0, 1, 511, 512, 513, 2_000] {
        let mut reader = FrameReader::new(&Soc::request(Address::Host), Soc::reply_size());
        let noise = reader.push(&vec![0; zeros]);
        println!(
            "{zeros} {noise:?} {} {}",
            reader.is_complete(),
            reader.missing()
        );
        let reply = reader.push(&REPLY);
        println!("{reply:?} {} {}", reader.is_complete(), reader.missing());
        let behind = reader.push(&[0; 600]);
        println!(
            "{behind:?} {:?}",
            Soc::decode(&reader.into_bytes()).unwrap()
        );
    }
    let mut reader = FrameReader::new(
        &CellVoltages::request(Address::Host),
        CellVoltages::reply_size(6),
    );
    for part in [&[0xA5][..], &[0xA5, 0x01], &[], &REPLY[..5], &[0x95; 40]] {
        println!("{:?} {}", reader.push(part), reader.missing());
    }
    println!("{:?}", reader.into_bytes());
    let empty = FrameReader::new(&Soc::request(Address::Host), 0);
    println!(
        "{} {} {:?}",
        empty.is_complete(),
        empty.missing(),
        empty.into_bytes()
    );
}
