//! Sets things on a board, and checks that it answers.

use dalybms_lib::protocol::{
    Address, BmsReset, FrameReader, SetChargeMosfet, SetDischargeMosfet, SetSoc,
};
use dalybms_lib::Error;

/// A board that sends the question back, from its own address.
fn board(question: &[u8]) -> Vec<u8> {
    let mut reply = question.to_vec();
    reply[1] = 0x01;
    reply[12] = reply[..12]
        .iter()
        .fold(0, |sum: u8, byte| sum.wrapping_add(*byte));
    reply
}

fn set(
    question: Vec<u8>,
    size: usize,
    decode: fn(&[u8]) -> Result<(), Error>,
) -> Result<(), Error> {
    let mut reader = FrameReader::new(&question, size);
    reader.push(&board(&question))?;
    let reply = reader.into_bytes();
    println!("{reply:02X?}");
    decode(&reply)
}

fn main() -> Result<(), Error> {
    println!("{:02X} {:?}", Address::Host as u8, Address::Host);
    for on in [true, false] {
        set(
            SetChargeMosfet::request(Address::Host, on),
            SetChargeMosfet::reply_size(),
            SetChargeMosfet::decode,
        )?;
        set(
            SetDischargeMosfet::request(Address::Host, on),
            SetDischargeMosfet::reply_size(),
            SetDischargeMosfet::decode,
        )?;
    }
    set(
        SetSoc::request(Address::Host, 33.35),
        SetSoc::reply_size(),
        SetSoc::decode,
    )?;
    set(
        BmsReset::request(Address::Host),
        BmsReset::reply_size(),
        BmsReset::decode,
    )?;
    let crossed = set(
        BmsReset::request(Address::Host),
        BmsReset::reply_size(),
        SetSoc::decode,
    );
    println!("{crossed:?}");
    Ok(())
}
