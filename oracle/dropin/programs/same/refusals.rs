//! What goes wrong, and how a controller tells it apart.

use dalybms_lib::protocol::{CellTemperatures, CellVoltages, ErrorCode, MosfetStatus, SetSoc, Soc};
use dalybms_lib::Error;

const RIGHT: [u8; 13] = [
    0xA5, 0x01, 0x90, 0x08, 0x02, 0x0B, 0, 0, 0x74, 0xB7, 0x03, 0x6A, 0xE3,
];

fn advice(error: &Error) -> &'static str {
    match error {
        Error::ReplySizeError => "wait longer",
        Error::CheckSumError => "ask again",
        Error::FrameNoError => "ask again from the first frame",
        _ => "look at the line",
    }
}

fn charge(reply: &[u8]) -> Result<f32, Error> {
    let soc = Soc::decode(reply)?;
    Ok(soc.soc_percent)
}

fn changed(place: usize, byte: u8) -> Vec<u8> {
    let mut reply = RIGHT.to_vec();
    reply[place] = byte;
    reply
}

fn main() {
    println!("{:?}", charge(&RIGHT));
    let longer = [&RIGHT[..], &[0]].concat();
    for reply in [
        &[][..],
        &RIGHT[..12],
        &longer,
        &changed(0, 0xA4),
        &changed(2, 0x91),
        &changed(12, 0),
    ] {
        match charge(reply) {
            Ok(percent) => println!("{percent} %"),
            Err(error) => println!("{error:?}: {}", advice(&error)),
        }
    }
    let numbered = changed(2, 0x95);
    println!(
        "{:?}",
        CellVoltages::decode(&numbered, 1).map_err(|error| advice(&error))
    );
    println!("{:?}", CellTemperatures::decode(&numbered, 8).unwrap_err());
    println!(
        "{}",
        matches!(ErrorCode::decode(&RIGHT), Err(Error::UnexpectedFrame))
    );
    println!(
        "{}",
        matches!(
            MosfetStatus::decode(&RIGHT[1..]),
            Err(Error::ReplySizeError)
        )
    );
    if let Err(Error::CheckSumError) = SetSoc::decode(&changed(2, 0x21)) {
        println!("the sum of the reply to SetSoc is wrong");
    }
}
