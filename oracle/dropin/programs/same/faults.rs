//! The faults: matched, compared, counted, kept, numbered and printed by name.

use dalybms_lib::protocol::ErrorCode;

fn reply(bits: u64) -> Vec<u8> {
    let mut frame = vec![0xA5, 0x01, 0x98, 0x08];
    frame.extend(bits.to_le_bytes());
    frame.push(
        frame
            .iter()
            .fold(0, |sum: u8, byte| sum.wrapping_add(*byte)),
    );
    frame
}

/// Whether the locker is to be shut down.
fn grave(fault: &ErrorCode) -> bool {
    match fault {
        ErrorCode::CellVoltHighLevel2 | ErrorCode::CellVoltLowLevel2 => true,
        ErrorCode::ChargeMosAdhesionErr | ErrorCode::DischargeMosAdhesionErr => true,
        ErrorCode::ShortCircuitProtectFault => true,
        _ => false,
    }
}

fn main() {
    let all = ErrorCode::decode(&reply(u64::MAX)).unwrap();
    println!(
        "{} faults, {} of them grave",
        all.len(),
        all.iter().filter(|fault| grave(fault)).count()
    );
    for fault in &all {
        println!("{:2} {fault:?} {}", fault.clone() as u8, grave(fault));
    }
    let two = ErrorCode::decode(&reply(3 << 16)).unwrap();
    println!(
        "{two:?} {}",
        two == [
            ErrorCode::ChargeOvercurrentLevel2,
            ErrorCode::ChargeOvercurrentLevel1
        ]
    );
    println!(
        "{} {}",
        two.contains(&ErrorCode::RtcErr),
        all.contains(&ErrorCode::RtcErr)
    );
    let before = two.clone();
    let after = ErrorCode::decode(&reply(1 << 16 | 1 << 40)).unwrap();
    let gone: Vec<&ErrorCode> = before
        .iter()
        .filter(|fault| !after.contains(fault))
        .collect();
    println!(
        "gone {gone:?}, now {after:?}, none {:?}",
        ErrorCode::decode(&reply(0)).unwrap()
    );
}
