//! What the library asks of counts and bits only for values that a board can send: here for every value.

use crate::told::{Bits, Flag};
use crate::trial::{Part, Trial};
use translated::{units, wire};

pub const PARTS: &[Part] = &[
    Part::new(
        "read_bit",
        "every byte, every position to 255",
        256 * 256,
        bits,
    ),
    Part::new("tenths_i32", "about powers of two, drawn", 60_000, tenths),
    Part::new(
        "wire",
        "counts and their bytes, every count of two and drawn ones of four",
        65_536,
        counts,
    ),
];

/// A byte has no bit from 8 on.
fn bits(trial: &mut Trial) {
    for byte in 0..=255 {
        for position in 0..=255 {
            let ours = Flag::from(wire::read_bit(byte, position));
            let ours = trial.port.answered(ours);
            let rule = Flag::from((u128::from(byte) >> position.min(8)) % 2 == 1);
            trial.check(rule, ours, || {
                format!("byte {byte:02X} position {position}")
            });
        }
    }
}

/// High byte first; each half and each byte is got back.
fn counts(trial: &mut Trial) {
    for count in (0..=u16::MAX).step_by(trial.stride()) {
        let [high, low] = count.to_be_bytes();
        let four = u32::from(count) << 16 | (trial.random.word() & 0xFFFF);
        let (upper, lower) = ((four >> 16) as u16, four as u16);
        let ours = [
            u32::from(wire::high_byte(count)),
            u32::from(wire::low_byte(count)),
            u32::from(wire::two_bytes(high, low)),
            u32::from(wire::high_half(four)),
            u32::from(wire::low_half(four)),
            wire::four_bytes(upper, lower),
            u32::from(wire::flag_byte(count % 2 == 1)),
        ];
        let ours = trial.port.answered(ours);
        let whole = [high, low].map(u32::from);
        let rule = [
            whole[0],
            whole[1],
            u32::from(count),
            u32::from(upper),
            u32::from(lower),
            four,
            u32::from(count % 2),
        ];
        trial.check(rule, ours, || format!("count {count} and {four}"));
    }
}

fn compare_tenths(trial: &mut Trial, count: i32) {
    let ours = trial.port.answered(Bits(units::tenths_i32(count)));
    trial.check(Bits(count as f32 / 10.0), ours, || format!("count {count}"));
}

fn tenths(trial: &mut Trial) {
    for exponent in 0..32 {
        for offset in -4..=4 {
            let about = (1_i32 << exponent).wrapping_add(offset);
            compare_tenths(trial, about);
            compare_tenths(trial, about.wrapping_neg());
        }
    }
    for _ in 0..trial.rounds(60_000) {
        let count = trial.random.word() as i32;
        compare_tenths(trial, count);
    }
}
