//! The SetSoc request: every way for the multiplication, the rounding and the limits to differ.

use crate::original;
use crate::trial::{Part, Trial};

pub const PARTS: &[Part] = &[
    Part::new(
        "SetSoc",
        "64 patterns either side of each step of the Rust",
        258_000,
        steps,
    ),
    Part::new(
        "SetSoc",
        "halves and 4 patterns either side",
        39_000,
        halves,
    ),
    Part::new(
        "SetSoc",
        "zeros, powers of two, infinities and the largest",
        2_500,
        edges,
    ),
    Part::new("SetSoc", "subnormals", 100_000, subnormals),
    Part::new("SetSoc", "NaNs", 100_000, nans),
    Part::new("SetSoc", "drawn bit patterns", 10_000_000, patterns),
    Part::new("SetSoc", "drawn values from -10 to 150", 2_000_000, values),
];

/// All 2^32 bit patterns, in two halves for two threads. Not among the parts: it takes minutes.
pub const ALL_PATTERNS: [Part; 2] = [
    Part::new(
        "SetSoc",
        "all bit patterns with the sign clear",
        1 << 31,
        |trial| all(trial, 0),
    ),
    Part::new(
        "SetSoc",
        "all bit patterns with the sign set",
        1 << 31,
        |trial| all(trial, SIGN),
    ),
];

const COMMAND: u8 = 0x21;
const SIGN: u32 = 1 << 31;
const INFINITY: u32 = 0x7F80_0000;
const QUIET: u32 = 0x0040_0000;
/// Bits of the fraction.
const FRACTION: u32 = 23;
/// What the output holds before a request, so that a place left unwritten shows.
const FILL: u8 = 0x5A;

fn compare(trial: &mut Trial, bits: u32) {
    let percent = f32::from_bits(bits);
    let enable = bits & 1 == 1;
    let ours = trial.port.request(COMMAND, enable, percent, FILL);
    let rust = original::request(COMMAND, enable, percent, FILL);
    trial.check(rust, ours, || format!("bits {bits:08X}"));
}

/// The pattern and its neighbours up to `reach` away, with both signs.
fn compare_around(trial: &mut Trial, bits: u32, reach: u32) {
    for offset in 0..=2 * reach {
        let near = bits.wrapping_sub(reach).wrapping_add(offset);
        compare(trial, near);
        compare(trial, near ^ SIGN);
    }
}

/// The count that the Rust sends for this pattern.
fn count(bits: u32) -> u16 {
    let sent = original::request(COMMAND, false, f32::from_bits(bits), FILL);
    u16::from_be_bytes([sent[11], sent[12]])
}

/// The first pattern for which the Rust sends more than `k`, by bisection.
fn step_above(k: u16) -> u32 {
    let (mut below, mut above) = (0, 101.0_f32.to_bits());
    while above - below > 1 {
        let middle = below + (above - below) / 2;
        if count(middle) > k {
            above = middle;
        } else {
            below = middle;
        }
    }
    assert_eq!(
        (count(below), count(above)),
        (k, k + 1),
        "the Rust does not climb by one at {above:08X}"
    );
    above
}

fn steps(trial: &mut Trial) {
    for k in 0..1000 {
        compare_around(trial, step_above(k), 64);
    }
}

fn halves(trial: &mut Trial) {
    for k in 0..1100_u16 {
        let single = (f32::from(k) + 0.5) / 10.0;
        let double = ((f64::from(k) + 0.5) / 10.0) as f32;
        compare_around(trial, single.to_bits(), 4);
        compare_around(trial, double.to_bits(), 4);
    }
}

fn edges(trial: &mut Trial) {
    let powers = (1..255).map(|exponent| exponent << FRACTION);
    let largest = f32::MAX.to_bits();
    for bits in powers.chain([0, largest, INFINITY]) {
        compare_around(trial, bits, 2);
    }
}

fn subnormals(trial: &mut Trial) {
    for bit in 0..FRACTION {
        compare_around(trial, 1 << bit, 2);
    }
    let largest = (1 << FRACTION) - 1;
    compare_around(trial, largest, 2);
    for _ in 0..trial.rounds(100_000) {
        let bits = trial.random.word();
        compare(trial, bits & (SIGN | largest));
    }
}

/// Quiet and signalling, of both signs, with full, sparse and low payloads.
fn nans(trial: &mut Trial) {
    for edge in [
        INFINITY + 1,
        INFINITY + QUIET - 1,
        INFINITY + QUIET,
        SIGN - 1,
    ] {
        compare(trial, edge);
        compare(trial, edge ^ SIGN);
    }
    for _ in 0..trial.rounds(100_000) {
        let payload = match trial.random.below(3) {
            0 => trial.random.word(),
            1 => 1 << trial.random.below(FRACTION as usize),
            _ => trial.random.word() & 0xFF,
        };
        let kind = trial.random.word() & (SIGN | QUIET);
        let fraction = (payload & (QUIET - 1)).max(1);
        compare(trial, kind | INFINITY | fraction);
    }
}

fn patterns(trial: &mut Trial) {
    for _ in 0..trial.rounds(10_000_000) {
        let bits = trial.random.word();
        compare(trial, bits);
    }
}

fn values(trial: &mut Trial) {
    for _ in 0..trial.rounds(2_000_000) {
        let part = trial.random.word() as f32 / u32::MAX as f32;
        compare(trial, (part * 160.0 - 10.0).to_bits());
    }
}

fn all(trial: &mut Trial, sign: u32) {
    for bits in 0..SIGN {
        compare(trial, sign | bits);
    }
}
