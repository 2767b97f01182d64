//! The sum of a buffer.

use crate::frames;
use crate::original::quiet;
use crate::trial::{Part, Trial};
use dalybms_lib::protocol::exposed;

pub const PARTS: &[Part] = &[
    Part::new("calc_crc", "1 to 1,131 bytes", 40_000, every_length),
    Part::new(
        "calc_crc",
        "0 bytes (listed difference: the Rust panics, ours answers 0)",
        2,
        no_bytes,
    ),
];

fn compare(trial: &mut Trial, buffer: &[u8]) {
    let ours = trial.port.calc_crc(buffer);
    trial.check_known(frames::sum(buffer), exposed::calc_crc(buffer), ours, || {
        format!("buffer {buffer:02X?}")
    });
}

/// Two frames past the longest reply, since a one-frame decoder sums whatever it is lent.
fn every_length(trial: &mut Trial) {
    for length in 1..=frames::LONGEST + 2 * frames::FRAME {
        compare(trial, &vec![0x00; length]);
        compare(trial, &vec![0xFF; length]);
        for _ in 0..trial.rounds(40) {
            let buffer = trial.random.bytes(length);
            compare(trial, &buffer);
        }
    }
}

fn no_bytes(trial: &mut Trial) {
    let some = [0xA5; 13];
    for (name, empty) in [("no buffer", &[][..]), ("the end of a buffer", &some[13..])] {
        let ours = trial.port.calc_crc(empty);
        trial.check(
            (None, 0),
            (quiet(|| exposed::calc_crc(empty)), ours),
            || name.to_string(),
        );
    }
}
