//! The request builders.

use crate::original;
use crate::trial::{Part, Trial};

pub const PARTS: &[Part] = &[
    Part::new("requests", "the thirteen builders", 13 * 2 * 1000, built),
    Part::new(
        "requests",
        "every other command (10, output untouched)",
        243 * 2 * 1000,
        refused,
    ),
];

/// What a builder does not read is drawn all the same, and so is what the output held before.
fn compare(trial: &mut Trial, command: u8) {
    for enable in [false, true] {
        for _ in 0..trial.rounds(1000) {
            let percent = f32::from_bits(trial.random.word());
            let fill = trial.random.byte();
            let ours = trial.port.request(command, enable, percent, fill);
            let rust = original::request(command, enable, percent, fill);
            trial.check(rust, ours, || {
                format!(
                    "command {command:02X} enable {enable} bits {:08X} output {fill:02X}",
                    percent.to_bits()
                )
            });
        }
    }
}

fn built(trial: &mut Trial) {
    (0..=255)
        .filter(|command| original::has_request(*command))
        .for_each(|command| compare(trial, command));
}

fn refused(trial: &mut Trial) {
    (0..=255)
        .filter(|command| !original::has_request(*command))
        .for_each(|command| compare(trial, command));
}
