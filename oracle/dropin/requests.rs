//! All requests, and the sizes of all replies.

use crate::question::{Question, COMMANDS};
use crate::trial::{Part, Trial};

pub const PARTS: &[Part] = &[
    Part {
        name: "request, every command, switched on and off",
        minimum: 26,
        ask: every_command,
    },
    Part {
        name: "SetSoc::request, steps, edges and drawn percentages",
        minimum: 62_000,
        ask: set_soc,
    },
    Part {
        name: "reply_size, every command and count",
        minimum: 3_328,
        ask: sizes,
    },
];

fn every_command(trial: &mut Trial) {
    for command in COMMANDS {
        for enable in [false, true] {
            trial.ask(Question::Request {
                command,
                enable,
                soc_percent: 50.5,
            });
        }
    }
}

pub fn ask_set_soc(trial: &mut Trial, soc_percent: f32) {
    trial.ask(Question::Request {
        command: 0x21,
        enable: false,
        soc_percent,
    });
}

/// About every half of a tenth; infinities, NaNs and subnormals; then bits, and percentages, drawn.
fn set_soc(trial: &mut Trial) {
    for twentieth in 0..=2_001_u32 {
        let half = (twentieth as f32 / 20.0).to_bits();
        for bits in half.saturating_sub(2)..=half + 2 {
            ask_set_soc(trial, f32::from_bits(bits));
        }
    }
    for bits in [
        0,
        1,
        0x7F_FFFF,
        0x80_0000,
        0x7F7F_FFFF,
        0x7F80_0000,
        0x7F80_0001,
        0x7FC0_0000,
    ] {
        ask_set_soc(trial, f32::from_bits(bits));
        ask_set_soc(trial, -f32::from_bits(bits));
    }
    for _ in 0..trial.rounds(30_000) {
        let any = f32::from_bits(trial.random.word());
        let percent = trial.random.word() as f32 / u32::MAX as f32 * 110.0 - 5.0;
        ask_set_soc(trial, any);
        ask_set_soc(trial, percent);
    }
}

fn sizes(trial: &mut Trial) {
    for command in COMMANDS {
        for count in 0..=255 {
            trial.ask(Question::Size { command, count });
        }
    }
}
