//! Requests.

use super::Drawn;
use crate::question::{Question, COMMANDS};
use crate::requests::ask_set_soc;
use crate::trial::Trial;

pub const PARTS: &[Drawn] = &[
    Drawn {
        name: "drawn: request, any command, on or off, any percentage",
        share: 10,
        one: any_request,
    },
    Drawn {
        name: "drawn: SetSoc::request, any bit pattern",
        share: 150,
        one: any_bits,
    },
    Drawn {
        name: "drawn: SetSoc::request, percentages from -5 to 105",
        share: 75,
        one: percentage,
    },
    Drawn {
        name: "drawn: SetSoc::request, at and beside halves of a tenth",
        share: 75,
        one: beside_half,
    },
];

fn any_request(trial: &mut Trial) {
    let random = &mut trial.random;
    let question = Question::Request {
        command: COMMANDS[random.below(COMMANDS.len())],
        enable: random.below(2) == 0,
        soc_percent: f32::from_bits(random.word()),
    };
    trial.ask(question);
}

fn any_bits(trial: &mut Trial) {
    let bits = trial.random.word();
    ask_set_soc(trial, f32::from_bits(bits));
}

fn percentage(trial: &mut Trial) {
    let part = trial.random.word() as f32 / u32::MAX as f32;
    ask_set_soc(trial, part * 110.0 - 5.0);
}

fn beside_half(trial: &mut Trial) {
    let half = trial.random.below(2_002) as f32 / 20.0;
    let bits = half.to_bits() + trial.random.below(33) as u32;
    ask_set_soc(trial, f32::from_bits(bits.saturating_sub(16)));
}
