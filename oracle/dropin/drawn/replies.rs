//! Decoders, each on replies that are right, damaged, short, long, of another command or wrongly numbered.

use super::Drawn;
use crate::frames::{self, DATA, FRAME};
use crate::random::Random;
use crate::replies::{damage, decode};
use crate::trial::Trial;

pub const PARTS: &[Drawn] = &[
    Drawn {
        name: "drawn: Soc::decode",
        share: 70,
        one: one_frame::<0x90>,
    },
    Drawn {
        name: "drawn: CellVoltageRange::decode",
        share: 70,
        one: one_frame::<0x91>,
    },
    Drawn {
        name: "drawn: TemperatureRange::decode",
        share: 70,
        one: one_frame::<0x92>,
    },
    Drawn {
        name: "drawn: MosfetStatus::decode",
        share: 70,
        one: one_frame::<0x93>,
    },
    Drawn {
        name: "drawn: Status::decode",
        share: 70,
        one: one_frame::<0x94>,
    },
    Drawn {
        name: "drawn: CellVoltages::decode, every count",
        share: 60,
        one: numbered::<0x95, 3, 255>,
    },
    Drawn {
        name: "drawn: CellTemperatures::decode, every count but 255",
        share: 60,
        one: numbered::<0x96, 7, 254>,
    },
    Drawn {
        name: "drawn: CellBalanceState::decode, every count",
        share: 60,
        one: one_frame::<0x97>,
    },
    Drawn {
        name: "drawn: ErrorCode::decode",
        share: 60,
        one: one_frame::<0x98>,
    },
    Drawn {
        name: "drawn: SetDischargeMosfet, SetChargeMosfet, SetSoc and BmsReset::decode",
        share: 40,
        one: only_checked,
    },
];

/// A right frame; in half of them some data bytes are such as a board sends often.
fn right(random: &mut Random, command: u8) -> Vec<u8> {
    let mut frame = frames::reply(random, command, FRAME);
    for _ in 0..random.below(2) * random.below(8) {
        frame[DATA + random.below(8)] = [0, 1, 2, 0x80, 0xFF][random.below(5)];
    }
    frames::put_sum(&mut frame);
    frame
}

/// Half of them are right.
fn reply(random: &mut Random, command: u8) -> Vec<u8> {
    let mut reply = right(random, command);
    match random.below(10) {
        0 => reply[random.below(FRAME)] ^= 1 << random.below(8),
        1 => damage(random, &mut reply),
        2 => {
            let other = command ^ random.change();
            reply = right(random, other);
        }
        3 => {
            let length = [random.below(FRAME), random.below(60)][random.below(2)];
            reply = frames::reply(random, command, length);
        }
        4 => reply = frames::any_reply(random, command),
        _ => {}
    }
    reply
}

fn ask(trial: &mut Trial, command: u8) {
    let reply = reply(&mut trial.random, command);
    let count = trial.random.byte();
    decode(trial, command, count, reply);
}

fn one_frame<const COMMAND: u8>(trial: &mut Trial) {
    ask(trial, COMMAND);
}

fn only_checked(trial: &mut Trial) {
    let command = [0xD9, 0xDA, 0x21, 0x00][trial.random.below(4)];
    ask(trial, command);
}

/// Short counts are drawn more often than long ones.
fn numbered<const COMMAND: u8, const PER: usize, const HIGHEST: usize>(trial: &mut Trial) {
    let random = &mut trial.random;
    let highest = [HIGHEST, HIGHEST, 32, 32][random.below(4)];
    let count = random.below(highest + 1);
    let wanted = count.div_ceil(PER);
    let mut reply = frames::numbered(random, COMMAND, wanted);
    match random.below(10) {
        0..3 if wanted > 0 => damage(random, &mut reply),
        3 => reply.truncate(random.below(reply.len() + 1)),
        4 => {
            let more = 1 + random.below(40);
            reply.extend(random.bytes(more));
        }
        5 => {
            let other = COMMAND ^ random.change();
            reply = frames::numbered(random, other, wanted);
        }
        6 if wanted > 1 => reply.rotate_left(FRAME * (1 + random.below(wanted - 1))),
        7 => reply = frames::any_reply(random, COMMAND),
        _ => {}
    }
    decode(trial, COMMAND, count as u8, reply);
}
