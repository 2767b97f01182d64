//! All decoders, on right, short, long and damaged replies, with every count.

use crate::frames::{self, DATA, FRAME};
use crate::question::{Question, COMMANDS};
use crate::random::Random;
use crate::trial::{Part, Trial};

pub const PARTS: &[Part] = &[
    Part {
        name: "decode, right replies of one frame",
        minimum: 33_000,
        ask: right,
    },
    Part {
        name: "decode, replies of every length to 40, and the longest",
        minimum: 1_000,
        ask: lengths,
    },
    Part {
        name: "decode, every byte damaged, with a wrong sum and with a right one",
        minimum: 8_000,
        ask: damaged,
    },
    Part {
        name: "decode, drawn replies",
        minimum: 39_000,
        ask: drawn,
    },
    Part {
        name: "CellVoltages and CellTemperatures, every count, right, short and long",
        minimum: 10_000,
        ask: numbered,
    },
    Part {
        name: "CellVoltages and CellTemperatures, every count, damaged frames",
        minimum: 10_000,
        ask: numbered_damaged,
    },
    Part {
        name: "CellBalanceState, every count",
        minimum: 2_560,
        ask: balance,
    },
    Part {
        name: "ErrorCode, every fault alone and with every other",
        minimum: 4_096,
        ask: faults,
    },
];

/// Keeps clear of unknown modes, which are a listed difference.
pub fn known_mode(command: u8, reply: &mut [u8]) {
    if command == 0x93 && reply.len() > DATA + 1 && frames::sum(reply) == reply[reply.len() - 1] {
        reply[DATA] %= 3;
        frames::put_sum(reply);
    }
}

pub fn decode(trial: &mut Trial, command: u8, count: u8, mut reply: Vec<u8>) {
    known_mode(command, &mut reply);
    trial.ask(Question::Decode {
        command,
        count,
        reply,
    });
}

/// A count, but not the one that is a listed difference of 96.
fn any_count(random: &mut Random) -> u8 {
    [random.below(255), random.below(8)][random.below(2)] as u8
}

fn right(trial: &mut Trial) {
    for command in COMMANDS
        .into_iter()
        .filter(|command| !matches!(command, 0x95 | 0x96))
    {
        for _ in 0..trial.rounds(3_000) {
            let reply = frames::reply(&mut trial.random, command, FRAME);
            let count = any_count(&mut trial.random);
            decode(trial, command, count, reply);
        }
    }
}

fn lengths(trial: &mut Trial) {
    for command in COMMANDS {
        for length in frames::lengths(0) {
            let reply = frames::reply(&mut trial.random, command, length);
            let count = any_count(&mut trial.random);
            decode(trial, command, count, reply.clone());
            decode(trial, command, count, [reply, vec![0]].concat());
        }
    }
}

fn damaged(trial: &mut Trial) {
    for command in COMMANDS {
        for place in 0..FRAME {
            for bit in 0..8 {
                for _ in 0..trial.rounds(3) {
                    let mut reply = frames::frame(&mut trial.random, command, &[1]);
                    reply[place] ^= 1 << bit;
                    decode(trial, command, 3, reply.clone());
                    frames::put_sum(&mut reply);
                    decode(trial, command, 3, reply);
                }
            }
        }
    }
}

fn drawn(trial: &mut Trial) {
    for command in COMMANDS {
        for _ in 0..trial.rounds(3_000) {
            let other = frames::command(&mut trial.random);
            let sent = [command, command, command, other][trial.random.below(4)];
            let reply = frames::any_reply(&mut trial.random, sent);
            let count = any_count(&mut trial.random);
            decode(trial, command, count, reply);
        }
    }
}

/// The two lists of numbered frames: command, values in a frame, and the highest count compared here.
const NUMBERED: [(u8, usize, u8); 2] = [(0x95, 3, 255), (0x96, 7, 254)];

fn numbered(trial: &mut Trial) {
    for (command, values, highest) in NUMBERED {
        for count in 0..=highest {
            for _ in 0..trial.rounds(5) {
                let wanted = usize::from(count).div_ceil(values);
                let reply = frames::numbered(&mut trial.random, command, wanted);
                let short = reply[..trial.random.below(reply.len().max(1))].to_vec();
                let more = 1 + trial.random.below(20);
                let long = [reply.clone(), trial.random.bytes(more)].concat();
                decode(
                    trial,
                    command,
                    count,
                    reply[..reply.len().saturating_sub(1)].to_vec(),
                );
                for reply in [reply, short, long] {
                    decode(trial, command, count, reply);
                }
            }
        }
    }
}

/// In one frame a drawn byte is changed, or its head or number, and the sum left or made right; now and
/// then in a second one.
pub fn damage(random: &mut Random, reply: &mut [u8]) {
    for _ in 0..1 + random.below(2) {
        let start = FRAME * random.below(reply.len() / FRAME);
        let frame = &mut reply[start..start + FRAME];
        let place = [0, 2, DATA, random.below(FRAME)][random.below(4)];
        frame[place] ^= random.change();
        if random.below(2) == 0 {
            frames::put_sum(frame);
        }
    }
}

fn numbered_damaged(trial: &mut Trial) {
    for (command, values, highest) in NUMBERED {
        for count in 1..=highest {
            for _ in 0..trial.rounds(20) {
                let wanted = usize::from(count).div_ceil(values);
                let mut reply = frames::numbered(&mut trial.random, command, wanted);
                damage(&mut trial.random, &mut reply);
                decode(trial, command, count, reply);
            }
        }
    }
}

fn balance(trial: &mut Trial) {
    for count in 0..=255 {
        for _ in 0..trial.rounds(10) {
            let reply = frames::reply(&mut trial.random, 0x97, FRAME);
            decode(trial, 0x97, count, reply);
        }
    }
}

fn faults(trial: &mut Trial) {
    for one in 0..64_u64 {
        for other in 0..64_u64 {
            let bits = ((1 << one) | (1_u64 << other)).to_le_bytes();
            let reply = frames::frame(&mut trial.random, 0x98, &bits);
            decode(trial, 0x98, 0, reply);
        }
    }
}
