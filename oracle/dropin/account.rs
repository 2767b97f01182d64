//! `daly::account`, which the Rust has not: beside the Rust's floats, the model of the reader's rules, and document
//! 01's words for the rest.

mod counts;
pub mod reader;

use crate::answer::{Answer, Value};
use crate::frames::{self, FRAME, START};
use crate::trial::{Part, Trial};
use daly::account;
use daly::protocol::FrameReader;
use daly::Error;

pub const PARTS: &[Part] = &[
    Part {
        name: "account: whole counts, and the Rust's floats made of them",
        minimum: 18_000,
        ask: counts::counts,
    },
    Part {
        name: "account: millivolts of every count, and the Rust's volts made of them",
        minimum: 2_560,
        ask: counts::millivolts,
    },
    Part {
        name: "account: what became of every byte, after every push, by the reader's rules",
        minimum: 3_700,
        ask: reader::readers,
    },
    Part {
        name: "account: a refused reader takes nothing and counts nothing",
        minimum: 20,
        ask: |trial| reader::refused(trial, FrameReader::new),
    },
    Part {
        name: "account: the pack check, by its rule",
        minimum: 10_000,
        ask: packs,
    },
    Part {
        name: "account: the sum and the frame check of any buffer",
        minimum: 10_000,
        ask: sums,
    },
    Part {
        name: "account: frame k of buffers of every length to 40, and of the longest",
        minimum: 336,
        ask: parts,
    },
    Part {
        name: "account: the number of every error",
        minimum: 10,
        ask: numbers,
    },
    Part {
        name: "account: the sum of any five counts",
        minimum: 10_000,
        ask: reader::sums,
    },
];

fn told<T>(result: Result<T, Error>, values: impl FnOnce(T) -> Vec<Value>) -> Answer {
    match result {
        Ok(told) => Answer::Values(values(told)),
        Err(error) => Answer::Refused(format!("{error:?}")),
    }
}

fn whole(number: impl Into<i64>) -> Value {
    Value::Whole(number.into())
}

fn packs(trial: &mut Trial) {
    for count in [1, 2, 8, 16, 254, 255, 256, 300] {
        for difference in -51..=51 {
            for _ in 0..trial.rounds(10) {
                let sum = 100 * (10 + trial.random.below(500)) as i64 + difference;
                let mut cells = vec![(sum / count) as u16; count as usize];
                cells[0] += (sum % count) as u16;
                pack(trial, cells, ((sum - difference) / 100) as u16);
            }
        }
        for _ in 0..trial.rounds(300) {
            let cells = (0..count).map(|_| trial.random.word() as u16).collect();
            let total = trial.random.word() as u16;
            pack(trial, cells, total);
        }
    }
    pack(trial, Vec::new(), 0);
    pack(trial, Vec::new(), 1);
}

fn pack(trial: &mut Trial, cells: Vec<u16>, total: u16) {
    let sum: i64 = cells.iter().copied().map(i64::from).sum();
    let difference = sum - 100 * i64::from(total);
    let agrees = (-50..=50).contains(&difference);
    let wanted = match cells.len() {
        0..=255 => Answer::Values(vec![Value::Whole(difference), Value::Flag(agrees)]),
        _ => Answer::refused("CountTooLarge"),
    };
    let found = told(account::pack_check(&cells, total), |pack| {
        vec![whole(pack.difference), Value::Flag(pack.agrees)]
    });
    trial.judge(&wanted, found, &(cells, total));
}

fn sums(trial: &mut Trial) {
    for _ in 0..trial.rounds(5_000) {
        let command = frames::command(&mut trial.random);
        let buffer = frames::any_reply(&mut trial.random, command);
        let sum = Answer::Values(vec![whole(account::calc_crc(&buffer))]);
        trial.judge(
            &Answer::Values(vec![whole(frames::sum(&buffer))]),
            sum,
            &buffer,
        );
        let check = told(account::frame_check(&buffer, command), |()| Vec::new());
        trial.judge(&checked(&buffer, command), check, &(&buffer, command));
    }
}

fn parts(trial: &mut Trial) {
    for length in frames::lengths(0) {
        let buffer = trial.random.bytes(length);
        for k in [0, 1, 2, 3, 84, 85, usize::MAX / FRAME, usize::MAX] {
            let part = buffer
                .chunks(FRAME)
                .nth(k)
                .filter(|part| part.len() == FRAME);
            let bytes = |part: &[u8]| vec![Value::Bytes(part.to_vec())];
            let wanted = part.map_or(Answer::refused("ReplySizeError"), |part| {
                Answer::Values(bytes(part))
            });
            let found = told(account::frame(&buffer, k), bytes);
            trial.judge(&wanted, found, &(&buffer, k));
        }
    }
}

fn checked(buffer: &[u8], command: u8) -> Answer {
    if buffer.len() < FRAME {
        Answer::refused("ReplySizeError")
    } else if buffer[0] != START || buffer[2] != command {
        Answer::refused("UnexpectedFrame")
    } else if buffer[buffer.len() - 1] != frames::sum(buffer) {
        Answer::refused("CheckSumError")
    } else {
        Answer::Values(Vec::new())
    }
}

/// By document 01's table.
const NUMBERS: [(Error, u8); 10] = [
    (Error::ReplySizeError, 1),
    (Error::UnexpectedFrame, 2),
    (Error::CheckSumError, 3),
    (Error::FrameNoError, 4),
    (Error::UnknownMode, 5),
    (Error::ReplyTooLong, 6),
    (Error::RequestTooShort, 7),
    (Error::BadState, 8),
    (Error::CountTooLarge, 11),
    (Error::Impossible(99), 99),
];

fn numbers(trial: &mut Trial) {
    for (error, number) in NUMBERS {
        let found = Answer::Values(vec![whole(error.number())]);
        trial.judge(&Answer::Values(vec![whole(number)]), found, &error);
    }
}
