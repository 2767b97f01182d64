//! The list of faults, 98.

use crate::frames;
use crate::lists::{self, Case, List, OneFrame};
use crate::one_frame;
use crate::original::{self, Listed};
use crate::port::*;
use crate::random::Random;
use crate::trial::{Part, Trial};
use std::fs;

pub fn parts() -> Vec<Part> {
    let of = "ErrorCode";
    let others = [
        one_frame::data_part::<OneFrame<ErrorCode>>(of),
        Part::new(of, "every bit alone and with every other", 64 * 64, pairs),
        Part::new(
            of,
            "the 16 bits without a fault, in every combination",
            2 << 16,
            without_fault,
        ),
        Part::new(
            of,
            "the fault of every bit, by its position and name",
            2 + 64 + 2 * 48,
            names,
        ),
        lists::room_part::<ErrorCode>(of),
    ];
    [&one_frame::parts::<OneFrame<ErrorCode>>(of)[..], &others].concat()
}

/// The faults that there are, and the places that a buffer must have.
const FAULTS: usize = 48;

pub struct ErrorCode;

impl List for ErrorCode {
    const COMMAND: u8 = 0x98;
    const PER: Option<usize> = None;
    type Place = u8;
    const ASK: AskList<u8> = error_codes;

    fn places(_: u8) -> usize {
        FAULTS
    }

    fn rust(reply: &[u8], _: u8) -> Listed<u8> {
        original::error_codes(reply)
    }
}

/// A right reply with these eight data bytes, the first of them lowest.
fn reply_of(random: &mut Random, bits: u64) -> Vec<u8> {
    frames::frame(random, ErrorCode::COMMAND, &bits.to_le_bytes())
}

fn compare(trial: &mut Trial, reply: &[u8]) {
    let (n, room) = (0, FAULTS);
    lists::compare::<ErrorCode>(trial, Case { reply, n, room }, Some(0));
}

fn pairs(trial: &mut Trial) {
    for one in 0..64 {
        for other in 0..64 {
            let reply = reply_of(&mut trial.random, (1 << one) | (1 << other));
            compare(trial, &reply);
        }
    }
}

/// The high halves of bytes 7 and 10, and byte 11: both sides list nothing.
fn without_fault(trial: &mut Trial) {
    for bits in (0..=u64::from(u16::MAX)).step_by(trial.stride()) {
        let reply = reply_of(&mut trial.random, ((bits & 0xF) << 28) | (bits >> 4 << 52));
        compare(trial, &reply);
        let rust = original::error_codes(&reply);
        trial.check(Some(vec![]), rust.ok(), || format!("reply {reply:02X?}"));
    }
}

/// The position and name of each variant, in the order of the Rust's text.
fn rust_rows(text: &str) -> Vec<String> {
    text.lines()
        .skip_while(|line| *line != "pub enum ErrorCode {")
        .take_while(|line| *line != "}")
        .filter_map(|line| line.trim().strip_suffix(','))
        .filter(|name| name.chars().all(char::is_alphanumeric))
        .enumerate()
        .map(|(position, name)| format!("{position} {name}"))
        .collect()
}

/// The same of the rows `| position | name | ..` of a table.
fn table_rows(text: &str) -> Vec<String> {
    text.lines()
        .filter_map(|line| {
            let mut cells = line.strip_prefix('|')?.split('|').map(str::trim);
            let position: usize = cells.next()?.parse().ok()?;
            Some(format!("{position} {}", cells.next()?.trim_matches('`')))
        })
        .collect()
}

/// The faults in the Rust's text and in our own table.
fn listings() -> [(&'static str, Vec<String>); 2] {
    let (rust, ours) = ("oracle/protocol.rs", "docs/FAULTS.md");
    let text = |file: &str| fs::read_to_string(file).expect("run in the repository's root");
    [
        (rust, rust_rows(&text(rust))),
        (ours, table_rows(&text(ours))),
    ]
}

/// Positions are the compiler's, names the Rust's own; every listing must have them so.
fn names(trial: &mut Trial) {
    let listings = listings();
    for (file, rows) in &listings {
        trial.check(FAULTS, rows.len(), || format!("the faults in {file}"));
    }
    for bit in 0..64 {
        let reply = reply_of(&mut trial.random, 1 << bit);
        compare(trial, &reply);
        let positions = original::error_codes(&reply).unwrap_or_default();
        let names = original::error_names(&reply).unwrap_or_default();
        for (position, name) in positions.into_iter().zip(names) {
            for (file, rows) in &listings {
                let place = format!("{position} ");
                let row = rows.iter().find(|row| row.starts_with(&place)).cloned();
                trial.check(Some(place + &name), row, || format!("bit {bit} in {file}"));
            }
        }
    }
}
