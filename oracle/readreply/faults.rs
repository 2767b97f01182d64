//! Whether the comparison can fail: a program with a fault must be noticed, a right one must pass.

use crate::part::{verdict, Part};
use crate::process::Program;
use std::path::PathBuf;
use std::time::Duration;

const STAND_IN: &str = "target/oracle/stand_in";
/// Cases of a part that a stand-in is tried on, at most.
const TRIED: usize = 60;

/// The fault whose every case takes as long as it may.
const HANGS: &str = "hangs";

/// What the stand-in does wrong, and the part that must notice.
const FAULTS: [(&str, &str); 22] = [
    (
        "a short read ends",
        "document 01's example, cut in two at every place",
    ),
    ("a byte of each read is lost", "drawn: clean streams"),
    ("complete ends", "inputs of 1 to 4 MiB"),
    ("discarded has 16 bits", "inputs of 1 to 4 MiB"),
    (
        "no status 2",
        "511 to 514 discarded before the reply, by each rule",
    ),
    ("held is 0", "1 to 12 bytes held at the end"),
    ("cleared is discarded", "drawn: boards that begin again"),
    ("the last newline lacks", "inputs of 0, 1 and 2 bytes"),
    ("a value twice", "every command with every count"),
    ("exit status 1", "the stored samples"),
    ("a word to standard error", "the stored samples"),
    (HANGS, "document 01's example, cut in two at every place"),
    ("noise and sum exchanged", "drawn: noise between frames"),
    (
        "command and number exchanged",
        "drawn: frames of other commands",
    ),
    (
        "number and echo exchanged",
        "drawn: echoes of our own question",
    ),
    (
        "noise is sum",
        "document 01's example, cut in two at every place",
    ),
    (
        "the byte after a wrong sum is one of it",
        "drawn: flipped, dropped and doubled bytes",
    ),
    ("13 for a wrong sum", "drawn: start bytes"),
    (
        "a wrong command is 1 byte",
        "drawn: frames of other commands",
    ),
    ("noise has 16 bits", "inputs of 1 to 4 MiB"),
    (
        "the line ends with cleared",
        "document 01's example, cut in two at every place",
    ),
    ("echo lacks", "the stored samples"),
];

fn stand_in(fault: &'static str) -> Program {
    let limit = if fault == HANGS { 1 } else { 20 };
    Program {
        path: PathBuf::from(STAND_IN),
        fault: Some(fault),
        limit: Duration::from_secs(limit),
    }
}

/// Each fault is a test.
pub fn noticed(parts: &[Part], seed: u64) -> Vec<bool> {
    let noticed = FAULTS.iter().map(|(fault, by)| {
        let part = parts.iter().find(|part| part.what == *by);
        let few = if *fault == HANGS { 2 } else { TRIED };
        let noticed = part.is_some_and(|part| part.wrong(&stand_in(fault), seed, few) > 0);
        println!("{} notices a stand-in's fault: {fault}", verdict(noticed));
        noticed
    });
    noticed.collect()
}

/// And the stand-in without a fault passes, some cases of each part.
pub fn right_passes(parts: &[Part], seed: u64) -> bool {
    let program = stand_in("");
    let wrong: usize = parts.iter().map(|part| part.wrong(&program, seed, 4)).sum();
    println!(
        "{} a stand-in without a fault: {wrong} mismatches",
        verdict(wrong == 0)
    );
    wrong == 0
}
