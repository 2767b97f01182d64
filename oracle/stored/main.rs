//! Writes the list that tools/replay.c replays: questions, and what the Rust answers to them.

// Of the comparison's files, only what makes questions and asks the Rust is used.
#![allow(dead_code)]

#[path = "../compare/frames.rs"]
mod frames;
#[path = "../compare/original.rs"]
mod original;
mod questions;
#[path = "../compare/random.rs"]
mod random;
mod rust;
#[path = "../compare/reader/streams.rs"]
mod streams;
#[path = "../compare/told.rs"]
mod told;

use std::fmt::Write;

const SEED: u64 = 20_261_115;
/// What tools/replay.c takes for one line, without its end.
const LONGEST_LINE: usize = 8192;

const HEAD: &str = "\
# Answers of protocol.rs, made by oracle/answers. A line is a question and its answer, in hexadecimal.
# The question's first byte is its kind, the second a command:
# 01 request: a flag byte (D9, DA) or the four bytes of an f32 (21). Answer: 0, then the 13 bytes.
# 02 decode: the count, then the reply. Answer: 0 and the values in the order of the source, or the refusal's number.
#    An f32 is its bits and a temperature 32 bits, high byte first; a fault is its position.
# 03 reader: the reply's size and the chunks' size, two bytes each, then the stream.
#    Answer: 0, the last status, complete, missing, 0, then the collected bytes.
# The last line has the sum of all bytes before it, modulo 2^32.
";

fn put_hex(line: &mut String, bytes: &[u8]) {
    for byte in bytes {
        write!(line, "{byte:02X}").unwrap();
    }
}

fn line(question: &[u8], answer: &[u8]) -> String {
    let mut line = String::new();
    put_hex(&mut line, question);
    line.push(' ');
    put_hex(&mut line, answer);
    assert!(line.len() <= LONGEST_LINE, "a line of {} bytes", line.len());
    line.push('\n');
    line
}

fn main() {
    let mut random = random::Random::new(SEED);
    let mut list = HEAD.to_string();
    for (title, questions) in questions::all(&mut random) {
        writeln!(list, "# {title}").unwrap();
        for question in questions {
            // a question at which the Rust panics is a listed difference, and none of these
            if let Some(answer) = rust::answer(&question) {
                list.push_str(&line(&question, &answer));
            }
        }
    }
    let sum = list
        .bytes()
        .fold(0_u32, |sum, byte| sum.wrapping_add(byte.into()));
    print!("{list}end {sum}\n");
}
