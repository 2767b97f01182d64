//! The reference as a program of its own, `readreply` over the Rust. The comparison is tried on it: as it
//! is, where it must pass, and with a fault named by the variable `FAULT`, which must be noticed.

use reference::{no_reader, Reference, Tally};
use std::io::{self, Read, Write};
use std::process::ExitCode;

/// Read at once, at most.
const ROOM: usize = 65_536;

/// Standard input to its end; a read error ends it.
struct Input {
    fault: String,
    ended: bool,
    reads: usize,
}

impl Input {
    /// What one read gave.
    fn read(&mut self) -> Vec<u8> {
        let mut room = vec![0; ROOM];
        let count = match self.ended {
            true => 0,
            false => io::stdin().lock().read(&mut room).unwrap_or(0),
        };
        room.truncate(count);
        self.ended = count == 0 || self.fault == "a short read ends" && count < ROOM;
        self.reads += 1;
        if self.fault == "a byte of each read is lost" && self.reads > 1 && count > 0 {
            room.remove(0);
        }
        room
    }

    /// The next bytes, at least so many unless the input ends.
    fn at_least(&mut self, wanted: usize) -> Vec<u8> {
        let mut bytes = Vec::new();
        while bytes.len() < wanted && !self.ended {
            bytes.extend(self.read());
        }
        bytes
    }

    fn pushed(&mut self, command: u8, count: u8, stream: &[u8]) -> Reference {
        let mut reference = Reference::new(command, count);
        reference.push(stream);
        while !self.ended {
            if self.fault == "complete ends" && reference.is_complete() {
                break;
            }
            reference.push(&self.read());
        }
        reference
    }
}

/// The text, with the faults that are none of reading.
fn text(input: &mut Input) -> String {
    let begin = input.at_least(2);
    if let Some(text) = no_reader(&begin) {
        return text;
    }
    let reference = input.pushed(begin[0], begin[1], &begin[2..]);
    let (mut tally, mut status) = (reference.tally(), reference.status());
    match input.fault.as_str() {
        "no status 2" => status = 0,
        "held is 0" => tally.held = 0,
        "discarded has 16 bits" => tally.discarded %= 65_536,
        "cleared is discarded" => {
            tally.discarded += 13 * tally.cleared;
            tally.cleared = 0;
        }
        fault => misjudge(&mut tally, fault),
    }
    let text = reference.text_with(tally, status);
    match input.fault.as_str() {
        "the last newline lacks" => text.trim_end().to_string(),
        "a value twice" => text.clone() + text.lines().last().unwrap_or_default() + "\n",
        "the line ends with cleared" => without(&text, " noise "),
        "echo lacks" => without(&text, " echo "),
        _ => text,
    }
}

/// The faults of the five counts. The one that they stand for is right.
fn misjudge(tally: &mut Tally, fault: &str) {
    let thrown = &mut tally.thrown;
    match fault {
        "noise and sum exchanged" => std::mem::swap(&mut thrown.noise, &mut thrown.sum),
        "command and number exchanged" => std::mem::swap(&mut thrown.command, &mut thrown.number),
        "number and echo exchanged" => std::mem::swap(&mut thrown.number, &mut thrown.echo),
        "noise is sum" => {
            thrown.sum += thrown.noise;
            thrown.noise = 0;
        }
        "the byte after a wrong sum is one of it" => {
            let more = thrown.sum.min(thrown.noise);
            thrown.sum += more;
            thrown.noise -= more;
        }
        "13 for a wrong sum" => thrown.sum *= 13,
        "a wrong command is 1 byte" => thrown.command /= 13,
        "noise has 16 bits" => thrown.noise %= 65_536,
        _ => {}
    }
}

/// The text without what stands in its first line from this word on.
fn without(text: &str, word: &str) -> String {
    let (line, rest) = text.split_once('\n').unwrap_or((text, ""));
    let kept = line.split(word).next().unwrap_or(line);
    format!("{kept}\n{rest}")
}

fn main() -> ExitCode {
    let mut input = Input {
        fault: std::env::var("FAULT").unwrap_or_default(),
        ended: false,
        reads: 0,
    };
    let text = text(&mut input);
    let mut output = io::stdout().lock();
    let _ = output.write_all(text.as_bytes());
    let _ = output.flush();
    match input.fault.as_str() {
        "exit status 1" => return ExitCode::FAILURE,
        "a word to standard error" => eprintln!("read"),
        "hangs" => std::thread::sleep(std::time::Duration::from_secs(3600)),
        _ => {}
    }
    ExitCode::SUCCESS
}
