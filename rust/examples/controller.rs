//! Asks a board on a serial line for readings and prints them.
//!
//! ```text
//! controller PATH [COMMANDS | 95 CELLS | 96 SENSORS | 97 CELLS]
//! ```
//!
//! COMMANDS is one of 90 (charge), 91 and 92 (extremes), 93 (MOSFETs), 94 (status), 95 (cells; the default),
//! 96 (sensors), 97 (balance) and 98 (faults), or several of them with commas between (90,95,90), or `all`.
//! Where several are asked, a line as `asked 90` stands above each reading. How many cells and sensors there
//! are is asked of the board, by 94, unless it is given. What fails is told on standard error; where a reply was
//! waited for, a second line tells how many bytes were thrown away meanwhile, and why.
//!
//! The line is to be in raw mode: `stty -F PATH 9600 raw -echo cs8 -parenb -cstopb -crtscts`. There a read of
//! no bytes is a line that hung up. `examples/controller.c` is the same in C.

#[path = "controller/line.rs"]
mod line;

use daly::account::Discarded;
use daly::protocol::{
    Address, CellBalanceState, CellTemperatures, CellVoltageRange, CellVoltages, ErrorCode,
    FrameReader, MosfetStatus, Soc, Status, TemperatureRange,
};
use line::{Failure, Line, LATE, PATIENCE, STILL};
use std::fmt::{self, Display, Formatter};
use std::process::ExitCode;
use std::time::Instant;

const USAGE: &str = "controller PATH [COMMANDS | 95 CELLS | 96 SENSORS | 97 CELLS]
COMMANDS: 90 to 98, several with commas between, or all";

/// Lists with how many cells or sensors there are.
#[derive(Clone, Copy)]
enum Question {
    Charge,
    CellRange,
    TemperatureRange,
    Mosfets,
    Status,
    Cells(u8),
    Sensors(u8),
    Balance(u8),
    Faults,
}

impl Question {
    fn request(self) -> Vec<u8> {
        let host = Address::Host;
        match self {
            Self::Charge => Soc::request(host),
            Self::CellRange => CellVoltageRange::request(host),
            Self::TemperatureRange => TemperatureRange::request(host),
            Self::Mosfets => MosfetStatus::request(host),
            Self::Status => Status::request(host),
            Self::Cells(_) => CellVoltages::request(host),
            Self::Sensors(_) => CellTemperatures::request(host),
            Self::Balance(_) => CellBalanceState::request(host),
            Self::Faults => ErrorCode::request(host),
        }
    }

    fn reply_size(self) -> usize {
        match self {
            Self::Charge => Soc::reply_size(),
            Self::CellRange => CellVoltageRange::reply_size(),
            Self::TemperatureRange => TemperatureRange::reply_size(),
            Self::Mosfets => MosfetStatus::reply_size(),
            Self::Status => Status::reply_size(),
            Self::Cells(cells) => CellVoltages::reply_size(cells),
            Self::Sensors(sensors) => CellTemperatures::reply_size(sensors),
            Self::Balance(_) => CellBalanceState::reply_size(),
            Self::Faults => ErrorCode::reply_size(),
        }
    }

    /// The reading, a line for each value.
    fn lines(self, reply: &[u8]) -> Result<Vec<String>, daly::Error> {
        Ok(match self {
            Self::Charge => charge(Soc::decode(reply)?),
            Self::CellRange => cell_range(CellVoltageRange::decode(reply)?),
            Self::TemperatureRange => temperature_range(TemperatureRange::decode(reply)?),
            Self::Mosfets => mosfets(MosfetStatus::decode(reply)?),
            Self::Status => status(Status::decode(reply)?),
            Self::Cells(cells) => numbered(&CellVoltages::decode(reply, cells)?, |cell, volts| {
                format!("cell {cell} {volts:.3} V")
            }),
            Self::Sensors(sensors) => numbered(
                &CellTemperatures::decode(reply, sensors)?,
                |sensor, degrees| format!("sensor {sensor} {degrees} C"),
            ),
            Self::Balance(cells) => numbered(
                &CellBalanceState::decode(reply, cells)?,
                |cell, balanced| format!("balance {cell} {balanced}"),
            ),
            Self::Faults => numbered(&ErrorCode::decode(reply)?, |_, fault| {
                format!("fault {fault:?}")
            }),
        })
    }
}

fn numbered<T>(values: &[T], line: fn(usize, &T) -> String) -> Vec<String> {
    (1..)
        .zip(values)
        .map(|(number, value)| line(number, value))
        .collect()
}

fn charge(soc: Soc) -> Vec<String> {
    vec![
        format!("total_voltage {:.1} V", soc.total_voltage),
        format!("current {:.1} A", soc.current),
        format!("soc {:.1} %", soc.soc_percent),
    ]
}

fn cell_range(range: CellVoltageRange) -> Vec<String> {
    vec![
        format!("highest_voltage {:.3} V", range.highest_voltage),
        format!("highest_cell {}", range.highest_cell),
        format!("lowest_voltage {:.3} V", range.lowest_voltage),
        format!("lowest_cell {}", range.lowest_cell),
    ]
}

fn temperature_range(range: TemperatureRange) -> Vec<String> {
    vec![
        format!("highest_temperature {} C", range.highest_temperature),
        format!("highest_sensor {}", range.highest_sensor),
        format!("lowest_temperature {} C", range.lowest_temperature),
        format!("lowest_sensor {}", range.lowest_sensor),
    ]
}

fn mosfets(status: MosfetStatus) -> Vec<String> {
    vec![
        format!("mode {:?}", status.mode),
        format!("charging_mosfet {}", status.charging_mosfet),
        format!("discharging_mosfet {}", status.discharging_mosfet),
        format!("bms_cycles {}", status.bms_cycles),
        format!("capacity {:.3} Ah", status.capacity_ah),
    ]
}

fn status(status: Status) -> Vec<String> {
    let io = status.states;
    vec![
        format!("cells {}", status.cells),
        format!("temperature_sensors {}", status.temperature_sensors),
        format!("charger_running {}", status.charger_running),
        format!("load_running {}", status.load_running),
        format!(
            "di1 {}\ndi2 {}\ndi3 {}\ndi4 {}",
            io.di1, io.di2, io.di3, io.di4
        ),
        format!(
            "do1 {}\ndo2 {}\ndo3 {}\ndo4 {}",
            io.do1, io.do2, io.do3, io.do4
        ),
        format!("cycles {}", status.cycles),
    ]
}

/// A question without a reading: why, and, where a reply was waited for, what was thrown away meanwhile.
struct Failed {
    why: Failure,
    discarded: Option<Discarded>,
}

impl From<Failure> for Failed {
    fn from(why: Failure) -> Self {
        Self {
            why,
            discarded: None,
        }
    }
}

/// The counts in the words of `readreply`.
impl Display for Failed {
    fn fmt(&self, f: &mut Formatter<'_>) -> fmt::Result {
        self.why.fmt(f)?;
        let Some(why) = self.discarded else {
            return Ok(());
        };
        write!(
            f,
            "\nnoise {} sum {} command {} number {} echo {}",
            why.noise, why.sum, why.command, why.number, why.echo
        )
    }
}

/// A reply's bytes, and what was thrown away while it was waited for.
struct Reply {
    bytes: Vec<u8>,
    discarded: Discarded,
}

impl Reply {
    fn decoded<T>(
        &self,
        decode: impl FnOnce(&[u8]) -> Result<T, daly::Error>,
    ) -> Result<T, Failed> {
        decode(&self.bytes).map_err(|error| Failed {
            why: error.into(),
            discarded: Some(self.discarded),
        })
    }
}

/// A board on a line, and what 94 told of it.
struct Board {
    line: Line,
    status: Option<Status>,
}

impl Board {
    /// Until the reader has all frames. No more is read than the next one lacks, so what follows stays on the line.
    fn fill(&mut self, until: Instant, reader: &mut FrameReader) -> Result<(), Failure> {
        let mut chunk = [0; 13];
        while !reader.is_complete() {
            let length = self.line.receive(until, &mut chunk[..reader.missing()])?;
            reader.push(&chunk[..length])?;
        }
        Ok(())
    }

    /// One reply. The reader is strict, since an adapter may send our question back.
    fn collect(
        &mut self,
        until: Instant,
        request: &[u8],
        reply_size: usize,
    ) -> Result<Reply, Failed> {
        let mut reader = FrameReader::new_strict(request, reply_size);
        let filled = self.fill(until, &mut reader);
        let discarded = reader.counts().discarded;
        match filled {
            Ok(()) => Ok(Reply {
                bytes: reader.into_bytes(),
                discarded,
            }),
            Err(why) => Err(Failed {
                why,
                discarded: Some(discarded),
            }),
        }
    }

    fn exchange(&mut self, question: Question) -> Result<Reply, Failed> {
        let request = question.request();
        self.line.send(&request)?;
        let until = Instant::now() + PATIENCE;
        self.collect(until, &request, question.reply_size())
    }

    /// Nothing that was asked before is on the line when the question goes out, nor when it is given up.
    fn ask(&mut self, question: Question) -> Result<Reply, Failed> {
        self.line.settle(STILL);
        let reply = self.exchange(question);
        if reply.is_err() {
            self.line.settle(LATE);
        }
        reply
    }

    /// The count that was given, or the one that 94 tells, which is asked once. A count that is too small hides
    /// cells, and one that is too large makes up cells of 0 V.
    fn count(&mut self, given: Option<u8>, told: fn(&Status) -> u8) -> Result<u8, Failed> {
        if let Some(count) = given {
            return Ok(count);
        }
        let status = match self.status.take() {
            Some(status) => status,
            None => self.ask(Question::Status)?.decoded(Status::decode)?,
        };
        Ok(told(self.status.insert(status)))
    }

    fn question(&mut self, command: &str, count: Option<u8>) -> Result<Question, Failed> {
        Ok(match command {
            "90" => Question::Charge,
            "91" => Question::CellRange,
            "92" => Question::TemperatureRange,
            "93" => Question::Mosfets,
            "94" => Question::Status,
            "95" => Question::Cells(self.count(count, |status| status.cells)?),
            "96" => Question::Sensors(self.count(count, |status| status.temperature_sensors)?),
            "97" => Question::Balance(self.count(count, |status| status.cells)?),
            _ => Question::Faults,
        })
    }

    fn answer(&mut self, command: &str, count: Option<u8>) -> Result<Vec<String>, Failed> {
        let question = self.question(command, count)?;
        let reply = self.ask(question)?;
        reply.decoded(|bytes| question.lines(bytes))
    }
}

const ALL: [&str; 9] = ["90", "91", "92", "93", "94", "95", "96", "97", "98"];

/// The commands, and a count where it stands behind one command, of a list.
fn parse(words: &[String]) -> Option<(Vec<&str>, Option<u8>)> {
    let commands: Vec<&str> = match words.first().map(String::as_str) {
        None => vec!["95"],
        Some("all") => ALL.to_vec(),
        Some(word) => word.split(',').collect(),
    };
    let known = commands.iter().all(|command| ALL.contains(command));
    match (words, commands.as_slice()) {
        ([] | [_], _) if known => Some((commands, None)),
        ([_, count], ["95" | "96" | "97"]) => Some((commands, Some(count.parse().ok()?))),
        _ => None,
    }
}

/// All questions, also after one that failed; a line that hung up answers none.
fn answer_all(mut board: Board, commands: &[&str], count: Option<u8>) -> bool {
    let mut good = true;
    for command in commands {
        if commands.len() > 1 {
            println!("asked {command}");
        }
        match board.answer(command, count) {
            Ok(lines) => lines.iter().for_each(|line| println!("{line}")),
            Err(failed) => {
                eprintln!("{failed}");
                good = false;
                if let Failure::HungUp = failed.why {
                    break;
                }
            }
        }
    }
    good
}

fn main() -> ExitCode {
    let words: Vec<String> = std::env::args().skip(1).collect();
    let Some((commands, count)) = words.get(1..).and_then(parse) else {
        eprintln!("{USAGE}");
        return ExitCode::from(2);
    };
    let good = match Line::open(&words[0]) {
        Ok(line) => answer_all(Board { line, status: None }, &commands, count),
        Err(error) => {
            eprintln!("{}: {error}", words[0]);
            false
        }
    };
    match good {
        true => ExitCode::SUCCESS,
        false => ExitCode::FAILURE,
    }
}
