//! The one-frame decoders that answer a record, 90 to 94.

use crate::frames::{self, DATA};
use crate::one_frame::{self, Reads};
use crate::original;
use crate::port::*;
use crate::random::Random;
use crate::told::*;
use crate::trial::{Part, Trial};

pub fn parts() -> Vec<Part> {
    [
        &of_reading::<Soc>("Soc")[..],
        &of_reading::<CellVoltageRange>("CellVoltageRange"),
        &of_reading::<TemperatureRange>("TemperatureRange"),
        &of_reading::<MosfetStatus>("MosfetStatus"),
        &of_reading::<Status>("Status"),
        MOSFET_STATUS,
    ]
    .concat()
}

fn of_reading<R: Reading>(of: &'static str) -> Vec<Part> {
    [
        &one_frame::parts::<R>(of)[..],
        &[one_frame::data_part::<R>(of)],
    ]
    .concat()
}

const MOSFET_STATUS: &[Part] = &[
    Part::new(
        "MosfetStatus",
        "capacity about every power of two",
        32 * 2001,
        capacity_edges,
    ),
    Part::new(
        "MosfetStatus",
        "capacity halfway between two f32, and beside it",
        300_000,
        capacity_halves,
    ),
    Part::new("MosfetStatus", "drawn capacity", 4_000_000, drawn_capacity),
    Part::new(
        "MosfetStatus",
        "unknown mode (listed difference: the Rust panics, ours answers 5)",
        253 * 20,
        unknown_mode,
    ),
];

/// A decoder of one-frame replies, with all that the two sides say about a reply.
trait Reading {
    const COMMAND: u8;
    type Said: Told;

    fn rust(reply: &[u8]) -> Self::Said;
    fn ours(port: &mut Port, reply: &[u8]) -> Self::Said;
}

impl<R: Reading> Reads for R {
    fn command(_: &mut Random) -> u8 {
        R::COMMAND
    }

    fn compare(trial: &mut Trial, reply: &[u8], command: u8, known: Option<u8>) {
        let reply = &with_known_mode(reply, command);
        let ours = R::ours(&mut trial.port, reply);
        let rust = R::rust(reply);
        let known = known.unwrap_or(rust.number());
        trial.check((known, rust), (ours.number(), ours), || {
            frames::shown(reply, command)
        });
    }
}

/// The Rust panics on a 93 reply that is right but for its mode: such a one gets a known mode.
/// Wherever the frame is refused, any mode stays.
fn with_known_mode(reply: &[u8], command: u8) -> Vec<u8> {
    let mut reply = reply.to_vec();
    if command == MosfetStatus::COMMAND && original::frame_check(&reply, command) == 0 {
        reply[DATA] %= 3;
        frames::put_sum(&mut reply);
    }
    reply
}

/// A record, its whole counts, and the record worked out from those counts.
#[derive(Clone, Copy, Debug, PartialEq)]
struct Both<R, C> {
    record: R,
    counts: C,
    from_counts: R,
}

impl<R: Told, C: Told> Both<R, C> {
    /// The Rust has no counts: they are read from the reply.
    fn rust(record: R, read: impl FnOnce() -> C) -> Self {
        if record.number() != 0 {
            return Self::refused(record.number());
        }
        Self {
            record,
            counts: read(),
            from_counts: record,
        }
    }

    fn ours(record: R, counts: C, work_out: impl FnOnce(C) -> R) -> Self {
        Self {
            record,
            counts,
            from_counts: work_out(counts),
        }
    }
}

impl<R: Told, C: Told> Told for Both<R, C> {
    fn number(&self) -> u8 {
        self.record.number()
    }

    fn refused(number: u8) -> Self {
        Self {
            record: R::refused(number),
            counts: C::refused(number),
            from_counts: R::refused(number),
        }
    }
}

/// The two-byte count at this place of a reply.
fn count(reply: &[u8], place: usize) -> u16 {
    u16::from_be_bytes([reply[place], reply[place + 1]])
}

struct Soc;

impl Reading for Soc {
    const COMMAND: u8 = 0x90;
    type Said = Both<SocTold, SocCountsTold>;

    fn rust(reply: &[u8]) -> Self::Said {
        Both::rust(original::soc(reply), || SocCountsTold {
            number: 0,
            total_voltage: count(reply, 4),
            current: i32::from(count(reply, 8)) - 30_000,
            soc_percent: count(reply, 10),
        })
    }

    fn ours(port: &mut Port, reply: &[u8]) -> Self::Said {
        let record = port.record(daly_soc, reply);
        let counts = port.record(daly_soc_counts, reply);
        Both::ours(record, counts, |counts| SocTold {
            number: counts.number,
            total_voltage: Bits(counts.total_voltage as f32 / 10.0),
            current: Bits(counts.current as f32 / 10.0),
            soc_percent: Bits(counts.soc_percent as f32 / 10.0),
        })
    }
}

struct CellVoltageRange;

impl Reading for CellVoltageRange {
    const COMMAND: u8 = 0x91;
    type Said = Both<CellVoltageRangeTold, CellVoltageRangeCountsTold>;

    fn rust(reply: &[u8]) -> Self::Said {
        Both::rust(original::cell_voltage_range(reply), || {
            CellVoltageRangeCountsTold {
                number: 0,
                highest_voltage: count(reply, 4),
                highest_cell: reply[6],
                lowest_voltage: count(reply, 7),
                lowest_cell: reply[9],
            }
        })
    }

    fn ours(port: &mut Port, reply: &[u8]) -> Self::Said {
        let record = port.record(daly_cell_voltage_range, reply);
        let counts = port.record(daly_cell_voltage_range_counts, reply);
        Both::ours(record, counts, |counts| CellVoltageRangeTold {
            number: counts.number,
            highest_voltage: Bits(counts.highest_voltage as f32 / 1000.0),
            highest_cell: counts.highest_cell,
            lowest_voltage: Bits(counts.lowest_voltage as f32 / 1000.0),
            lowest_cell: counts.lowest_cell,
        })
    }
}

struct TemperatureRange;

impl Reading for TemperatureRange {
    const COMMAND: u8 = 0x92;
    type Said = TemperatureRangeTold;

    fn rust(reply: &[u8]) -> Self::Said {
        original::temperature_range(reply)
    }

    fn ours(port: &mut Port, reply: &[u8]) -> Self::Said {
        port.record(daly_temperature_range, reply)
    }
}

struct MosfetStatus;

impl Reading for MosfetStatus {
    const COMMAND: u8 = 0x93;
    type Said = Both<MosfetStatusTold, MosfetStatusCountsTold>;

    fn rust(reply: &[u8]) -> Self::Said {
        Both::rust(original::mosfet_status(reply), || MosfetStatusCountsTold {
            number: 0,
            mode: reply[4],
            charging_mosfet: (reply[5] != 0).into(),
            discharging_mosfet: (reply[6] != 0).into(),
            bms_cycles: reply[7],
            capacity_ah: (u32::from(count(reply, 8)) << 16) | u32::from(count(reply, 10)),
        })
    }

    fn ours(port: &mut Port, reply: &[u8]) -> Self::Said {
        let record = port.record(daly_mosfet_status, reply);
        let counts = port.record(daly_mosfet_status_counts, reply);
        Both::ours(record, counts, |counts| MosfetStatusTold {
            number: counts.number,
            mode: counts.mode,
            charging_mosfet: counts.charging_mosfet,
            discharging_mosfet: counts.discharging_mosfet,
            bms_cycles: counts.bms_cycles,
            capacity_ah: Bits(counts.capacity_ah as f32 / 1000.0),
        })
    }
}

struct Status;

impl Reading for Status {
    const COMMAND: u8 = 0x94;
    type Said = StatusTold;

    fn rust(reply: &[u8]) -> Self::Said {
        original::status(reply)
    }

    fn ours(port: &mut Port, reply: &[u8]) -> Self::Said {
        port.record(daly_status, reply)
    }
}

/// A right 93 reply with this mode and this capacity.
fn mosfet_reply(random: &mut Random, mode: u8, capacity: u32) -> Vec<u8> {
    let mut data = [mode; 8];
    random.fill(&mut data[1..4]);
    data[4..].copy_from_slice(&capacity.to_be_bytes());
    frames::frame(random, MosfetStatus::COMMAND, &data)
}

fn compare_capacity(trial: &mut Trial, capacity: u32) {
    let mode = trial.random.below(3) as u8;
    let reply = mosfet_reply(&mut trial.random, mode, capacity);
    MosfetStatus::compare(trial, &reply, MosfetStatus::COMMAND, Some(0));
}

fn capacity_edges(trial: &mut Trial) {
    for exponent in 0..32 {
        for offset in (0..=2000).step_by(trial.stride()) {
            let lowest = (1_u32 << exponent).wrapping_sub(1000);
            compare_capacity(trial, lowest.wrapping_add(offset));
        }
    }
}

/// An f32 keeps 24 bits: a count of more has up to 8 behind them. Every fourth case carries to the
/// next power of two.
fn capacity_halves(trial: &mut Trial) {
    for _ in 0..trial.rounds(12_500) {
        for behind in 1..=8 {
            let drawn = (trial.random.word() >> 8) | (1 << 23);
            let kept = if drawn & 6 == 0 { 0xFF_FFFF } else { drawn };
            let half = (kept << behind) | (1 << (behind - 1));
            for capacity in half - 1..=half + 1 {
                compare_capacity(trial, capacity);
            }
        }
    }
}

/// Of 32 bits, and of any number of bits.
fn drawn_capacity(trial: &mut Trial) {
    for _ in 0..trial.rounds(2_000_000) {
        let capacity = trial.random.word();
        compare_capacity(trial, capacity);
        let fewer = trial.random.below(32);
        compare_capacity(trial, capacity >> fewer);
    }
}

fn unknown_mode(trial: &mut Trial) {
    for mode in 3..=255 {
        for _ in 0..trial.rounds(20) {
            let capacity = trial.random.word();
            let reply = mosfet_reply(&mut trial.random, mode, capacity);
            let ours = MosfetStatus::ours(&mut trial.port, &reply);
            let rust = original::quiet(|| original::mosfet_status(&reply));
            trial.check((None, Both::refused(5)), (rust, ours), || {
                frames::shown(&reply, MosfetStatus::COMMAND)
            });
        }
    }
}
