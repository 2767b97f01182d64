//! The replies of one frame that carry a record, 90 to 94.

use super::port::*;
use super::{compare, in_every_room, model, of_writer, Lent, Writer, ONE_FRAME};
use crate::frames::FRAME;
use crate::original;
use crate::random::Random;
use crate::told::*;
use crate::trial::{Part, Trial};

pub fn parts() -> Vec<Part> {
    [
        &of_writer::<Soc>("write_soc", ONE_FRAME)[..],
        &of_writer::<CellVoltageRange>("write_cell_voltage_range", ONE_FRAME),
        &of_writer::<TemperatureRange>("write_temperature_range", ONE_FRAME),
        &of_writer::<MosfetStatus>("write_mosfet_status", ONE_FRAME),
        &of_writer::<Status>("write_status", ONE_FRAME),
        OTHERS,
    ]
    .concat()
}

const OTHERS: &[Part] = &[
    Part::new(
        "write_soc",
        "every count of every field",
        2 * 3 << 16,
        every_soc,
    ),
    Part::new(
        "write_cell_voltage_range",
        "every count of every field",
        2 * 2 << 16,
        every_voltage,
    ),
    Part::new(
        "write_temperature_range",
        "every two temperatures",
        2 << 16,
        every_temperature,
    ),
    Part::new(
        "write_mosfet_status",
        "every mode with every flag, in every room",
        256 * 4 * 8,
        every_mode,
    ),
    Part::new(
        "write_mosfet_status",
        "capacity about every power of two",
        2 * 33 * 3,
        every_capacity,
    ),
    Part::new(
        "write_status",
        "every combination of flags, in every room",
        1024 * 8,
        every_state,
    ),
    Part::new(
        "write_status",
        "every count of cycles",
        2 << 16,
        every_cycle,
    ),
];

/// Often an edge.
fn count(random: &mut Random) -> u16 {
    const EDGES: [u16; 8] = [0, 1, 255, 256, 29_999, 30_000, 30_001, 65_535];
    match random.below(4) {
        0 => EDGES[random.below(8)],
        _ => random.word() as u16,
    }
}

fn flag(random: &mut Random) -> bool {
    random.below(2) == 1
}

/// Room for the reply and no more.
fn tight<W: Writer>(trial: &mut Trial, input: &W::Input) {
    let address = trial.random.byte();
    compare::<W>(
        trial,
        input,
        Lent {
            address,
            room: FRAME,
        },
    );
}

pub struct Soc;

impl Writer for Soc {
    const COMMAND: u8 = 0x90;
    const DRAWN: u64 = ONE_FRAME;
    type Input = SocWire;
    type Read = SocTold;

    fn drawn(random: &mut Random, _: bool) -> SocWire {
        SocWire {
            total_voltage: count(random),
            current: count(random),
            soc_percent: count(random),
        }
    }

    unsafe fn ask(address: u8, input: &SocWire, out: *mut u8, room: usize) -> ListTold {
        // SAFETY: the caller's.
        unsafe { daly_write_soc(address, *input, out, room) }
    }

    fn model(address: u8, input: &SocWire) -> Result<Vec<u8>, u8> {
        Ok(model::soc(address, input))
    }

    fn read(reply: &[u8], _: &SocWire) -> SocTold {
        original::soc(reply)
    }

    fn meant(input: &SocWire) -> SocTold {
        SocTold {
            number: 0,
            total_voltage: Bits(f32::from(input.total_voltage) / 10.0),
            current: Bits((i32::from(input.current) - 30_000) as f32 / 10.0),
            soc_percent: Bits(f32::from(input.soc_percent) / 10.0),
        }
    }
}

fn every_soc(trial: &mut Trial) {
    for count in (0..=u16::MAX).step_by(trial.stride()) {
        for field in 0..3 {
            let mut input = Soc::drawn(&mut trial.random, true);
            match field {
                0 => input.total_voltage = count,
                1 => input.current = count,
                _ => input.soc_percent = count,
            }
            tight::<Soc>(trial, &input);
        }
    }
}

pub struct CellVoltageRange;

impl Writer for CellVoltageRange {
    const COMMAND: u8 = 0x91;
    const DRAWN: u64 = ONE_FRAME;
    type Input = CellVoltageRangeWire;
    type Read = CellVoltageRangeTold;

    fn drawn(random: &mut Random, _: bool) -> CellVoltageRangeWire {
        CellVoltageRangeWire {
            highest_voltage: count(random),
            highest_cell: random.byte(),
            lowest_voltage: count(random),
            lowest_cell: random.byte(),
        }
    }

    unsafe fn ask(address: u8, input: &Self::Input, out: *mut u8, room: usize) -> ListTold {
        // SAFETY: the caller's.
        unsafe { daly_write_cell_voltage_range(address, *input, out, room) }
    }

    fn model(address: u8, input: &Self::Input) -> Result<Vec<u8>, u8> {
        Ok(model::cell_voltage_range(address, input))
    }

    fn read(reply: &[u8], _: &Self::Input) -> CellVoltageRangeTold {
        original::cell_voltage_range(reply)
    }

    fn meant(input: &Self::Input) -> CellVoltageRangeTold {
        CellVoltageRangeTold {
            number: 0,
            highest_voltage: Bits(f32::from(input.highest_voltage) / 1000.0),
            highest_cell: input.highest_cell,
            lowest_voltage: Bits(f32::from(input.lowest_voltage) / 1000.0),
            lowest_cell: input.lowest_cell,
        }
    }
}

/// The cells' numbers go with the counts, so that each has every value too.
fn every_voltage(trial: &mut Trial) {
    for count in (0..=u16::MAX).step_by(trial.stride()) {
        let drawn = CellVoltageRange::drawn(&mut trial.random, true);
        let highest = CellVoltageRangeWire {
            highest_voltage: count,
            lowest_cell: count as u8,
            ..drawn
        };
        let lowest = CellVoltageRangeWire {
            lowest_voltage: count,
            highest_cell: count as u8,
            ..drawn
        };
        tight::<CellVoltageRange>(trial, &highest);
        tight::<CellVoltageRange>(trial, &lowest);
    }
}

pub struct TemperatureRange;

impl Writer for TemperatureRange {
    const COMMAND: u8 = 0x92;
    const DRAWN: u64 = ONE_FRAME;
    type Input = TemperatureRangeWire;
    type Read = TemperatureRangeTold;

    fn drawn(random: &mut Random, _: bool) -> TemperatureRangeWire {
        TemperatureRangeWire {
            highest_temperature: random.byte() as i8,
            highest_sensor: random.byte(),
            lowest_temperature: random.byte() as i8,
            lowest_sensor: random.byte(),
        }
    }

    unsafe fn ask(address: u8, input: &Self::Input, out: *mut u8, room: usize) -> ListTold {
        // SAFETY: the caller's.
        unsafe { daly_write_temperature_range(address, *input, out, room) }
    }

    fn model(address: u8, input: &Self::Input) -> Result<Vec<u8>, u8> {
        Ok(model::temperature_range(address, input))
    }

    fn read(reply: &[u8], _: &Self::Input) -> TemperatureRangeTold {
        original::temperature_range(reply)
    }

    fn meant(input: &Self::Input) -> TemperatureRangeTold {
        TemperatureRangeTold {
            number: 0,
            highest_temperature: input.highest_temperature,
            highest_sensor: input.highest_sensor,
            lowest_temperature: input.lowest_temperature,
            lowest_sensor: input.lowest_sensor,
        }
    }
}

fn every_temperature(trial: &mut Trial) {
    for both in (0..=u16::MAX).step_by(trial.stride()) {
        let [highest, lowest] = both.to_le_bytes();
        let drawn = TemperatureRange::drawn(&mut trial.random, true);
        let input = TemperatureRangeWire {
            highest_temperature: highest as i8,
            lowest_temperature: lowest as i8,
            ..drawn
        };
        tight::<TemperatureRange>(trial, &input);
    }
}

pub struct MosfetStatus;

impl Writer for MosfetStatus {
    const COMMAND: u8 = 0x93;
    const DRAWN: u64 = ONE_FRAME;
    type Input = MosfetStatusWire;
    type Read = MosfetStatusTold;

    fn drawn(random: &mut Random, accepted: bool) -> MosfetStatusWire {
        let known = accepted || random.below(4) > 0;
        MosfetStatusWire {
            mode: if known {
                random.below(3) as u8
            } else {
                random.byte()
            },
            charging_mosfet: flag(random),
            discharging_mosfet: flag(random),
            bms_cycles: random.byte(),
            capacity_ah: random.word() >> random.below(32),
        }
    }

    unsafe fn ask(address: u8, input: &Self::Input, out: *mut u8, room: usize) -> ListTold {
        // SAFETY: the caller's.
        unsafe { daly_write_mosfet_status(address, *input, out, room) }
    }

    fn model(address: u8, input: &Self::Input) -> Result<Vec<u8>, u8> {
        model::mosfet_status(address, input)
    }

    fn read(reply: &[u8], _: &Self::Input) -> MosfetStatusTold {
        original::mosfet_status(reply)
    }

    fn meant(input: &Self::Input) -> MosfetStatusTold {
        MosfetStatusTold {
            number: 0,
            mode: input.mode,
            charging_mosfet: input.charging_mosfet.into(),
            discharging_mosfet: input.discharging_mosfet.into(),
            bms_cycles: input.bms_cycles,
            capacity_ah: Bits(input.capacity_ah as f32 / 1000.0),
        }
    }
}

fn every_mode(trial: &mut Trial) {
    for mode in 0..=255 {
        for flags in 0..4 {
            let drawn = MosfetStatus::drawn(&mut trial.random, true);
            let input = MosfetStatusWire {
                mode,
                charging_mosfet: flags & 1 != 0,
                discharging_mosfet: flags & 2 != 0,
                ..drawn
            };
            let address = trial.random.byte();
            in_every_room::<MosfetStatus>(trial, &input, address);
        }
    }
}

fn every_capacity(trial: &mut Trial) {
    for power in 0..=32 {
        for about in [-1, 0, 1] {
            let capacity = ((1_i64 << power) + about) as u32;
            let mut input = MosfetStatus::drawn(&mut trial.random, true);
            input.capacity_ah = capacity;
            tight::<MosfetStatus>(trial, &input);
        }
    }
}

pub struct Status;

impl Writer for Status {
    const COMMAND: u8 = 0x94;
    const DRAWN: u64 = ONE_FRAME;
    type Input = StatusWire;
    type Read = StatusTold;

    fn drawn(random: &mut Random, _: bool) -> StatusWire {
        let flags = random.word();
        StatusWire {
            cells: random.byte(),
            temperature_sensors: random.byte(),
            cycles: count(random),
            ..with_flags(flags)
        }
    }

    unsafe fn ask(address: u8, input: &StatusWire, out: *mut u8, room: usize) -> ListTold {
        // SAFETY: the caller's.
        unsafe { daly_write_status(address, *input, out, room) }
    }

    fn model(address: u8, input: &StatusWire) -> Result<Vec<u8>, u8> {
        Ok(model::status(address, input))
    }

    fn read(reply: &[u8], _: &StatusWire) -> StatusTold {
        original::status(reply)
    }

    fn meant(input: &StatusWire) -> StatusTold {
        let [di1, di2, di3, di4, do1, do2, do3, do4] = input.states.map(Flag::from);
        StatusTold {
            number: 0,
            cells: input.cells,
            temperature_sensors: input.temperature_sensors,
            charger_running: input.charger_running.into(),
            load_running: input.load_running.into(),
            di1,
            di2,
            di3,
            di4,
            do1,
            do2,
            do3,
            do4,
            cycles: input.cycles,
        }
    }
}

/// The ten flags from so many bits, all else 0.
fn with_flags(bits: u32) -> StatusWire {
    StatusWire {
        cells: 0,
        temperature_sensors: 0,
        charger_running: bits & 0x100 != 0,
        load_running: bits & 0x200 != 0,
        states: [1, 2, 4, 8, 16, 32, 64, 128].map(|bit| bits & bit != 0),
        cycles: 0,
    }
}

fn every_state(trial: &mut Trial) {
    for flags in (0..1024).step_by(trial.stride()) {
        let (address, cycles) = (trial.random.byte(), count(&mut trial.random));
        let input = StatusWire {
            cycles,
            ..with_flags(flags)
        };
        in_every_room::<Status>(trial, &input, address);
    }
}

/// Cells and sensors go with the cycles, so that each has every value too.
fn every_cycle(trial: &mut Trial) {
    for cycles in (0..=u16::MAX).step_by(trial.stride()) {
        let drawn = Status::drawn(&mut trial.random, true);
        let [cells, temperature_sensors] = cycles.to_le_bytes();
        let input = StatusWire {
            cells,
            temperature_sensors,
            cycles,
            ..drawn
        };
        tight::<Status>(trial, &input);
    }
}
