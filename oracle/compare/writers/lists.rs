//! The replies of numbered frames, 95 and 96.

use super::port::*;
use super::{compare, in_every_room, model, of_writer, Lent, Writer, LIST};
use crate::frames::FRAME;
use crate::original;
use crate::random::Random;
use crate::told::{Bits, ListTold};
use crate::trial::{Part, Trial};

pub fn parts() -> Vec<Part> {
    [
        &of_writer::<CellVoltages>("write_cell_voltages", LIST)[..],
        &of_writer::<CellTemperatures>("write_cell_temperatures", LIST),
        OTHERS,
    ]
    .concat()
}

const OTHERS: &[Part] = &[
    Part::new(
        "write_cell_voltages",
        "every length to 300, in every room",
        301 * 8,
        lengths::<CellVoltages>,
    ),
    Part::new(
        "write_cell_voltages",
        "every count in every place of a frame",
        2 * 772,
        every_count,
    ),
    Part::new(
        "write_cell_temperatures",
        "every length to 300, in every room",
        301 * 8,
        lengths::<CellTemperatures>,
    ),
    Part::new(
        "write_cell_temperatures",
        "an edge in every place of every length",
        20_000,
        every_place,
    ),
    Part::new(
        "write_cell_temperatures",
        "every edge in every place, about whole frames and 255, in every room",
        1_110 * 13 * 8,
        every_edge,
    ),
    Part::new(
        "write_cell_temperatures",
        "255 sensors (listed difference: the Rust gives 259 values, these and four of -40)",
        3_000,
        wrapped,
    ),
];

/// More than any reply can have, among others.
const LONGEST_LIST: usize = 300;
/// About whole frames of three and of seven, and about the most.
const EDGE_LENGTHS: [usize; 12] = [1, 2, 3, 4, 6, 7, 8, 14, 254, 255, 256, 300];
/// What a byte can just say, what it just cannot, and what an i32 cannot add 40 to.
const EDGES: [i32; 13] = [
    -40,
    215,
    0,
    -39,
    214,
    -41,
    216,
    -296,
    -297,
    471,
    472,
    i32::MIN,
    i32::MAX,
];

/// Short ones most often, and those about the most.
fn length(random: &mut Random, accepted: bool) -> usize {
    let length = match random.below(16) {
        0 => EDGE_LENGTHS[random.below(12)],
        1 => random.below(LONGEST_LIST + 1),
        2 => 250 + random.below(9),
        3..6 => random.below(50),
        _ => random.below(17),
    };
    if accepted {
        length.min(255)
    } else {
        length
    }
}

/// A writer of lists.
trait Lists: Writer {
    /// Values that are accepted.
    fn values(random: &mut Random, length: usize) -> Self::Input;
}

fn lengths<W: Lists>(trial: &mut Trial) {
    for length in 0..=LONGEST_LIST {
        let input = W::values(&mut trial.random, length);
        let address = trial.random.byte();
        in_every_room::<W>(trial, &input, address);
    }
}

/// Where there is a reply, the Rust says how long it is; else the bytes for so many values.
fn size(length: usize, which: usize, per: usize) -> usize {
    match u8::try_from(length) {
        Ok(n) => original::reply_sizes(n)[which],
        Err(_) => FRAME * length.div_ceil(per),
    }
}

/// The count of values as the Rust's decoders take it.
fn told_of<T>(values: &[T]) -> u8 {
    u8::try_from(values.len()).expect("a list that is accepted")
}

pub struct CellVoltages;

impl Writer for CellVoltages {
    const COMMAND: u8 = 0x95;
    const DRAWN: u64 = LIST;
    type Input = Vec<u16>;
    type Read = Result<Vec<Bits>, u8>;

    fn drawn(random: &mut Random, accepted: bool) -> Vec<u16> {
        let length = length(random, accepted);
        Self::values(random, length)
    }

    unsafe fn ask(address: u8, input: &Vec<u16>, out: *mut u8, room: usize) -> ListTold {
        // SAFETY: the caller's; the cells are a live slice.
        unsafe { daly_write_cell_voltages(address, input.as_ptr(), input.len(), out, room) }
    }

    fn model(address: u8, input: &Vec<u16>) -> Result<Vec<u8>, u8> {
        model::cell_voltages(address, input)
    }

    fn read(reply: &[u8], input: &Vec<u16>) -> Self::Read {
        let read = original::cell_voltages(reply, told_of(input));
        let number = original::number(&read);
        read.map_err(|_| number)
    }

    fn meant(input: &Vec<u16>) -> Self::Read {
        Ok(input
            .iter()
            .map(|count| Bits(f32::from(*count) / 1000.0))
            .collect())
    }

    fn size(input: &Vec<u16>) -> usize {
        size(input.len(), 0, 3)
    }
}

impl Lists for CellVoltages {
    fn values(random: &mut Random, length: usize) -> Vec<u16> {
        (0..length).map(|_| random.word() as u16).collect()
    }
}

/// 85 frames at a time.
fn every_count(trial: &mut Trial) {
    for first in (0..1 << 16).step_by(85 * trial.stride()) {
        let input: Vec<u16> = (first..first + 85)
            .flat_map(|count: u32| [count, !count, count ^ 0x5555])
            .map(|count| count as u16)
            .collect();
        let (address, room) = (trial.random.byte(), CellVoltages::size(&input));
        compare::<CellVoltages>(trial, &input, Lent { address, room });
    }
}

pub struct CellTemperatures;

impl Writer for CellTemperatures {
    const COMMAND: u8 = 0x96;
    const DRAWN: u64 = LIST;
    type Input = Vec<i32>;
    type Read = Result<Vec<i32>, u8>;

    /// Where any will do, one in four has an edge in it.
    fn drawn(random: &mut Random, accepted: bool) -> Vec<i32> {
        let length = length(random, accepted);
        let mut degrees = Self::values(random, length);
        if length > 0 && !accepted && random.below(4) == 0 {
            degrees[random.below(length)] = EDGES[random.below(EDGES.len())];
        }
        degrees
    }

    unsafe fn ask(address: u8, input: &Vec<i32>, out: *mut u8, room: usize) -> ListTold {
        // SAFETY: the caller's; the degrees are a live slice.
        unsafe { daly_write_cell_temperatures(address, input.as_ptr(), input.len(), out, room) }
    }

    fn model(address: u8, input: &Vec<i32>) -> Result<Vec<u8>, u8> {
        model::cell_temperatures(address, input)
    }

    fn read(reply: &[u8], input: &Vec<i32>) -> Self::Read {
        let read = original::cell_temperatures(reply, told_of(input));
        let number = original::number(&read);
        read.map_err(|_| number)
    }

    /// The Rust reads all places of the last frame where there are 255: the unused ones are 0.
    fn meant(input: &Vec<i32>) -> Self::Read {
        let mut degrees = input.clone();
        if degrees.len() == 255 {
            degrees.extend([-40; 4]);
        }
        Ok(degrees)
    }

    fn size(input: &Vec<i32>) -> usize {
        size(input.len(), 1, 7)
    }
}

impl Lists for CellTemperatures {
    fn values(random: &mut Random, length: usize) -> Vec<i32> {
        (0..length).map(|_| i32::from(random.byte()) - 40).collect()
    }
}

/// Over 255 sensors, that there are so many is judged before what they say.
fn every_place(trial: &mut Trial) {
    for length in (1..=LONGEST_LIST).step_by(trial.stride()) {
        let mut degrees = CellTemperatures::values(&mut trial.random, length);
        for place in 0..length {
            let right = degrees[place];
            degrees[place] = EDGES[trial.random.below(EDGES.len())];
            let (address, size) = (trial.random.byte(), CellTemperatures::size(&degrees));
            let room = [0, size, size + 1][trial.random.below(3)];
            compare::<CellTemperatures>(trial, &degrees, Lent { address, room });
            degrees[place] = right;
        }
    }
}

fn every_edge(trial: &mut Trial) {
    for length in EDGE_LENGTHS {
        let mut degrees = CellTemperatures::values(&mut trial.random, length);
        for place in (0..length).step_by(trial.stride()) {
            let right = degrees[place];
            for edge in EDGES {
                degrees[place] = edge;
                let address = trial.random.byte();
                in_every_room::<CellTemperatures>(trial, &degrees, address);
            }
            degrees[place] = right;
        }
    }
}

fn wrapped(trial: &mut Trial) {
    for _ in 0..trial.rounds(1_000) {
        let degrees = CellTemperatures::values(&mut trial.random, 255);
        let (address, room) = (trial.random.byte(), CellTemperatures::size(&degrees));
        compare::<CellTemperatures>(trial, &degrees, Lent { address, room });
        let written = model::cell_temperatures(address, &degrees).unwrap_or_default();
        let rust = CellTemperatures::read(&written, &degrees);
        let found = rust.map(|values| (values.len(), values[255..].to_vec()));
        trial.check(Ok((259, vec![-40; 4])), found, || format!("{written:02X?}"));
    }
}
