//! The lists whose replies are numbered frames: voltages, whole millivolts and temperatures.

use crate::frames::{self, DATA, FRAME, LONGEST};
use crate::lists::{self, compare, enough, Case, List};
use crate::original::{self, Listed};
use crate::port::*;
use crate::random::Random;
use crate::told::Bits;
use crate::trial::{Part, Trial};

pub fn parts() -> Vec<Part> {
    [
        &of_list::<CellVoltages>("CellVoltages")[..],
        &of_list::<CellMillivolts>("CellVoltages in millivolts"),
        &of_list::<CellTemperatures>("CellTemperatures"),
        OTHERS,
    ]
    .concat()
}

const fn of_list<L: List>(of: &'static str) -> [Part; 8] {
    let frames = all_frames::<L>();
    [
        Part::new(of, "right replies of every count", 10_000, right::<L>),
        Part::new(
            of,
            "0 to 1,131 bytes, every count about each length",
            20_000,
            lengths::<L>,
        ),
        Part::new(
            of,
            "every byte damaged",
            frames * FRAME as u64,
            damaged::<L>,
        ),
        Part::new(
            of,
            "wrong frame numbers, frames exchanged",
            6 * frames,
            numbers::<L>,
        ),
        Part::new(
            of,
            "wrong start byte or command in every frame",
            6 * frames,
            headers::<L>,
        ),
        Part::new(of, "several faults at once", 256 * 400, several::<L>),
        Part::new(of, "drawn replies", 100_000, drawn::<L>),
        lists::room_part::<L>(of),
    ]
}

/// The frames of one reply for each count, added up.
const fn all_frames<L: List>() -> u64 {
    let per = match L::PER {
        Some(per) => per as u64,
        None => 255,
    };
    let (mut n, mut frames) = (1_u64, 0);
    while n <= 255 {
        frames += n.div_ceil(per);
        n += 1;
    }
    frames
}

const OTHERS: &[Part] = &[
    Part::new(
        "CellVoltages",
        "every count of millivolts in every place of a frame",
        2 * 772,
        every_count,
    ),
    Part::new(
        "CellTemperatures",
        "count 255 (listed difference: the Rust gives 259 values, ours are the first 255)",
        2_000,
        wrapped,
    ),
    Part::new(
        "reply sizes",
        "every count of cells and sensors",
        512,
        sizes,
    ),
];

struct CellVoltages;

impl List for CellVoltages {
    const COMMAND: u8 = 0x95;
    const PER: Option<usize> = Some(3);
    type Place = Bits;
    const ASK: AskList<Bits> = daly_cell_voltages;

    fn rust(reply: &[u8], n: u8) -> Listed<Bits> {
        original::cell_voltages(reply, n)
    }
}

struct CellMillivolts;

impl List for CellMillivolts {
    const COMMAND: u8 = CellVoltages::COMMAND;
    const PER: Option<usize> = CellVoltages::PER;
    type Place = u16;
    const ASK: AskList<u16> = daly_cell_millivolts;

    /// The Rust has no counts: they are read from the reply, and its voltages must be theirs.
    fn rust(reply: &[u8], n: u8) -> Listed<u16> {
        let voltages = CellVoltages::rust(reply, n)?;
        let counts: Vec<u16> = (0..voltages.len())
            .map(|cell| FRAME * (cell / 3) + 5 + 2 * (cell % 3))
            .map(|place| u16::from_be_bytes([reply[place], reply[place + 1]]))
            .collect();
        let worked_out = counts.iter().map(|count| Bits(*count as f32 / 1000.0));
        assert!(worked_out.eq(voltages), "the Rust reads other counts");
        Ok(counts)
    }
}

struct CellTemperatures;

impl List for CellTemperatures {
    const COMMAND: u8 = 0x96;
    const PER: Option<usize> = Some(7);
    type Place = i32;
    const ASK: AskList<i32> = daly_cell_temperatures;

    /// Of 255, the listed difference, only the first 255.
    fn rust(reply: &[u8], n: u8) -> Listed<i32> {
        let mut temperatures = original::cell_temperatures(reply, n)?;
        if n == 255 {
            temperatures.truncate(255);
        }
        Ok(temperatures)
    }
}

/// With room enough.
fn compare_known<L: List>(trial: &mut Trial, reply: &[u8], n: u8, known: u8) {
    let room = enough::<L>(&mut trial.random, n);
    compare::<L>(trial, Case { reply, n, room }, Some(known));
}

fn right<L: List>(trial: &mut Trial) {
    for n in (0..=255).step_by(trial.stride()) {
        for _ in 0..trial.rounds(40) {
            let reply = L::reply(&mut trial.random, n);
            compare_known::<L>(trial, &reply, n, 0);
        }
    }
}

/// What stands behind the bytes needed is not looked at, be it right frames or mere bytes.
fn lengths<L: List>(trial: &mut Trial) {
    let sizes = (0..=255).map(|n| L::reply(&mut trial.random, n).len());
    let sizes: Vec<usize> = sizes.collect();
    let longest = LONGEST + 2 * FRAME;
    for length in (0..=longest).step_by(trial.stride()) {
        let right = frames::numbered(&mut trial.random, L::COMMAND, longest / FRAME);
        let drawn = trial.random.byte();
        let about = (0..=255).filter(|n| sizes[usize::from(*n)].abs_diff(length) <= FRAME);
        for n in about.chain([0, drawn, 255]) {
            let size = sizes[usize::from(n)];
            let known = if length < size { 1 } else { 0 };
            compare_known::<L>(trial, &right[..length], n, known);
            let mut reply = right[..length].to_vec();
            trial.random.fill(&mut reply[size.min(length)..]);
            compare_known::<L>(trial, &reply, n, known);
        }
    }
}

/// Counts for which every bit is damaged, not only every byte.
const EVERY_BIT: [u8; 12] = [1, 2, 3, 4, 7, 8, 14, 15, 48, 100, 254, 255];

fn damaged<L: List>(trial: &mut Trial) {
    for n in (1..=255).step_by(trial.stride()) {
        let mut reply = L::reply(&mut trial.random, n);
        for place in 0..reply.len() {
            let known = match place % FRAME {
                0 | 2 => 2,
                DATA => 4,
                _ => 3,
            };
            let bits = if EVERY_BIT.contains(&n) { 8 } else { 0 };
            let drawn = trial.random.change();
            for change in (0..bits).map(|bit| 1 << bit).chain([drawn]) {
                reply[place] ^= change;
                compare_known::<L>(trial, &reply, n, known);
                reply[place] ^= change;
            }
        }
    }
}

/// The reply for every count, once for each of its frames, with where that frame begins.
fn for_every_frame<L: List>(trial: &mut Trial, ask: fn(&mut Trial, Vec<u8>, usize, u8)) {
    for n in (1..=255).step_by(trial.stride()) {
        let reply = L::reply(&mut trial.random, n);
        for start in (0..reply.len()).step_by(FRAME) {
            ask(trial, reply.clone(), start, n);
        }
    }
}

/// Sums are right throughout: one number is wrong, or two frames change places.
fn numbers<L: List>(trial: &mut Trial) {
    for_every_frame::<L>(trial, |trial, mut reply, start, n| {
        let right = reply[start + DATA];
        let drawn = right ^ trial.random.change();
        for number in [0, right - 1, right + 1, right + 128, 255, drawn] {
            reply[start + DATA] = number;
            frames::put_sum(&mut reply[start..start + FRAME]);
            compare_known::<L>(trial, &reply, n, 4);
        }
        reply[start + DATA] = right;
        frames::put_sum(&mut reply[start..start + FRAME]);
        let other = FRAME * trial.random.below(reply.len() / FRAME);
        if other != start {
            (0..FRAME).for_each(|place| reply.swap(start + place, other + place));
            compare_known::<L>(trial, &reply, n, 4);
        }
    });
}

/// With a right and with a wrong sum: the header is judged first.
fn headers<L: List>(trial: &mut Trial) {
    for_every_frame::<L>(trial, |trial, reply, start, n| {
        for places in [&[0][..], &[2], &[0, 2]] {
            let mut reply = reply.clone();
            let frame = &mut reply[start..start + FRAME];
            for place in places {
                frame[*place] ^= trial.random.change();
            }
            frames::put_sum(frame);
            compare_known::<L>(trial, &reply, n, 2);
            reply[start + FRAME - 1] ^= trial.random.change();
            compare_known::<L>(trial, &reply, n, 2);
        }
    });
}

/// What can be wrong with a frame, in the order of judging: its number, its header, its sum.
const JUDGED: [u8; 3] = [4, 2, 3];

/// A choice among the three, one bit each.
type Wrong = u8;

fn is_wrong(wrong: Wrong, which: usize) -> bool {
    (wrong >> which) & 1 == 1
}

fn first_refusal(wrong: Wrong) -> Option<u8> {
    (0..3)
        .find(|which| is_wrong(wrong, *which))
        .map(|which| JUDGED[which])
}

/// Makes these wrong and no other.
fn harm(random: &mut Random, frame: &mut [u8], wrong: Wrong) {
    if is_wrong(wrong, 0) {
        frame[DATA] ^= random.change();
    }
    if is_wrong(wrong, 1) {
        frame[2 * random.below(2)] ^= random.change();
    }
    frames::put_sum(frame);
    if is_wrong(wrong, 2) {
        frame[FRAME - 1] ^= random.change();
    }
}

/// One case: two frames harmed, the reply cut or not, the buffer too short or not.
fn compare_several<L: List>(trial: &mut Trial, early: Wrong, late: Wrong, cut: bool, tight: bool) {
    let random = &mut trial.random;
    let n = 8 + random.below(248) as u8; // two frames at least
    let mut reply = L::reply(random, n);
    let second = 1 + random.below(reply.len() / FRAME - 1);
    let first = random.below(second);
    for (frame, wrong) in [(first, early), (second, late)] {
        let start = FRAME * frame;
        harm(random, &mut reply[start..start + FRAME], wrong);
    }
    if cut {
        reply.truncate(random.below(reply.len()));
    }
    let room = if tight {
        random.below(L::places(n))
    } else {
        enough::<L>(random, n)
    };
    let known = match (cut, tight) {
        (true, _) => 1,
        (_, true) => 9,
        _ => first_refusal(early).or(first_refusal(late)).unwrap_or(0),
    };
    let reply = &reply;
    compare::<L>(trial, Case { reply, n, room }, Some(known));
}

fn several<L: List>(trial: &mut Trial) {
    for choice in 0..=255 {
        for _ in 0..trial.rounds(400) {
            let (early, late) = (choice & 7, (choice >> 3) & 7);
            let (cut, tight) = (choice & 64 != 0, choice & 128 != 0);
            compare_several::<L>(trial, early, late, cut, tight);
        }
    }
}

/// A reply for about as many values, with up to two bytes changed, cut or prolonged or neither.
fn drawn<L: List>(trial: &mut Trial) {
    for _ in 0..trial.rounds(100_000) {
        let random = &mut trial.random;
        let n = random.byte();
        let more = n.saturating_add(random.below(4) as u8);
        let about = more.saturating_sub(random.below(4) as u8);
        let mut reply = L::reply(random, about);
        for _ in 0..random.below(3).min(reply.len()) {
            let place = random.below(reply.len());
            reply[place] ^= random.change();
        }
        match random.below(4) {
            0 => reply.truncate(random.below(reply.len() + 1)),
            1 => reply.extend(random.bytes(13)),
            _ => {}
        }
        let room = match random.below(3) {
            0 => usize::from(random.byte()),
            _ => enough::<L>(random, n),
        };
        let reply = &reply;
        compare::<L>(trial, Case { reply, n, room }, None);
    }
}

/// In volts and in millivolts, 85 frames at a time.
fn every_count(trial: &mut Trial) {
    for first in (0..1 << 16).step_by(85 * trial.stride()) {
        let mut reply = CellVoltages::reply(&mut trial.random, 255);
        for (frame, count) in reply.chunks_exact_mut(FRAME).zip(first..) {
            let counts = [count, !count, count ^ 0x5555].map(|count: u32| count as u16);
            for (place, count) in (5..).step_by(2).zip(counts) {
                frame[place..place + 2].copy_from_slice(&count.to_be_bytes());
            }
            frames::put_sum(frame);
        }
        compare_known::<CellVoltages>(trial, &reply, 255, 0);
        compare_known::<CellMillivolts>(trial, &reply, 255, 0);
    }
}

fn wrapped(trial: &mut Trial) {
    for _ in 0..trial.rounds(1_000) {
        let reply = CellTemperatures::reply(&mut trial.random, 255);
        compare_known::<CellTemperatures>(trial, &reply, 255, 0);
        let rust = original::cell_temperatures(&reply, 255);
        trial.check(Some(259), rust.ok().map(|values| values.len()), || {
            frames::shown(&reply, CellTemperatures::COMMAND)
        });
    }
}

fn sizes(trial: &mut Trial) {
    for n in 0..=255 {
        let known = [3, 7].map(|per| FRAME * usize::from(n).div_ceil(per));
        let ours = [
            trial.port.size(daly_cell_voltages_reply_size, n),
            trial.port.size(daly_cell_temperatures_reply_size, n),
        ];
        for which in 0..2 {
            let rust = original::reply_sizes(n)[which];
            trial.check_known(known[which], rust, ours[which], || format!("count {n}"));
        }
    }
}
