//! The questions of the list: short and long, right and damaged, with every refusal that the Rust has.

use crate::frames::{self, FRAME, LONGEST};
use crate::random::Random;
use crate::rust::{DECODE, READER, REQUEST};
use crate::streams::{self, Asked, Make};

type Questions = Vec<Vec<u8>>;

const CHUNKS: [usize; 5] = [1, 5, 13, 64, 1000];
/// Replies of one frame that are records, and those that are only checked.
const RECORDS: [u8; 5] = [0x90, 0x91, 0x92, 0x93, 0x94];
const CHECKED: [u8; 4] = [0xD9, 0xDA, 0x21, 0x00];

const KINDS: [Make; 11] = [
    streams::clean,
    streams::noisy,
    streams::all_starts,
    streams::inside_thrown,
    streams::echoes,
    streams::other_commands,
    streams::other_numbers,
    streams::restarts,
    streams::damaged,
    streams::drawn,
    streams::mixed,
];

pub fn all(random: &mut Random) -> Vec<(&'static str, Questions)> {
    vec![
        ("requests", requests()),
        ("SetSoc", set_soc(random)),
        ("records", records(random)),
        ("replies that are only checked", checked(random)),
        ("CellVoltages", numbered(random, 0x95, 3, 255)),
        // of 255 sensors the Rust gives 259 values, a listed difference
        ("CellTemperatures", numbered(random, 0x96, 7, 254)),
        ("CellBalanceState", balance(random)),
        ("ErrorCode", faults(random)),
        ("readers", readers(random)),
        ("readers that discard about 512 bytes", over(random)),
        ("readers of 85 frames", longest(random)),
    ]
}

fn requests() -> Questions {
    let reading = (0x90..=0x98)
        .chain([0x00])
        .map(|command| vec![REQUEST, command]);
    let switches = [0xD9, 0xDA].into_iter();
    let switches = switches.flat_map(|command| [0, 1].map(|flag| vec![REQUEST, command, flag]));
    reading.chain(switches).collect()
}

fn percent(bits: u32) -> Vec<u8> {
    [&[REQUEST, 0x21], bits.to_be_bytes().as_slice()].concat()
}

/// Document 01's P2 to P5, the edges of f32, halves and their neighbours, and drawn values.
fn set_soc(random: &mut Random) -> Questions {
    let named = [0.25_f32, 50.5, -0.04, 0.0, -0.0, 99.95, 100.0, 100.05];
    let edges = [
        f32::MIN_POSITIVE,
        f32::MAX,
        f32::MIN,
        f32::INFINITY,
        f32::NEG_INFINITY,
        f32::NAN,
    ];
    let mut patterns: Vec<u32> = named.iter().chain(&edges).map(|x| x.to_bits()).collect();
    patterns.extend([
        0x3D4C_CCCC,
        0x3D4C_CCCD,
        0xFFC0_0000,
        0x7F80_0001,
        0xFFFF_FFFF,
        1,
    ]);
    for _ in 0..60 {
        let half = (random.below(1010) as f32 + 0.5) / 10.0;
        patterns.extend((0..3).map(|offset| half.to_bits() - 1 + offset));
    }
    patterns.extend((0..100).map(|_| (random.below(160_000) as f32 / 1000.0 - 10.0).to_bits()));
    patterns.extend((0..100).map(|_| random.word()));
    patterns.into_iter().map(percent).collect()
}

fn decode(command: u8, count: u8, reply: &[u8]) -> Vec<u8> {
    [&[DECODE, command, count], reply].concat()
}

/// A right frame; its first data byte is small now and then, since a mode is.
fn right(random: &mut Random, command: u8) -> Vec<u8> {
    let first = random.byte() % [3, 3, 255][random.below(3)];
    frames::frame(random, command, &[first])
}

/// Of one command: right frames, then anything.
fn one_frame(random: &mut Random, command: u8, rights: usize, others: usize) -> Questions {
    let mut questions = Questions::new();
    for _ in 0..rights {
        questions.push(decode(command, 0, &right(random, command)));
    }
    for _ in 0..others {
        let mut reply = frames::any_reply(random, command);
        reply.truncate(60);
        questions.push(decode(command, random.byte(), &reply));
    }
    questions
}

fn records(random: &mut Random) -> Questions {
    let of = |command| one_frame(random, command, 90, 70);
    RECORDS.into_iter().flat_map(of).collect()
}

fn checked(random: &mut Random) -> Questions {
    let of = |command| one_frame(random, command, 6, 40);
    CHECKED.into_iter().flat_map(of).collect()
}

/// One fault in a reply: a byte, a number, a command or a start of one frame, or its length.
fn damage(random: &mut Random, reply: &mut Vec<u8>) {
    let frame = random.below(reply.len() / FRAME) * FRAME;
    match random.below(5) {
        0 => reply[frame + random.below(FRAME)] ^= random.change(),
        1 => reply.truncate(random.below(reply.len())),
        2 => reply.extend([0; 5]),
        place => {
            reply[frame + [4, 2][place - 3]] ^= random.change();
            frames::put_sum(&mut reply[frame..frame + FRAME]);
        }
    }
}

/// Every count: a right reply, or for most of the larger counts one that is too short; and damaged ones.
fn numbered(random: &mut Random, command: u8, per: usize, most: usize) -> Questions {
    let mut questions = Questions::new();
    for count in 0..=most {
        let needed = count.div_ceil(per);
        let frames = match count {
            61..=249 if count % 5 > 0 => random.below(needed.min(4)),
            _ => needed,
        };
        let reply = frames::numbered(random, command, frames);
        questions.push(decode(command, count as u8, &reply));
    }
    for _ in 0..260 {
        let count = 1 + random.below(16);
        let mut reply = frames::numbered(random, command, count.div_ceil(per));
        damage(random, &mut reply);
        questions.push(decode(command, count as u8, &reply));
    }
    questions
}

fn balance(random: &mut Random) -> Questions {
    let of = |count| decode(0x97, count, &frames::frame(random, 0x97, &[]));
    let mut questions: Questions = (0..=255).map(of).collect();
    questions.extend(one_frame(random, 0x97, 0, 100));
    questions
}

/// Every bit of the data alone, then drawn ones.
fn faults(random: &mut Random) -> Questions {
    let mut questions = Questions::new();
    for bit in 0..64 {
        let data = (1_u64 << bit).to_le_bytes();
        questions.push(decode(0x98, 0, &frames::frame(random, 0x98, &data)));
    }
    questions.extend(one_frame(random, 0x98, 100, 100));
    questions
}

fn read(asked: Asked, chunk: usize, stream: &[u8]) -> Vec<u8> {
    let [size_high, size_low] = (asked.size as u16).to_be_bytes();
    let [chunk_high, chunk_low] = (chunk as u16).to_be_bytes();
    let front = [
        READER,
        asked.command,
        size_high,
        size_low,
        chunk_high,
        chunk_low,
    ];
    [&front, stream].concat()
}

/// Every kind of stream in chunks of every size, for a few frames.
fn readers(random: &mut Random) -> Questions {
    let mut questions = Questions::new();
    for make in KINDS {
        for turn in 0..120 {
            let wanted = [0, 1, 1, 2, 3, 4, 6][random.below(7)];
            let asked = Asked::drawn(random, wanted);
            let mut stream = make(random, asked);
            stream.truncate(400);
            questions.push(read(asked, CHUNKS[turn % CHUNKS.len()], &stream));
        }
    }
    questions
}

/// 510 to 514 discarded bytes, then the frames, or not.
fn over(random: &mut Random) -> Questions {
    let mut questions = Questions::new();
    for discarded in 510..=514 {
        for chunk in CHUNKS {
            let wanted = 1 + random.below(3);
            let asked = Asked::drawn(random, wanted);
            let mut stream = vec![0; discarded];
            if random.below(4) > 0 {
                stream.extend(streams::clean(random, asked));
            }
            questions.push(read(asked, chunk, &stream));
        }
    }
    questions
}

/// The longest replies, clean and mixed, and sizes that are no multiple of 13.
fn longest(random: &mut Random) -> Questions {
    let mut questions = Questions::new();
    for chunk in CHUNKS {
        for make in [streams::clean, streams::noisy] {
            let mut asked = Asked::drawn(random, 85);
            asked.size = LONGEST - random.below(FRAME);
            let mut stream = make(random, asked);
            stream.truncate(1500);
            questions.push(read(asked, chunk, &stream));
        }
    }
    questions
}
