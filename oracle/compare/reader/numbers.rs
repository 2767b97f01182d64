//! Document 01's numbers to check of the reader, written down by hand and held against both sides.

use super::kinds::way;
use super::sides::Sides;
use super::streams::Asked;
use super::told::{Counts, Discarded};
use crate::told::Flag;
use crate::trial::{Part, Trial};
use dalybms_lib::protocol::exposed;

pub const PARTS: &[Part] = &[
    Part::new(
        "P11",
        "frames 1, 2, 1, 2, 3 of 3, in every size of chunks",
        65 * 2,
        begun_again,
    ),
    Part::new("P12", "512 zero bytes, then the frame", 525 * 2, |trial| {
        zeros(trial, 512, 0)
    }),
    Part::new("P13", "513 zero bytes, then the frame", 526 * 2, |trial| {
        zeros(trial, 513, 2)
    }),
    Part::new("readreply", "the stream of the example", 15 * 2, example),
];

/// Frames 1, 2 and 3 of a 95 reply: 3.3 volts and a little, three cells in each.
pub const FRAMES: [[u8; 13]; 3] = [
    [
        0xA5, 0x01, 0x95, 0x08, 0x01, 0x0C, 0xE4, 0x0C, 0xE5, 0x0C, 0xE6, 0x00, 0x17,
    ],
    [
        0xA5, 0x01, 0x95, 0x08, 0x02, 0x0C, 0xE7, 0x0C, 0xE8, 0x0C, 0xE9, 0x00, 0x21,
    ],
    [
        0xA5, 0x01, 0x95, 0x08, 0x03, 0x0C, 0xEA, 0x0C, 0xEB, 0x0C, 0xEC, 0x00, 0x2B,
    ],
];

/// The frame of the example, a 90 reply.
pub const SOC: [u8; 13] = [
    0xA5, 0x01, 0x90, 0x08, 0x02, 0x0B, 0x00, 0x00, 0x74, 0xB7, 0x03, 0x6A, 0xE3,
];

/// What is known of a reader after a stream.
struct Known<'a> {
    status: u8,
    counts: Counts,
    frames: &'a [u8],
}

/// The stream in chunks of every size, each to a reader of its own. What the Rust shows of itself is
/// held to the same numbers.
fn check(trial: &mut Trial, asked: Asked, stream: &[u8], known: &Known) {
    for size in 1..=stream.len() {
        let Some(mut sides) = Sides::new(trial, asked) else {
            return;
        };
        for chunk in stream.chunks(size) {
            let way = way(&mut trial.random);
            if !sides.push(trial, way, chunk) {
                return;
            }
        }
        let ours = (sides.said.status, sides.ours.counts, sides.ours.collected());
        trial.check((known.status, known.counts, known.frames), ours, || {
            format!("chunks of {size}")
        });
        let rust = exposed::reader_fields(&sides.rust);
        let discarded = known.counts.discarded.all() as usize;
        trial.check(
            (true, discarded, known.frames, &[][..]),
            (
                sides.rust.is_complete(),
                rust.discarded,
                rust.frames,
                rust.pending,
            ),
            || format!("the Rust, chunks of {size}"),
        );
    }
}

fn begun_again(trial: &mut Trial) {
    let [one, two, three] = FRAMES;
    let asked = Asked {
        command: 0x95,
        size: 39,
        wanted: 3,
    };
    let counts = Counts {
        command: 0x95,
        mark: Flag(0),
        strict: Flag(0),
        taken: 65,
        discarded: Discarded::NONE,
        cleared: 2,
        wanted: 3,
        collected: 3,
        held: 0,
    };
    let known = Known {
        status: 0,
        counts,
        frames: &[one, two, three].concat(),
    };
    let stream = [one, two, one, two, three].concat();
    check(trial, asked, &stream, &known);
}

pub const ONE_FRAME: Asked = Asked {
    command: 0x90,
    size: 13,
    wanted: 1,
};

fn zeros(trial: &mut Trial, count: usize, status: u8) {
    let counts = Counts {
        command: 0x90,
        mark: Flag(if status == 2 { 1 } else { 0 }),
        strict: Flag(0),
        taken: count as u32 + 13,
        discarded: Discarded {
            noise: count as u32,
            ..Discarded::NONE
        },
        cleared: 0,
        wanted: 1,
        collected: 1,
        held: 0,
    };
    let known = Known {
        status,
        counts,
        frames: &SOC,
    };
    let stream = [vec![0; count], SOC.to_vec()].concat();
    check(trial, ONE_FRAME, &stream, &known);
}

/// `taken 15 held 0 frames 1 discarded 2 cleared 0 noise 1 sum 1 command 0 number 0 echo 0`.
fn example(trial: &mut Trial) {
    let counts = Counts {
        command: 0x90,
        mark: Flag(0),
        strict: Flag(0),
        taken: 15,
        discarded: Discarded {
            noise: 1,
            sum: 1,
            ..Discarded::NONE
        },
        cleared: 0,
        wanted: 1,
        collected: 1,
        held: 0,
    };
    let known = Known {
        status: 0,
        counts,
        frames: &SOC,
    };
    let stream = [&[0x00, 0xA5][..], &SOC].concat();
    check(trial, ONE_FRAME, &stream, &known);
}
