//! Inputs of some MiB.

use crate::inputs::*;
use crate::part::{Case, Part};
use crate::process::Way;
use reference::frames::START;
use reference::random::Random;
use reference::reader::streams;

const MIB: usize = 1 << 20;

pub const PARTS: &[Part] = &[Part::new("inputs of 1 to 4 MiB", 2 * 9, long)];

/// Fills so many bytes with what is made anew each time.
fn filled(length: usize, mut make: impl FnMut() -> Vec<u8>) -> Vec<u8> {
    let mut bytes = Vec::new();
    while bytes.len() < length {
        bytes.extend(make());
    }
    bytes
}

/// Noise, starts, zeros, drawn bytes, other commands, the same two of three frames over and over, a
/// reply behind noise, and noise or replies behind a reply.
fn long(random: &mut Random) -> Vec<Case> {
    let of_three = asked(0x95, 9);
    let reply = reply(random, 0x95, 9);
    let noisy = noise(random, 4 * MIB);
    let inputs = [
        input(0x90, 0, &noisy),
        input(0x96, 255, &vec![START; 4 * MIB]),
        input(0x98, 0, &vec![0; 4 * MIB]),
        input(0x95, 255, &random.bytes(2 * MIB)),
        input(
            0x95,
            9,
            &filled(MIB, || streams::other_command(random, of_three, 1)),
        ),
        input(
            0x95,
            9,
            &filled(MIB, || streams::run(random, of_three, 1, 2)),
        ),
        input(0x95, 9, &[&noisy[..], &reply].concat()),
        input(0x95, 9, &[&reply[..], &noisy].concat()),
        input(0x95, 9, &reply.repeat(MIB / reply.len())),
    ];
    let twice = inputs.into_iter().flat_map(|input| {
        let size = 1 + random.below(100_000);
        let pieces = vec![size; input.len() / size];
        let by_pipe = Case {
            input: input.clone(),
            way: Way::Pieces(pieces),
        };
        let way = Way::File;
        [Case { input, way }, by_pipe]
    });
    twice.collect()
}
