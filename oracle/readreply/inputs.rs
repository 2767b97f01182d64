//! Inputs of the program, for every part that needs some.

use reference::frames::{self, DATA, FRAME};
use reference::random::Random;
use reference::reader::streams::Asked;
use reference::{original, reply_size};

pub const COMMANDS: std::ops::RangeInclusive<u8> = 0x90..=0x98;
/// The two whose replies are numbered.
pub const NUMBERED: [u8; 2] = [0x95, 0x96];
pub const MOST_VALUES: u8 = 255;

/// Document 01's example.
pub const EXAMPLE: [u8; 17] = [
    0x90, 0x00, 0x00, 0xA5, 0xA5, 0x01, 0x90, 0x08, 0x02, 0x0B, 0x00, 0x00, 0x74, 0xB7, 0x03, 0x6A,
    0xE3,
];
/// What it prints, whole, with document 02's five counts.
pub const EXAMPLE_TEXT: &str = "\
reply 90 taken 15 held 0 frames 1 discarded 2 cleared 0 noise 1 sum 1 command 0 number 0 echo 0
total_voltage 523
current -121
soc_percent 874
";

/// What the reader of this command and count is made for.
pub fn asked(command: u8, count: u8) -> Asked {
    let size = reply_size(command, count);
    Asked {
        command,
        size,
        wanted: size.div_ceil(FRAME),
    }
}

/// Any command, half of the time a numbered one, and any count, most often a small one.
pub fn drawn(random: &mut Random) -> (u8, u8) {
    let command = match random.below(2) {
        0 => NUMBERED[random.below(2)],
        _ => 0x90 + random.below(9) as u8,
    };
    let most = [4, 9, 25, 49, 256][random.below(5)];
    (command, random.below(most) as u8)
}

pub fn input(command: u8, count: u8, stream: &[u8]) -> Vec<u8> {
    [&[command, count], stream].concat()
}

/// A reply that is refused by nobody.
pub fn reply(random: &mut Random, command: u8, count: u8) -> Vec<u8> {
    match command {
        0x93 => {
            let mode = random.below(3) as u8;
            frames::frame(random, command, &[mode])
        }
        0x95 | 0x96 => frames::numbered(random, command, asked(command, count).wanted),
        _ => frames::frame(random, command, &[]),
    }
}

/// A right frame of this command with a byte set in each of these places.
pub fn with_bytes(random: &mut Random, command: u8, bytes: &[(usize, u8)]) -> Vec<u8> {
    let mut frame = reply(random, command, 1);
    for (place, byte) in bytes {
        frame[*place] = *byte;
    }
    frames::put_sum(&mut frame);
    frame
}

/// The same, with all data 0 but for these.
pub fn only_bytes(random: &mut Random, command: u8, bytes: &[(usize, u8)]) -> Vec<u8> {
    let zeros = (DATA..FRAME - 1).map(|place| (place, 0));
    let all: Vec<_> = zeros.chain(bytes.iter().copied()).collect();
    with_bytes(random, command, &all)
}

/// Our own question: address 40.
pub fn question(command: u8) -> Vec<u8> {
    original::request(command, false, 0.0, 0)[1..].to_vec()
}

/// Bytes that begin no frame.
pub fn noise(random: &mut Random, count: usize) -> Vec<u8> {
    reference::reader::discards::before_start(random, asked(0x90, 0), count)
}
