//! The stored samples: small inputs, each with what the Rust makes of it. A name begins with the command
//! and says what is shown.

use crate::inputs::{asked, input, noise, question, COMMANDS, EXAMPLE};
use crate::part::{cases, Part};
use reference::frames::{put_sum, sum, FRAME, START};
use reference::random::Random;
use std::collections::BTreeMap;
use std::{fs, io};

const PLACE: &str = "data/readreply";
/// What the program's crate has of one run: its input, by hand, and what the Rust makes of it.
const INPUT: &str = "crates/readreply/stdin";
const OUTPUT: &str = "crates/readreply/stdout";
/// So that the drawn bytes of a sample are always the same.
const SEED: u64 = 1;

pub const PARTS: &[Part] = &[Part::new("the stored samples", 100, |random| {
    let inputs = all().into_values().collect();
    cases(random, inputs)
})];

type Samples = BTreeMap<String, Vec<u8>>;

/// A frame as a board sends it.
fn frame(command: u8, data: [u8; 8]) -> Vec<u8> {
    let mut frame = vec![START, 0x01, command, 0x08];
    frame.extend(data);
    frame.push(0);
    put_sum(&mut frame);
    frame
}

/// A numbered frame whose values are told apart.
fn numbered(command: u8, number: usize) -> Vec<u8> {
    let first = 7 * number as u8;
    let mut data = [0, 12, first, 12, first + 1, 13, first + 2, first + 3];
    data[0] = number as u8;
    frame(command, data)
}

/// The frames from one number to another.
fn run(command: u8, first: usize, last: usize) -> Vec<u8> {
    (first..=last)
        .flat_map(|number| numbered(command, number))
        .collect()
}

/// A right reply.
fn reply(command: u8, count: u8) -> Vec<u8> {
    match command {
        0x95 | 0x96 => run(command, 1, asked(command, count).wanted),
        _ => frame(command, DATA_OF[usize::from(command - 0x90)]),
    }
}

/// What the one-frame replies carry, from 90 on.
const DATA_OF: [[u8; 8]; 9] = [
    [0x02, 0x0B, 0x00, 0x00, 0x75, 0x94, 0x03, 0x6A],
    [0x10, 0x0A, 0x03, 0x0F, 0xFC, 0x0B, 0x00, 0x00],
    [0x42, 0x01, 0x3E, 0x02, 0x00, 0x00, 0x00, 0x00],
    [0x01, 0x01, 0x00, 0x17, 0x00, 0x01, 0x86, 0xA0],
    [0x10, 0x04, 0x01, 0x00, 0x5A, 0x01, 0x2C, 0x00],
    [0; 8],
    [0; 8],
    [0x05, 0x80, 0x00, 0x00, 0x00, 0x01, 0x00, 0x00],
    [0x04, 0x00, 0x03, 0x00, 0x00, 0x20, 0x00, 0x00],
];

/// What an adapter brought of a pack of eight cells: our question come back, three bytes of noise, a reply that
/// breaks off in its third frame and begins again.
fn capture() -> Vec<u8> {
    let cells = |number: u8, millivolts: [u16; 3]| {
        let mut data = [number, 0, 0, 0, 0, 0, 0, 0];
        for (place, value) in data[1..7].chunks_exact_mut(2).zip(millivolts) {
            place.copy_from_slice(&value.to_be_bytes());
        }
        frame(0x95, data)
    };
    let reply = [
        cells(1, [3301, 3298, 3302]),
        cells(2, [3297, 3300, 3303]),
        cells(3, [3299, 3296, 0]),
    ]
    .concat();
    let broken_off = &reply[..2 * FRAME + 5];
    let stream = [&question(0x95)[..], &[0x00, 0xFF, 0x3C], broken_off, &reply].concat();
    input(0x95, 8, &stream)
}

/// All samples by name.
pub fn all() -> Samples {
    let mut samples = Samples::new();
    let put: &mut dyn FnMut(String, Vec<u8>) = &mut |name, input| {
        assert!(
            samples.insert(name.clone(), input).is_none(),
            "{name} twice"
        );
    };
    put("90-example".to_string(), EXAMPLE.to_vec());
    put("95-capture".to_string(), capture());
    every_command(put);
    fields(put);
    lists(put);
    reader(put);
    reasons(put);
    addresses(put);
    over_512(put);
    refused(put);
    samples
}

type Put<'a> = &'a mut dyn FnMut(String, Vec<u8>);

fn every_command(put: Put) {
    for command in COMMANDS {
        let of = |what: &str| format!("{command:02X}-{what}");
        let reply = reply(command, 8);
        let whole = |stream: &[u8]| input(command, 8, stream);
        put(of("clean"), whole(&reply));
        put(of("no-stream"), whole(&[]));
        put(of("last-byte-lacks"), whole(&reply[..reply.len() - 1]));
        put(
            of("after-question"),
            whole(&[question(command), reply.clone()].concat()),
        );
        put(
            of("bytes-behind"),
            whole(&[&reply[..], &[0x00, START, 0x01]].concat()),
        );
        let mut damaged = reply.clone();
        damaged[6] ^= 0x10;
        put(
            of("wrong-sum-then-right"),
            whole(&[damaged, reply].concat()),
        );
    }
}

/// One-frame replies: a name, the command and the data.
const FIELDS: [(&str, u8, [u8; 8]); 23] = [
    ("90-all-zero", 0x90, [0; 8]),
    ("90-all-ones", 0x90, [0xFF; 8]),
    ("90-no-current", 0x90, [0, 0, 0, 0, 0x75, 0x30, 0x03, 0xE8]),
    ("91-all-ones", 0x91, [0xFF; 8]),
    ("92-byte-0", 0x92, [0, 1, 0, 2, 0, 0, 0, 0]),
    ("92-byte-39-and-40", 0x92, [40, 1, 39, 2, 0, 0, 0, 0]),
    ("92-byte-167-and-168", 0x92, [167, 1, 168, 2, 0, 0, 0, 0]),
    ("92-byte-255", 0x92, [255, 255, 255, 255, 0, 0, 0, 0]),
    ("93-stationary", 0x93, [0, 0, 1, 0, 0, 0, 0, 0]),
    ("93-discharging", 0x93, [2, 1, 1, 255, 0, 0, 0x27, 0x10]),
    ("93-flags-of-2-and-255", 0x93, [1, 2, 255, 0, 0, 0, 0, 1]),
    ("93-capacity-16777217", 0x93, [0, 0, 0, 0, 1, 0, 0, 1]),
    ("93-capacity-16777219", 0x93, [0, 0, 0, 0, 1, 0, 0, 3]),
    (
        "93-capacity-largest",
        0x93,
        [0, 0, 0, 0, 255, 255, 255, 255],
    ),
    ("94-all-zero", 0x94, [0; 8]),
    ("94-all-ones", 0x94, [0xFF; 8]),
    ("94-states-01", 0x94, [0, 0, 0, 0, 0x01, 0, 0, 0]),
    ("94-states-10", 0x94, [0, 0, 0, 0, 0x10, 0, 0, 0]),
    ("94-states-80", 0x94, [0, 0, 0, 0, 0x80, 0, 0, 0]),
    ("98-no-fault", 0x98, [0; 8]),
    ("98-all-faults", 0x98, [0xFF; 8]),
    ("98-byte-6-is-03", 0x98, [0, 0, 3, 0, 0, 0, 0, 0]),
    (
        "98-only-bits-without-fault",
        0x98,
        [0, 0, 0, 0xF0, 0, 0, 0xF0, 0xFF],
    ),
];

fn fields(put: Put) {
    for (name, command, data) in FIELDS {
        put(name.to_string(), input(command, 0, &frame(command, data)));
    }
}

fn lists(put: Put) {
    for (command, counts) in [
        (0x95, &[0, 1, 2, 3, 4, 16, 255][..]),
        (0x96, &[0, 1, 6, 7, 14, 254, 255]),
    ] {
        for count in counts {
            let stream = input(command, *count, &reply(command, *count));
            put(format!("{command:02X}-count-{count}"), stream);
        }
    }
    for command in [0x95, 0x96] {
        let stream = input(command, 0, &run(command, 1, 2));
        put(
            format!("{command:02X}-count-0-takes-nothing-of-2-frames"),
            stream,
        );
    }
    for count in [0, 1, 9, 47, 48, 49, 255] {
        let flags = frame(0x97, [0x55, 0xFF, 0x00, 0x0F, 0xAA, 0x80, 0xFF, 0xFF]);
        put(format!("97-count-{count}"), input(0x97, count, &flags));
    }
    let values = [1, 0, 0, 0xFF, 0xFF, 0x0C, 0xE5, 0];
    put(
        "95-0-and-65535".to_string(),
        input(0x95, 3, &frame(0x95, values)),
    );
    let values = [1, 0, 39, 40, 41, 140, 254, 255];
    put(
        "96-byte-0-to-255".to_string(),
        input(0x96, 7, &frame(0x96, values)),
    );
}

/// Frames of a 95 reply that wants three: a name, and the first and last number of each run.
const RUNS: [(&str, &[(usize, usize)]); 8] = [
    ("95-frames-12123", &[(1, 2), (1, 3)]),
    ("95-frames-1121123", &[(1, 1), (1, 2), (1, 1), (1, 3)]),
    ("95-frames-1323", &[(1, 1), (3, 3), (2, 3)]),
    ("95-frames-23-lack-1", &[(2, 3)]),
    ("95-frames-12-lack-3", &[(1, 2)]),
    ("95-frames-1223", &[(1, 2), (2, 3)]),
    ("95-frames-01423", &[(0, 1), (4, 4), (2, 3)]),
    ("95-reply-twice", &[(1, 3), (1, 3)]),
];

/// A right frame of 91 that is thrown, and the right frame 1 that begins inside it.
fn swallowing() -> Vec<u8> {
    let mut bytes = frame(0x91, [0; 8])[..7].to_vec();
    bytes.extend(numbered(0x95, 1));
    let lacking = bytes[FRAME - 1].wrapping_sub(sum(&bytes[..FRAME]));
    bytes[1] = bytes[1].wrapping_add(lacking);
    bytes
}

fn reader(put: Put) {
    let of = |first, last| run(0x95, first, last);
    for (name, runs) in RUNS {
        let stream: Vec<u8> = runs.iter().flat_map(|(a, b)| of(*a, *b)).collect();
        put(name.to_string(), input(0x95, 9, &stream));
    }
    let samples = [
        (
            "frame-of-96-between",
            vec![of(1, 1), run(0x96, 2, 2), of(2, 3)],
        ),
        (
            "right-frame-inside-thrown-one",
            vec![swallowing(), of(2, 3)],
        ),
        ("and-again-from-1", vec![swallowing(), of(1, 3)]),
        ("starts-before", vec![vec![START; 20], of(1, 3)]),
        ("1-byte-held", vec![of(1, 2), vec![START]]),
        ("12-bytes-held", vec![of(1, 2), of(3, 3)[..12].to_vec()]),
        ("12-starts-held", vec![vec![START; 12]]),
        ("13-starts", vec![vec![START; 13]]),
    ];
    for (name, stream) in samples {
        put(format!("95-{name}"), input(0x95, 9, &stream.concat()));
    }
}

/// What tells a bad cable from a second master (document 02, K3), and all that is thrown away without strict mode.
fn reasons(put: Put) {
    let (reply, third) = (run(0x95, 1, 3), numbered(0x95, 3));
    let mut broken = reply.clone();
    broken[FRAME + 6] ^= 0x10;
    let others = [question(0x90), frame(0x90, DATA_OF[0])].concat();
    let noise = vec![0x00, 0xFF, 0x3C];
    let samples = [
        (
            "bad-cable",
            vec![noise.clone(), broken.clone(), reply.clone()],
        ),
        (
            "second-master",
            vec![others.clone(), reply.clone(), others.clone()],
        ),
        (
            "second-master-between",
            vec![run(0x95, 1, 2), others.clone(), third],
        ),
        (
            "every-reason",
            vec![noise, broken, others, question(0x95), reply],
        ),
    ];
    for (name, stream) in samples {
        put(format!("95-{name}"), input(0x95, 9, &stream.concat()));
    }
}

/// The bytes that nobody looks at.
fn addresses(put: Put) {
    for byte in [0x00, 0x40, 0xFF] {
        let mut other = frame(0x90, DATA_OF[0]);
        (other[1], other[3]) = (byte, byte);
        put_sum(&mut other);
        let name = format!("90-bytes-1-and-3-are-{byte:02X}");
        put(name, input(0x90, 0, &other));
    }
}

fn over_512(put: Put) {
    let mut random = Random::new(SEED);
    let reply = frame(0x90, DATA_OF[0]);
    for count in [512, 513] {
        let zeros = vec![0; count];
        let of = |what: &str| format!("90-{count}-{what}");
        put(
            of("zeros-before"),
            input(0x90, 0, &[&zeros[..], &reply].concat()),
        );
        put(of("zeros-alone"), input(0x90, 0, &zeros));
        put(
            of("zeros-behind"),
            input(0x90, 0, &[&reply[..], &zeros].concat()),
        );
        let starts = vec![START; count];
        put(
            of("starts-before"),
            input(0x90, 0, &[&starts[..], &reply].concat()),
        );
        let noise = noise(&mut random, count - 39 * FRAME);
        let others = frame(0x91, DATA_OF[1]).repeat(39);
        let stream = [noise, others, reply.clone()].concat();
        put(of("by-39-frames-of-91"), input(0x90, 0, &stream));
    }
}

fn refused(put: Put) {
    let samples = [
        ("no-input", vec![]),
        ("one-byte-90", vec![0x90]),
        ("one-byte-99", vec![0x99]),
        ("8F-unknown", vec![0x8F, 0x00]),
        ("99-unknown", vec![0x99, 0x00]),
        (
            "00-unknown-with-reply",
            input(0x00, 1, &frame(0x00, [0; 8])),
        ),
        (
            "D9-unknown-with-reply",
            input(0xD9, 1, &frame(0xD9, [0; 8])),
        ),
        (
            "93-mode-3",
            input(0x93, 0, &frame(0x93, [3, 0, 0, 0, 0, 0, 0, 0])),
        ),
        ("93-mode-255", input(0x93, 0, &frame(0x93, [255; 8]))),
        ("95-single-frame-is-0", input(0x95, 3, &numbered(0x95, 0))),
        ("95-single-frame-is-2", input(0x95, 3, &numbered(0x95, 2))),
        ("96-single-frame-is-2", input(0x96, 7, &numbered(0x96, 2))),
    ];
    for (name, input) in samples {
        put(name.to_string(), input);
    }
}

/// The files as they are to be: each input, and the Rust's text of it.
fn files() -> BTreeMap<String, Vec<u8>> {
    let mut files = BTreeMap::new();
    for (name, input) in all() {
        files.insert(format!("{name}.out"), reference::text(&input).into_bytes());
        files.insert(format!("{name}.in"), input);
    }
    files
}

/// Makes the folder anew, and the crate's output.
pub fn write() -> io::Result<()> {
    if fs::exists(PLACE)? {
        fs::remove_dir_all(PLACE)?;
    }
    fs::create_dir_all(PLACE)?;
    for (name, bytes) in files() {
        fs::write(format!("{PLACE}/{name}"), bytes)?;
    }
    fs::write(OUTPUT, output()?)?;
    println!("{} samples in {PLACE}, and {OUTPUT}", all().len());
    Ok(())
}

/// What is printed of the crate's input.
fn output() -> io::Result<Vec<u8>> {
    Ok(reference::text(&fs::read(INPUT)?).into_bytes())
}

fn stored() -> io::Result<BTreeMap<String, Vec<u8>>> {
    let entries = fs::read_dir(PLACE)?.map(|entry| {
        let entry = entry?;
        let name = entry.file_name().to_string_lossy().into_owned();
        Ok((name, fs::read(entry.path())?))
    });
    entries.collect()
}

/// Whether the stored files are these, no more, no fewer, no others, and the crate's output too.
pub fn are_stored() -> bool {
    let same = stored().is_ok_and(|stored| stored == files());
    let same =
        same && output().is_ok_and(|text| fs::read(OUTPUT).is_ok_and(|stored| stored == text));
    println!(
        "{} {PLACE} and {OUTPUT} have what the Rust says, {} samples",
        crate::part::verdict(same),
        all().len()
    );
    same
}
