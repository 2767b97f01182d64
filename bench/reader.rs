//! The reader: a stream in chunks of one size, through the Rust's `push` and the port's.

use crate::frames::reply;
use dalybms_lib::protocol::{Address, CellVoltageRange, CellVoltages, FrameReader, Soc};
use std::hint::black_box;
use std::time::Instant;

const ROUNDS: usize = 15;
/// For chunks of 1 MiB, of which the Rust takes all A5 in some 15 s.
const FEW: usize = 2;
const ROOM: usize = 1105;
/// Bytes of a stream for chunks of up to 4 KiB.
const STREAM: usize = 1 << 17;
const KIB: usize = 1 << 10;
const MIB: usize = 1 << 20;

#[derive(Clone, Copy, Debug, Default, PartialEq)]
#[repr(C)]
pub struct Discarded {
    noise: u32,
    sum: u32,
    command: u32,
    number: u32,
    echo: u32,
}

#[derive(Clone, Copy, Default)]
#[repr(C)]
pub struct Counts {
    command: u8,
    mark: bool,
    strict: bool,
    taken: u32,
    discarded: Discarded,
    cleared: u32,
    wanted: usize,
    collected: usize,
    held: usize,
}

#[derive(Clone, Copy)]
#[repr(C)]
pub struct Reader {
    counts: Counts,
    frames: [u8; ROOM],
}

#[repr(C)]
pub struct Said {
    status: u8,
    took: usize,
}

#[repr(C)]
pub struct Told {
    said: Said,
    counts: Counts,
}

#[repr(C)]
pub struct Pushed {
    said: Said,
    reader: Reader,
}

extern "C" {
    fn daly_reader_push(reader: *mut Reader, p: *const u8, len: usize) -> Said;
    fn daly_push_by_value(reader: Reader, p: *const u8, len: usize) -> Pushed;
    fn daly_push_lent(reader: *mut Reader, p: *const u8, len: usize) -> Said;
    fn daly_push_into(frames: *mut [u8; ROOM], counts: Counts, p: *const u8, len: usize) -> Told;
    fn daly_push_in_chunks(
        frames: *mut [u8; ROOM],
        counts: Counts,
        p: *const u8,
        len: usize,
        size: usize,
    ) -> Told;
}

/// A push on a lent reader.
type Push = unsafe extern "C" fn(*mut Reader, *const u8, usize) -> Said;

impl Default for Reader {
    fn default() -> Self {
        Self {
            counts: Counts::default(),
            frames: [0; ROOM],
        }
    }
}

/// A stream and how it is read: a new reader begins with each `reply` bytes.
struct Case {
    name: &'static str,
    command: u8,
    wanted: usize,
    reply: usize,
    strict: bool,
    stream: Vec<u8>,
    /// What the Rust reads, where it is another.
    exchanged: Option<Vec<u8>>,
}

impl Case {
    fn fresh(&self) -> Counts {
        Counts {
            command: self.command,
            strict: self.strict,
            wanted: self.wanted,
            ..Counts::default()
        }
    }

    fn request(&self) -> Vec<u8> {
        match self.command {
            0x90 => Soc::request(Address::Host),
            _ => CellVoltages::request(Address::Host),
        }
    }

    fn rust_stream(&self) -> &[u8] {
        self.exchanged.as_ref().unwrap_or(&self.stream)
    }

    fn rust(&self, size: usize) {
        let request = self.request();
        for reply in self.rust_stream().chunks(self.reply) {
            let mut reader = FrameReader::new(&request, self.wanted * 13);
            for chunk in reply.chunks(size) {
                let _ = black_box(reader.push(black_box(chunk)));
            }
            black_box(&reader);
        }
    }

    /// The core on the caller's memory, called through C for each chunk.
    fn into(&self, size: usize) {
        let mut frames = [0; ROOM];
        for reply in self.stream.chunks(self.reply) {
            let mut counts = self.fresh();
            for chunk in reply.chunks(size) {
                let (p, len) = (black_box(chunk.as_ptr()), chunk.len());
                // SAFETY: `frames` has the room, and `chunk` is `len` bytes.
                let told = unsafe { daly_push_into(&mut frames, counts, p, len) };
                black_box(told.said.status | told.said.took as u8);
                counts = told.counts;
            }
            black_box((&frames, counts.collected));
        }
    }

    /// The core on the caller's memory, called by the port itself for each chunk.
    fn in_chunks(&self, size: usize) {
        let mut frames = [0; ROOM];
        for reply in self.stream.chunks(self.reply) {
            let (p, len) = (black_box(reply.as_ptr()), reply.len());
            // SAFETY: as above.
            let told = unsafe { daly_push_in_chunks(&mut frames, self.fresh(), p, len, size) };
            black_box((&frames, told.counts.collected));
        }
    }

    /// A reader that has taken nothing; of its frames it has what they held.
    fn begin(&self, reader: &mut Reader) {
        reader.counts = self.fresh();
    }

    /// On a reader lent to the port, called through C for each chunk.
    fn pointed(&self, size: usize, push: Push) {
        let mut reader = Reader::default();
        for reply in self.stream.chunks(self.reply) {
            self.begin(&mut reader);
            for chunk in reply.chunks(size) {
                let (p, len) = (black_box(chunk.as_ptr()), chunk.len());
                // SAFETY: the reader is alive and lent to nobody else, and `chunk` is `len` bytes.
                black_box(unsafe { push(&mut reader, p, len) }.status);
            }
            black_box(&reader);
        }
    }

    fn lent(&self, size: usize) {
        self.pointed(size, daly_push_lent);
    }

    fn in_place(&self, size: usize) {
        self.pointed(size, daly_reader_push);
    }

    fn value(&self, size: usize) {
        let mut reader = Reader::default();
        for reply in self.stream.chunks(self.reply) {
            self.begin(&mut reader);
            for chunk in reply.chunks(size) {
                let (p, len) = (black_box(chunk.as_ptr()), chunk.len());
                // SAFETY: `chunk` is `len` bytes.
                reader = unsafe { daly_push_by_value(reader, p, len) }.reader;
            }
            black_box(&reader);
        }
    }

    /// The best of several rounds of each, taken in turns: nanoseconds a byte.
    fn timed(&self, size: usize, forms: &[fn(&Self, usize)], rounds: usize) -> Vec<f64> {
        let mut best = vec![f64::MAX; forms.len()];
        for _ in 0..rounds {
            for (best, form) in best.iter_mut().zip(forms) {
                let began = Instant::now();
                form(self, size);
                *best = best.min(began.elapsed().as_nanos() as f64);
            }
        }
        best.iter()
            .map(|ns| ns / self.stream.len() as f64)
            .collect()
    }
}

fn repeated(part: &[u8], len: usize) -> Vec<u8> {
    part.iter().copied().cycle().take(len).collect()
}

/// Bytes that look drawn, the same in every run.
fn drawn(len: usize) -> Vec<u8> {
    let mut state = 20_261_018_u64;
    let mut next = || {
        state ^= state << 13;
        state ^= state >> 7;
        state ^= state << 17;
        (state >> 32) as u8
    };
    (0..len).map(|_| next()).collect()
}

/// Our own question and the reply in turns, as a two-wire line has them. The Rust has no strict mode: in the question's
/// place it gets that of another command, which it throws away whole.
fn echoes(len: usize) -> Case {
    let frame = reply(0x90, 1, None);
    let turns = |question: Vec<u8>| {
        let turn = [question, frame.clone()].concat();
        repeated(&turn, len / turn.len() * turn.len())
    };
    Case {
        name: "echo and reply",
        command: 0x90,
        wanted: 1,
        reply: 26,
        strict: true,
        stream: turns(Soc::request(Address::Host)),
        exchanged: Some(turns(CellVoltageRange::request(Address::Host))),
    }
}

fn cases(len: usize) -> Vec<Case> {
    let case = |name, command, wanted, reply, stream| Case {
        name,
        command,
        wanted,
        reply,
        strict: false,
        stream,
        exchanged: None,
    };
    let cells = reply(0x95, 85, None);
    let whole = |part: usize| len / part * part;
    vec![
        case(
            "clean, 1 frame",
            0x90,
            1,
            13,
            repeated(&reply(0x90, 1, None), whole(13)),
        ),
        case(
            "clean, 85 frames",
            0x95,
            85,
            ROOM,
            repeated(&cells, whole(ROOM)),
        ),
        case(
            "restarts, 84 of 85",
            0x95,
            85,
            len,
            repeated(&cells[..84 * 13], len),
        ),
        case("wrong command", 0x90, 1, len, repeated(&cells, len)),
        case("drawn", 0x90, 1, len, drawn(len)),
        case("all A5", 0x90, 1, len, vec![0xA5; len]),
        case("zeros", 0x90, 1, len, vec![0; len]),
        echoes(len),
    ]
}

/// One stream through one form, for a tool that counts instructions between entry and exit.
#[inline(never)]
fn counted(case: &Case, form: fn(&Case, usize), size: usize) {
    form(case, size);
}

/// `NAME FORM SIZE`: what `bench/instructions` asks for.
pub fn one(words: &[String]) -> Option<()> {
    let [name, form, size] = words else {
        return None;
    };
    let case = cases(STREAM).into_iter().find(|case| case.name == name)?;
    let form = match form.as_str() {
        "rust" => Case::rust,
        "in chunks" => Case::in_chunks,
        "into" => Case::into,
        "in place" => Case::in_place,
        _ => return None,
    };
    counted(&case, form, size.parse().ok()?);
    Some(())
}

/// The streams' names and length.
pub fn names() {
    println!("{STREAM}");
    for case in cases(1) {
        println!("{}", case.name);
    }
}

/// The forms beside the Rust's, in the table's order.
const FORMS: [(&str, fn(&Case, usize)); 5] = [
    ("in place", Case::in_place),
    ("lent", Case::lent),
    ("by value", Case::value),
    ("into", Case::into),
    ("in chunks", Case::in_chunks),
];

fn row(case: &Case, size: usize, rounds: usize) {
    let forms: Vec<fn(&Case, usize)> = [Case::rust as fn(&Case, usize)]
        .into_iter()
        .chain(FORMS.map(|(_, form)| form))
        .collect();
    let ns = case.timed(size, &forms, rounds);
    print!("| {:<18} | {size:>7} | {:>8.2} |", case.name, ns[0]);
    for ours in &ns[1..] {
        let ratio = ours / ns[0];
        let digits = if ratio < 0.01 { 5 } else { 2 };
        print!(" {ratio:>7.digits$} |");
    }
    println!();
}

/// A table's head: these columns and one for each of some sizes or forms.
fn head(first: &[&str], more: impl Iterator<Item = String>) {
    let columns: Vec<String> = first
        .iter()
        .map(|name| name.to_string())
        .chain(more)
        .collect();
    println!(
        "| {} |\n|{}",
        columns.join(" | "),
        "---|".repeat(columns.len())
    );
}

/// Both sides throw 13 bytes away and collect the frame behind them: what is timed is the same work.
fn same_turns() {
    let case = echoes(26);
    let (mut reader, mut rust) = (Reader::default(), FrameReader::new(&case.request(), 13));
    case.begin(&mut reader);
    // SAFETY: the reader is alive and lent to nobody else, and the stream is so long.
    unsafe { daly_reader_push(&mut reader, case.stream.as_ptr(), case.stream.len()) };
    assert!(rust.push(case.rust_stream()).is_ok());
    let echo = Discarded {
        echo: 13,
        ..Discarded::default()
    };
    assert_eq!((reader.counts.taken, reader.counts.discarded), (26, echo));
    assert_eq!(reader.frames[..13], rust.into_bytes());
}

pub fn table() {
    same_turns();
    let forms = FORMS.iter().map(|(name, _)| name.to_string());
    head(&["stream", "chunk", "Rust, ns a byte"], forms);
    let long = cases(MIB);
    for (case, long) in cases(STREAM).iter().zip(&long) {
        for size in [1, 13, 64, ROOM, 4 * KIB] {
            row(case, size, ROUNDS);
        }
        row(long, MIB, FEW);
    }
}

/// The port alone, over ever longer chunks: the cost of a byte must not grow.
pub fn flat() {
    let sizes = [KIB, 16 * KIB, 256 * KIB, MIB, 4 * MIB, 16 * MIB];
    let names = sizes.iter().map(|size| format!("{} KiB", size / KIB));
    head(&["port, ns a byte"], names);
    for case in cases(16 * MIB) {
        print!("| {:<18} |", case.name);
        for size in sizes {
            print!(" {:.3} |", case.timed(size, &[Case::in_place], ROUNDS)[0]);
        }
        println!();
    }
}
