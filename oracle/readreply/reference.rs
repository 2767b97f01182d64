//! What `readreply` is to print, from the unchanged Rust: its reader collects, its decoders decode. A
//! model of the documents' rules stands beside the Rust's reader. It decides about what that does not
//! show, the bytes taken, the frames cleared, why bytes were thrown away and what is held once complete;
//! about all else the two must agree. The reasons are found a second time, otherwise, and must be the same.

mod fields;
#[path = "../compare/frames.rs"]
pub mod frames;
#[path = "../compare/original.rs"]
pub mod original;
#[path = "../compare/random.rs"]
pub mod random;
pub mod reader;
#[path = "../compare/told.rs"]
pub mod told;

use dalybms_lib::protocol::exposed;
use dalybms_lib::protocol::FrameReader;
use frames::FRAME;
use reader::model::Model;
use reader::reasons::Reasons;
use reader::told::Discarded;

const TOO_SHORT: u8 = 7;
const UNKNOWN_COMMAND: u8 = 10;

/// The Rust moves all that is behind a discarded byte, so it is pushed pieces of this size.
const PIECE: usize = 512;

/// The figures of the first line.
pub struct Tally {
    pub taken: u32,
    pub held: usize,
    pub frames: usize,
    pub discarded: u32,
    pub cleared: u32,
    /// Why, and the last five of the line.
    pub thrown: Discarded,
}

/// A reader for a command and a count.
pub struct Reference {
    command: u8,
    count: u8,
    rust: FrameReader,
    model: Model,
    reasons: Reasons,
    status: u8,
}

pub fn is_known(command: u8) -> bool {
    (0x90..=0x98).contains(&command)
}

/// The size of the reply, as the Rust has it.
pub fn reply_size(command: u8, count: u8) -> usize {
    let [voltages, temperatures] = original::reply_sizes(count);
    match command {
        0x95 => voltages,
        0x96 => temperatures,
        _ => FRAME,
    }
}

impl Reference {
    /// The command is one that `readreply` knows.
    pub fn new(command: u8, count: u8) -> Self {
        let request = &original::request(command, false, 0.0, 0)[1..];
        let size = reply_size(command, count);
        Self {
            command,
            count,
            rust: FrameReader::new(request, size),
            model: Model::new(command, size, false),
            reasons: Reasons::new(command, size.div_ceil(FRAME), false),
            status: 0,
        }
    }

    /// What comes after completion is not for the Rust, which would keep it all.
    pub fn push(&mut self, stream: &[u8]) {
        for chunk in stream.chunks(PIECE) {
            let was_complete = self.rust.is_complete();
            let given = if was_complete { &[] } else { chunk };
            self.status = original::number(&self.rust.push(given));
            let took = self.model.push(chunk).took;
            self.reasons.push(chunk);
            self.agree(if was_complete { &[] } else { &chunk[took..] });
        }
    }

    /// Whatever both show is the same. `left` came behind the last wanted frame in this chunk.
    fn agree(&self, left: &[u8]) {
        let fields = exposed::reader_fields(&self.rust);
        let model = &self.model;
        let all = model.discarded.all();
        assert_eq!(fields.discarded as u32, all, "discarded");
        assert_eq!(self.reasons.thrown, model.discarded, "why");
        assert_eq!(fields.frames, model.collected, "collected");
        assert_eq!(self.status, model.status(), "status");
        assert_eq!(self.rust.missing(), model.missing(), "missing");
        assert_eq!(self.rust.is_complete(), model.is_complete(), "completeness");
        if !model.is_complete() {
            assert_eq!(fields.pending, model.held, "held");
        } else if !left.is_empty() {
            assert_eq!(fields.pending, left, "left with the caller");
        }
    }

    pub fn is_complete(&self) -> bool {
        self.rust.is_complete()
    }

    pub fn tally(&self) -> Tally {
        let fields = exposed::reader_fields(&self.rust);
        Tally {
            taken: self.model.taken,
            held: self.model.held.len(),
            frames: fields.frames.len() / FRAME,
            discarded: fields.discarded as u32,
            cleared: self.model.cleared,
            thrown: self.model.discarded,
        }
    }

    /// The status of the last push; 0 before the first.
    pub fn status(&self) -> u8 {
        self.status
    }

    /// The whole text, with these figures and after this status.
    pub fn text_with(self, tally: Tally, status: u8) -> String {
        let counts = tally.line(self.command);
        if status == 2 {
            return counts + &refused(2);
        }
        let reply = self.rust.into_bytes();
        let answer = match fields::decoded(self.command, self.count, &reply) {
            Err(number) => refused(number),
            Ok(fields) => lines(&fields),
        };
        counts + &answer
    }

    pub fn text(self) -> String {
        let (tally, status) = (self.tally(), self.status);
        self.text_with(tally, status)
    }
}

impl Tally {
    fn line(&self, command: u8) -> String {
        let counts = [
            ("taken", self.taken as usize),
            ("held", self.held),
            ("frames", self.frames),
            ("discarded", self.discarded as usize),
            ("cleared", self.cleared as usize),
            ("noise", self.thrown.noise as usize),
            ("sum", self.thrown.sum as usize),
            ("command", self.thrown.command as usize),
            ("number", self.thrown.number as usize),
            ("echo", self.thrown.echo as usize),
        ];
        let counts = counts.map(|(name, count)| format!("{name} {count}"));
        format!("reply {command:02X} {}\n", counts.join(" "))
    }
}

fn lines(fields: &[(&str, i64)]) -> String {
    fields
        .iter()
        .map(|(name, value)| format!("{name} {value}\n"))
        .collect()
}

fn refused(number: u8) -> String {
    format!("refused {number}\n")
}

/// What is printed of an input that makes no reader: one under two bytes, or of an unknown command.
pub fn no_reader(begin: &[u8]) -> Option<String> {
    match begin {
        [] | [_] => Some(refused(TOO_SHORT)),
        [command, ..] if !is_known(*command) => Some(refused(UNKNOWN_COMMAND)),
        _ => None,
    }
}

/// The whole text for a whole input.
pub fn text(input: &[u8]) -> String {
    if let Some(text) = no_reader(input) {
        return text;
    }
    let mut reference = Reference::new(input[0], input[1]);
    reference.push(&input[2..]);
    reference.text()
}
