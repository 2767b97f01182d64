//! One reader on three sides, the port's, the Rust's and the model's, compared after every push. The Rust has no strict
//! mode: of a strict reader it is pushed what exchange.rs makes of the stream.

use super::model::{Model, MOST_DISCARDED};
use super::opened;
use super::port::Way;
use super::reasons::Reasons;
use super::streams::Asked;
use super::told::*;
use crate::original;
use crate::told::{CompletedTold, MissingTold};
use crate::trial::Trial;
use dalybms_lib::protocol::exposed::{self, ReaderFields};
use dalybms_lib::protocol::FrameReader;

pub struct Sides {
    pub ours: Reader,
    /// The port's last status, and what its pushes took in all.
    pub said: Said,
    pub rust: FrameReader,
    model: Model,
    /// Why bytes were thrown away, once more.
    reasons: Reasons,
    /// What the Rust is to have: the held bytes or, once complete, what came behind, which ours leaves with the caller.
    pending: Vec<u8>,
}

/// The first place where two rows of bytes differ, with what each has there.
pub type Difference = Option<(usize, Option<u8>, Option<u8>)>;

pub fn difference(wanted: &[u8], found: &[u8]) -> Difference {
    if wanted == found {
        return None;
    }
    (0..wanted.len().max(found.len()))
        .map(|place| (place, wanted.get(place).copied(), found.get(place).copied()))
        .find(|(_, wanted, found)| wanted != found)
}

/// Bytes as they are printed; no more than can be read.
pub fn shown(bytes: &[u8]) -> String {
    match bytes.len() {
        0..=4000 => format!("{bytes:02X?}"),
        length => format!("{length} bytes, first {:02X?}", &bytes[..4000]),
    }
}

/// Before the first push.
const NOTHING: Said = Said { status: 0, took: 0 };

/// What the port says after a push. Its five counts are held to the model's, among all counts, and to those that are found
/// a second time; their sum, as the library adds them up, to the Rust's one count.
#[derive(Debug, PartialEq)]
struct Ours {
    said: Said,
    counts: Counts,
    thrown: Discarded,
    all: u32,
    missing: MissingTold,
    completed: CompletedTold,
    fence: Difference,
    collected: Difference,
    held: Difference,
}

/// What the Rust says after a push. Its count of discarded bytes has 64 bits.
#[derive(Debug, PartialEq)]
struct Theirs {
    number: u8,
    command: u8,
    wanted: usize,
    discarded: u32,
    missing: usize,
    complete: bool,
    collected: Difference,
    pending: Difference,
}

impl Sides {
    /// Opens a reader on all sides; none where the port's is not the wanted one.
    pub fn new(trial: &mut Trial, asked: Asked) -> Option<Self> {
        Self::opened(trial, asked, false)
    }

    /// The same in either mode.
    pub fn opened(trial: &mut Trial, asked: Asked, strict: bool) -> Option<Self> {
        let request = asked.request(&mut trial.random);
        let ours = opened::compare(trial, &request, asked.size, strict)?;
        Some(Self {
            ours,
            said: NOTHING,
            model: Model::new(asked.command, asked.size, strict),
            reasons: Reasons::new(asked.command, asked.wanted, strict),
            rust: FrameReader::new(&request, asked.size),
            pending: Vec::new(),
        })
    }

    /// A reader in this state on all sides; none where the state is bad.
    pub fn given(reader: &Reader) -> Option<Self> {
        Self::given_beside(reader, reader.held())
    }

    /// The same; the Rust holds these bytes.
    pub fn given_beside(reader: &Reader, pending: &[u8]) -> Option<Self> {
        let model = Model::of(reader)?;
        // Marked with a small count: the count has wrapped, the Rust's has not.
        let all = model.discarded.all();
        let wrapped = model.mark && u64::from(all) <= MOST_DISCARDED;
        let rust = exposed::reader_with(ReaderFields {
            command: model.command,
            n_frames: model.wanted,
            pending,
            frames: &model.collected,
            discarded: all as usize + (usize::from(wrapped) << 32),
        });
        Some(Self {
            ours: *reader,
            said: NOTHING,
            model,
            reasons: Reasons::of(reader),
            rust,
            pending: pending.to_vec(),
        })
    }

    /// Counts one case, and says whether all sides agree.
    pub fn push(&mut self, trial: &mut Trial, way: Way, chunk: &[u8]) -> bool {
        self.push_beside(trial, way, chunk, chunk)
    }

    /// The same; the Rust is pushed these bytes, which are as many.
    pub fn push_beside(
        &mut self,
        trial: &mut Trial,
        way: Way,
        chunk: &[u8],
        exchanged: &[u8],
    ) -> bool {
        let after = trial.port.push(way, &self.ours, chunk);
        let said = self.model.push(chunk);
        self.reasons.push(chunk);
        let number = original::number(&self.rust.push(exchanged));
        self.keep(exchanged, said.took);
        let found = (self.found(trial, &after), self.theirs(number));
        let wanted = (self.wanted(said), self.wanted_theirs());
        let agree = trial.agrees(wanted, found, || {
            let beside = match chunk == exchanged {
                true => String::new(),
                false => format!(" to the Rust {}", shown(exchanged)),
            };
            let reader = self.ours.shown();
            format!("{way:?} {reader} chunk {}{beside}", shown(chunk))
        });
        self.ours = after.reader;
        self.said = Said {
            status: after.said.status,
            took: self.said.took.wrapping_add(after.said.took),
        };
        agree
    }

    /// The Rust is then to have the last of all bytes: so many as are held or, once complete, all behind the last frame.
    fn keep(&mut self, exchanged: &[u8], took: usize) {
        let count = match self.model.is_complete() {
            true if took > 0 => exchanged.len() - took,
            true => self.pending.len() + exchanged.len(),
            false => self.model.held.len(),
        };
        self.pending.extend_from_slice(exchanged);
        self.pending.drain(..self.pending.len() - count);
    }

    fn wanted(&self, said: Said) -> Ours {
        Ours {
            said,
            counts: self.model.counts(),
            thrown: self.reasons.thrown,
            all: exposed::reader_fields(&self.rust).discarded as u32,
            missing: MissingTold {
                number: 0,
                missing: self.model.missing(),
            },
            completed: CompletedTold {
                number: 0,
                complete: self.model.is_complete().into(),
            },
            fence: None,
            collected: None,
            held: None,
        }
    }

    fn found(&self, trial: &mut Trial, after: &After) -> Ours {
        let reader = &after.reader;
        Ours {
            said: after.said,
            counts: reader.counts,
            thrown: reader.counts.discarded,
            all: trial.port.discarded_all(reader.counts.discarded),
            missing: trial.port.missing(reader),
            completed: trial.port.completed(reader),
            fence: difference(&FENCE, &after.fence),
            collected: difference(&self.model.collected, reader.collected()),
            held: difference(&self.model.held, reader.held()),
        }
    }

    fn wanted_theirs(&self) -> Theirs {
        Theirs {
            number: self.model.status(),
            command: self.model.command,
            wanted: self.model.wanted,
            discarded: self.model.discarded.all(),
            missing: self.model.missing(),
            complete: self.model.is_complete(),
            collected: None,
            pending: None,
        }
    }

    fn theirs(&self, number: u8) -> Theirs {
        let fields = exposed::reader_fields(&self.rust);
        Theirs {
            number,
            command: fields.command,
            wanted: fields.n_frames,
            discarded: fields.discarded as u32,
            missing: self.rust.missing(),
            complete: self.rust.is_complete(),
            collected: difference(&self.model.collected, fields.frames),
            pending: difference(&self.pending, fields.pending),
        }
    }
}
