//! The making of a reader.

use super::model::Model;
use super::sides::difference;
use super::strict;
use super::told::{Counts, Reader};
use super::OF;
use crate::frames::LONGEST;
use crate::trial::{Part, Trial};
use dalybms_lib::protocol::{exposed, FrameReader};

pub const PARTS: &[Part] = &[
    Part::new(
        OF,
        "new: every size from 0 to 1,200, requests of 0 to 20 bytes",
        21 * 1201,
        |trial| sizes(trial, false),
    ),
    Part::new(OF, "new: huge sizes", 21 * 300, |trial| huge(trial, false)),
];

/// The same in strict mode. A refused reader is not strict.
pub const STRICT: [Part; 2] = [
    Part::new(
        strict::OF,
        "new: every size from 0 to 1,200, requests of 0 to 20 bytes",
        21 * 1201,
        |trial| sizes(trial, true),
    ),
    Part::new(strict::OF, "new: huge sizes", 21 * 300, |trial| {
        huge(trial, true)
    }),
];

/// Requests shorter than this have no command.
const SHORTEST: usize = 3;

/// Document 01's order: 7, then 6.
fn refusal(request: &[u8], size: usize) -> u8 {
    if request.len() < SHORTEST {
        7
    } else if size > LONGEST {
        6
    } else {
        0
    }
}

/// Counts one case, and answers the new reader where there is one and it is right. A refused one is
/// zero in every place; the frames of a new one are not specified.
pub fn compare(trial: &mut Trial, request: &[u8], size: usize, strict: bool) -> Option<Reader> {
    let opened = trial.port.open(request, size, strict);
    let number = refusal(request, size);
    let (counts, frames) = match number {
        0 => (opened_counts(request, size, strict), None),
        _ => {
            let Reader { counts, frames } = Reader::ZERO;
            (counts, difference(&frames, &opened.reader.frames))
        }
    };
    let agrees = trial.agrees(
        (number, counts, None),
        (opened.number, opened.reader.counts, frames),
        || format!("request {request:02X?} size {size} strict {strict}"),
    );
    (agrees && number == 0).then_some(opened.reader)
}

/// By the model, which must have the Rust's command and count of frames.
fn opened_counts(request: &[u8], size: usize, strict: bool) -> Counts {
    let rust = FrameReader::new(request, size);
    let fields = exposed::reader_fields(&rust);
    let model = Model::new(request[2], size, strict);
    let nothing = fields.pending.is_empty() && fields.frames.is_empty() && fields.discarded == 0;
    assert!(
        nothing && (fields.command, fields.n_frames) == (model.command, model.wanted),
        "the Rust opens another reader for size {size}"
    );
    model.counts()
}

fn requests(trial: &mut Trial, size: usize, strict: bool) {
    for length in 0..=20 {
        let request = trial.random.bytes(length);
        compare(trial, &request, size, strict);
    }
}

fn sizes(trial: &mut Trial, strict: bool) {
    for size in (0..=1200).step_by(trial.stride()) {
        requests(trial, size, strict);
    }
}

/// Sizes that are small modulo a power of two, and the largest.
fn huge(trial: &mut Trial, strict: bool) {
    for bit in 11..64 {
        for more in [0, 1, 13, 1104, 1105, 1106] {
            requests(trial, (1 << bit) | more, strict);
        }
    }
    for fewer in 0..30 {
        requests(trial, usize::MAX - fewer, strict);
    }
}
