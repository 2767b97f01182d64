//! Document 02's five counts (K3) by the port's own names: in the tally that a push is lent, in the numbers that go by
//! value, and their sum. They are held to the model of the documents' rules, and the sum to the Rust's one count.

use crate::reader::echoes;
use crate::reader::exchange::exchange;
use crate::reader::model::Model;
use crate::reader::streams::{cut, Asked};
use crate::reader::told::Said;
use crate::trial::{Part, Trial};
use dalybms_lib::protocol::{exposed, FrameReader as Rust};
use translated::reader::tally::{discarded_in, Discarded};
use translated::reader::{push_counts, push_into, FrameReader, Standing};

pub const PARTS: [Part; 3] = [
    Part::new(
        "FrameReader by value, five counts",
        "each form of the push, after every push",
        60_000,
        |trial| streams(trial, false),
    ),
    Part::new(
        "FrameReader by value, five counts",
        "each form of the push, after every push, strict",
        60_000,
        |trial| streams(trial, true),
    ),
    Part::new(
        "Discarded",
        "the five of a tally, and their sum modulo 2^32",
        20_000,
        sums,
    ),
];

/// Status and bytes taken, the mark, and the seven counts: taken, the five, cleared.
type Numbers = (u8, usize, bool, [u32; 7]);

fn modelled(model: &Model, said: Said) -> Numbers {
    let mut tally = [model.taken, 0, 0, 0, 0, 0, model.cleared];
    tally[1..6].copy_from_slice(&model.discarded.each());
    (said.status, said.took, model.mark, tally)
}

/// A push with all by value, one on lent frames, and one on lent frames and a lent tally.
fn each_form(reader: FrameReader, chunk: &[u8]) -> [Numbers; 3] {
    let by_value = reader.push(chunk);
    let counts = reader.counts;
    let mut frames = reader.frames;
    let on_frames = push_counts(&mut frames, counts, chunk);
    let (mut frames, mut tally) = (reader.frames, counts.tally);
    let standing = Standing {
        command: counts.command,
        mark: counts.mark,
        strict: counts.strict,
        wanted: counts.wanted,
        collected: counts.collected,
        held: counts.held,
    };
    let on_tally = push_into(&mut frames, &mut tally, standing, chunk);
    let (one, two) = (by_value.reader.counts, on_frames.counts);
    [
        (by_value.said, one.mark, one.tally),
        (on_frames.said, two.mark, two.tally),
        (on_tally.said, on_tally.standing.mark, tally),
    ]
    .map(|(said, mark, tally)| (said.status, said.took, mark, tally))
}

fn streams(trial: &mut Trial, strict: bool) {
    for _ in 0..trial.rounds(3_000) {
        let wanted = trial.random.below(6);
        let asked = Asked::drawn(&mut trial.random, wanted);
        let stream = echoes::stream(&mut trial.random, asked, echoes::ANY);
        let mut model = Model::new(asked.command, asked.size, strict);
        let exchanged = exchange(&mut trial.random, model.clone(), &stream).bytes;
        let request = [0xA5, 0x40, asked.command];
        let mut reader = FrameReader::new(&request, asked.size, strict).reader;
        let mut rust = Rust::new(&request, asked.size);
        let mut rest = &exchanged[..];
        for chunk in cut(&mut trial.random, &stream) {
            let (beside, behind) = rest.split_at(chunk.len());
            rest = behind;
            let said = model.push(chunk);
            let wanted = modelled(&model, said);
            let _ = rust.push(beside);
            let all = exposed::reader_fields(&rust).discarded as u32;
            for (status, took, mark, tally) in each_form(reader, chunk) {
                let tally = trial.port.answered(tally);
                let found = (status, took, mark, tally);
                trial.check((wanted, all), (found, discarded_in(&tally).all()), || {
                    format!("{} stream {stream:02X?}", asked.command)
                });
            }
            reader = reader.push(chunk).reader;
        }
    }
}

/// Every other time each count is as likely to be small as large.
fn sums(trial: &mut Trial) {
    for round in 0..trial.rounds(20_000) {
        let most = if round % 2 == 0 { 1 } else { 32 };
        let tally = [(); 7].map(|()| trial.random.word() >> trial.random.below(most));
        let Discarded {
            noise,
            sum,
            command,
            number,
            echo,
        } = discarded_in(&tally);
        let five = [noise, sum, command, number, echo];
        let all = trial.port.answered(discarded_in(&tally).all());
        let wanted = tally[1..6]
            .iter()
            .map(|count| u64::from(*count))
            .sum::<u64>();
        trial.check((&tally[1..6], wanted as u32), (&five[..], all), || {
            format!("{tally:?}")
        });
    }
}
