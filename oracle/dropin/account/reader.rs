//! A reader's account and counts, and what a push took, beside the model of the reader's rules and the Rust's reader.

use super::whole;
use crate::answer::{Answer, Value};
use crate::frames::{self, FRAME};
use crate::question::Question;
use crate::reader::exchange::exchange;
use crate::reader::model::Model;
use crate::readers::KINDS;
use crate::streams::{self, Asked};
use crate::trial::Trial;
use daly::account::Discarded;
use daly::protocol::FrameReader;
use daly::Error;
use dalybms_lib::protocol::{exposed, FrameReader as Rust};

/// The reader's account, and whether its parts make up what was taken; and its counts, with document 02's five (K3).
fn accounted(reader: &FrameReader) -> Vec<Value> {
    let (account, counts) = (reader.account(), reader.counts());
    let frames = (account.collected as u32).wrapping_add(account.cleared);
    let bytes = (account.held as u32).wrapping_add(account.discarded);
    vec![
        whole(account.taken),
        whole(account.discarded),
        whole(account.cleared),
        Value::Whole(account.wanted as i64),
        Value::Whole(account.collected as i64),
        Value::Whole(account.held as i64),
        Value::Flag(account.mark),
        Value::Flag(account.taken == frames.wrapping_mul(13).wrapping_add(bytes)),
        Value::Flag(reader.is_complete()),
        Value::Whole(reader.missing() as i64),
        whole(counts.taken),
        whole(counts.cleared),
        whole(counts.discarded.noise),
        whole(counts.discarded.sum),
        whole(counts.discarded.command),
        whole(counts.discarded.number),
        whole(counts.discarded.echo),
        whole(counts.discarded.all()),
    ]
}

/// How many bytes were discarded in all the Rust decides, and about the rest the model.
fn wanted_of(model: &Model, rust: &Rust) -> Vec<Value> {
    let all = whole(exposed::reader_fields(rust).discarded as u32);
    let thrown = model.discarded;
    vec![
        whole(model.taken),
        all.clone(),
        whole(model.cleared),
        Value::Whole(model.wanted as i64),
        Value::Whole((model.collected.len() / FRAME) as i64),
        Value::Whole(model.held.len() as i64),
        Value::Flag(model.mark),
        Value::Flag(true),
        Value::Flag(model.is_complete()),
        Value::Whole(model.missing() as i64),
        whole(model.taken),
        whole(model.cleared),
        whole(thrown.noise),
        whole(thrown.sum),
        whole(thrown.command),
        whole(thrown.number),
        whole(thrown.echo),
        all,
    ]
}

/// `Discarded::all` of any five counts, every other time each as likely small as large.
pub fn sums(trial: &mut Trial) {
    for round in 0..trial.rounds(10_000) {
        let most = if round % 2 == 0 { 1 } else { 32 };
        let five = [(); 5].map(|()| trial.random.word() >> trial.random.below(most));
        let [noise, sum, command, number, echo] = five;
        let discarded = Discarded {
            noise,
            sum,
            command,
            number,
            echo,
        };
        let wanted = five.map(u64::from).iter().sum::<u64>() % (1 << 32);
        let found = Answer::Values(vec![whole(discarded.all())]);
        trial.judge(
            &Answer::Values(vec![Value::Whole(wanted as i64)]),
            found,
            &five,
        );
    }
}

pub fn readers(trial: &mut Trial) {
    for wanted in 0..=85 {
        for make in KINDS {
            for _ in 0..trial.rounds(4) {
                let asked = Asked::drawn(&mut trial.random, wanted);
                let stream = make(&mut trial.random, asked);
                push(trial, asked, &stream, false);
            }
        }
    }
}

/// The whole stream, cut at random, into a reader and into the model, and into the Rust's with its echoes exchanged.
pub fn push(trial: &mut Trial, asked: Asked, stream: &[u8], strict: bool) {
    let request = asked.request(&mut trial.random);
    let mut reader = match strict {
        true => FrameReader::new_strict(&request, asked.size),
        false => FrameReader::new(&request, asked.size),
    };
    let mut model = Model::new(asked.command, asked.size, strict);
    let mut rust = Rust::new(&request, asked.size);
    let exchanged = exchange(&mut trial.random.aside(), model.clone(), stream).bytes;
    let mut beside = &exchanged[..];
    let (mut wanted, mut found) = (wanted_of(&model, &rust), accounted(&reader));
    let chunks = streams::cut(&mut trial.random, stream);
    let lengths: Vec<usize> = chunks.iter().map(|chunk| chunk.len()).collect();
    for chunk in chunks {
        let said = model.push(chunk);
        let (theirs, behind) = beside.split_at(chunk.len());
        beside = behind;
        let _ = rust.push(theirs);
        wanted.extend([Value::Whole(said.took as i64), whole(said.status)]);
        wanted.extend(wanted_of(&model, &rust));
        let pushed = reader.push_counted(chunk);
        let number = pushed.said.map_or_else(Error::number, |()| 0);
        found.extend([Value::Whole(pushed.took as i64), whole(number)]);
        found.extend(accounted(&reader));
    }
    let question = Question::Read {
        request,
        size: asked.size,
        stream: stream.to_vec(),
        cuttings: vec![lengths],
    };
    trial.judge(&Answer::Values(wanted), Answer::Values(found), &question);
}

/// A way to make a reader.
type New = fn(&[u8], usize) -> FrameReader;

pub fn refused(trial: &mut Trial, new: New) {
    for size in (1_106..).step_by(977).take(10) {
        for (request, number) in [(&[0xA5, 0x40][..], 7), (&[0xA5, 0x40, 0x90], 6)] {
            let mut reader = new(request, size);
            let pushed = reader.push_counted(&frames::frame(&mut trial.random, 0x90, &[1]));
            let mut found = vec![Value::Whole(pushed.took as i64)];
            found.push(whole(pushed.said.map_or_else(Error::number, |()| 0)));
            found.extend(accounted(&reader));
            let mut wanted = vec![whole(0), Value::Whole(number)];
            wanted.extend(vec![whole(0); 6]);
            wanted.extend([Value::Flag(false), Value::Flag(true)]);
            wanted.extend([Value::Flag(false), whole(13)]);
            wanted.extend(vec![whole(0); 8]);
            let question = (request, size);
            trial.judge(&Answer::Values(wanted), Answer::Values(found), &question);
        }
    }
}
