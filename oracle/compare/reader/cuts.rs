//! How the line cuts a stream does not matter, nor which of the pushes is asked.

use super::kinds::{chunk_size, mixture, way};
use super::port::Way;
use super::sides::{difference, shown, Difference, Sides};
use super::states;
use super::streams::{self, cut, Asked};
use super::told::*;
use super::OF;
use crate::trial::{Part, Trial};

pub const PARTS: [Part; 3] = [
    Part::new(
        OF,
        "two random cuttings, and one push of each form: the same end",
        300_000,
        cuttings,
    )
    .of_streams(20_000),
    Part::new(
        OF,
        "short streams cut in two at every place: the same end",
        100_000,
        in_two,
    )
    .of_streams(1_000),
    Part::new(OF, "every form of the push: the same answer", 400_000, ways).of_streams(100_000),
];

/// Where a reader is after a stream.
struct End {
    said: Said,
    reader: Reader,
}

fn end(trial: &mut Trial, asked: Asked, pushes: &[(Way, &[u8])]) -> Option<End> {
    let mut sides = Sides::new(trial, asked)?;
    let right = pushes
        .iter()
        .all(|(way, chunk)| sides.push(trial, *way, chunk));
    let (said, reader) = (sides.said, sides.ours);
    right.then_some(End { said, reader })
}

/// Each chunk in a way of its own.
fn in_any_way<'a>(trial: &mut Trial, chunks: &[&'a [u8]]) -> Vec<(Way, &'a [u8])> {
    let random = &mut trial.random;
    let empty: &[u8] = &[];
    // An empty stream has one chunk, since a status is of a push.
    let first = chunks.is_empty().then_some(empty);
    let chunks = chunks.iter().copied().chain(first);
    chunks.map(|chunk| (way(random), chunk)).collect()
}

type Seen = (Said, Counts, [Difference; 2]);

/// Two ends, one held against the other.
fn seen(one: &End, other: &End) -> [Seen; 2] {
    let differences = [
        difference(one.reader.collected(), other.reader.collected()),
        difference(one.reader.held(), other.reader.held()),
    ];
    [
        (one.said, one.reader.counts, [None, None]),
        (other.said, other.reader.counts, differences),
    ]
}

/// Pushes the stream in each of these cuttings: all end as the first does.
fn compare(trial: &mut Trial, asked: Asked, stream: &[u8], cuttings: &[Vec<(Way, &[u8])>]) {
    let ends = cuttings.iter().map(|pushes| end(trial, asked, pushes));
    let Some(ends) = ends.collect::<Option<Vec<End>>>() else {
        return;
    };
    for (other, cutting) in ends.iter().zip(cuttings).skip(1) {
        let [wanted, found] = seen(&ends[0], other);
        trial.check(wanted, found, || {
            let Asked { command, size, .. } = asked;
            let lengths: Vec<usize> = cutting.iter().map(|(_, chunk)| chunk.len()).collect();
            let stream = shown(stream);
            format!("command {command:02X} size {size} stream {stream} cut {lengths:?}")
        });
    }
}

fn cuttings(trial: &mut Trial) {
    for _ in 0..trial.rounds(20_000) {
        let (asked, stream) = mixture(trial, 12);
        let mut cuttings = Vec::new();
        for _ in 0..2 {
            let chunks = cut(&mut trial.random, &stream);
            cuttings.push(in_any_way(trial, &chunks));
        }
        let size = chunk_size(&mut trial.random);
        cuttings.extend(Way::all(size).map(|way| vec![(way, &stream[..])]));
        compare(trial, asked, &stream, &cuttings);
    }
}

fn in_two(trial: &mut Trial) {
    for _ in 0..trial.rounds(1_500) {
        let wanted = 1 + trial.random.below(3);
        let asked = Asked::drawn(&mut trial.random, wanted);
        let mut stream = streams::mixed(&mut trial.random, asked);
        stream.truncate(80);
        trial.streams += 1;
        let mut cuttings = vec![vec![(Way::InPlace, &stream[..])]];
        for place in 0..=stream.len() {
            let (front, back) = stream.split_at(place);
            cuttings.push(in_any_way(trial, &[front, back]));
        }
        compare(trial, asked, &stream, &cuttings);
    }
}

/// From any state: good ones, and every fourth bad.
fn ways(trial: &mut Trial) {
    for round in 0..trial.rounds(100_000) {
        let (mut reader, stream) = states::begun(&mut trial.random);
        if round % 4 == 0 {
            states::harm(&mut trial.random, &mut reader);
        }
        trial.streams += 1;
        let size = chunk_size(&mut trial.random);
        let by_value = trial.port.push(Way::ByValue, &reader, &stream);
        for way in &Way::all(size)[1..] {
            let other = trial.port.push(*way, &reader, &stream);
            trial.check(
                (by_value.said, by_value.reader.counts, None, None),
                (
                    other.said,
                    other.reader.counts,
                    difference(left(&by_value), left(&other)),
                    difference(&by_value.fence, &other.fence),
                ),
                || format!("{way:?} {} stream {}", reader.shown(), shown(&stream)),
            );
        }
    }
}

/// The specified places of the frames: all of a refusal.
fn left(after: &After) -> &[u8] {
    match after.said {
        Said::REFUSED => &after.reader.frames,
        _ => after.reader.used(),
    }
}
