//! The listed differences: what the Rust answers, and what the drop-in does.

use crate::answer::{Answer, Value};
use crate::frames::{self, FRAME};
use crate::question::Question;
use crate::trial::{say, Part, Trial};

pub const PARTS: &[Part] = &[
    Part {
        name: "listed difference: every unknown mode; the Rust panics, UnknownMode",
        minimum: 506,
        ask: unknown_mode,
    },
    Part {
        name: "listed difference: 255 temperatures; the Rust gives 259, the first 255",
        minimum: 200,
        ask: temperatures_255,
    },
    Part {
        name: "listed difference: a reader for a short request; the Rust panics, RequestTooShort",
        minimum: 200,
        ask: short_request,
    },
    Part {
        name: "listed difference: a reader for over 1,105 bytes; the Rust takes it, ReplyTooLong",
        minimum: 200,
        ask: long_reply,
    },
];

fn unknown_mode(trial: &mut Trial) {
    for mode in 3..=255 {
        let reply = frames::frame(&mut trial.random, 0x93, &[mode]);
        let question = Question::Decode {
            command: 0x93,
            count: 0,
            reply,
        };
        trial.differ(question, &Answer::Panicked, &Answer::refused("UnknownMode"));
    }
}

/// The last frame has 7 bytes for 3 sensors; the Rust's counter has wrapped, and it takes them all.
fn temperatures_255(trial: &mut Trial) {
    for _ in 0..trial.rounds(100) {
        let reply = frames::numbered(&mut trial.random, 0x96, 37);
        let values = (0..37 * 7).map(|n| reply[FRAME * (n / 7) + 5 + n % 7]);
        let values = values
            .map(|byte| Value::Whole(i64::from(byte) - 40))
            .collect::<Vec<_>>();
        let first = Answer::Values(values[..255].to_vec());
        let question = Question::Decode {
            command: 0x96,
            count: 255,
            reply,
        };
        trial.differ(question, &Answer::Values(values), &first);
    }
}

/// What a refused reader answers, after each of so many pushes too.
fn refused_reader(name: &str, pushes: usize) -> Answer {
    let state = [Value::Flag(false), Value::Whole(13)];
    let mut values = state.to_vec();
    for _ in 0..pushes {
        values.push(Value::Text(name.to_string()));
        values.extend(state.clone());
    }
    values.push(Value::Bytes(Vec::new()));
    Answer::Values(values)
}

/// Short requests with sizes that would do, and too long ones: the request is judged first.
fn short_request(trial: &mut Trial) {
    for _ in 0..trial.rounds(100) {
        let random = &mut trial.random;
        let length = random.below(3);
        let request = random.bytes(length);
        let size = [random.below(1_106), 1_106, usize::MAX][random.below(3)];
        let frame = frames::frame(random, 0x90, &[1]);
        let pushes = random.below(3);
        let ours = refused_reader("RequestTooShort", pushes);
        let question = Question::Read {
            request,
            size,
            stream: frame.repeat(pushes),
            cuttings: vec![vec![FRAME; pushes]],
        };
        trial.differ(question, &Answer::Panicked, &ours);
    }
}

/// The Rust goes on and collects.
fn long_reply(trial: &mut Trial) {
    for more in 1..=trial.rounds(100) as usize {
        let frame = frames::frame(&mut trial.random, 0x95, &[1]);
        let question = Question::Read {
            request: frame.clone(),
            size: 1_105 + more * more,
            stream: frame.clone(),
            cuttings: vec![vec![FRAME, 0]],
        };
        let state = [Value::Flag(false), Value::Whole(13)];
        let taken = [&[Value::Flag(true)], &state[..]].concat();
        let bytes = [Value::Bytes(frame)];
        let of_rust = Answer::Values([&state[..], &taken, &taken, &bytes].concat());
        trial.differ(question, &of_rust, &refused_reader("ReplyTooLong", 2));
    }
}

/// What the drop-in has and the Rust has not: a refused reader says so, and no other does.
pub fn refusal() -> bool {
    let asked = [(13, 1_105), (3, 0), (13, 1_106), (2, 13), (2, 1_106)];
    let told = asked.map(|(length, size)| {
        let reader = daly::protocol::FrameReader::new(&[0; 13][..length], size);
        reader.refusal().map(|error| format!("{error:?}"))
    });
    let told = told.each_ref().map(Option::as_deref);
    let short = Some("RequestTooShort");
    let good = told == [None, None, Some("ReplyTooLong"), short, short];
    say(
        good,
        &format!(
            "FrameReader::refusal, which the Rust has not: {} cases",
            asked.len()
        ),
    );
    good
}
