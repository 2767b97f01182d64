//! What the reader's rules turn on: 512 bytes, the last frame, the first frame again, held bytes.

use crate::inputs::*;
use crate::part::{cases, Case, Part};
use reference::frames::{FRAME, START};
use reference::random::Random;
use reference::reader::discards::{discarding, OTHER_NUMBERS, RULES};
use reference::reader::streams::{self, Asked};

/// Bytes discarded, about the number that may be.
const ABOUT_512: [usize; 4] = [511, 512, 513, 514];

pub const PARTS: &[Part] = &[
    Part::new(
        "511 to 514 discarded before the reply, by each rule",
        5 * 4 * 2 * 9,
        before,
    ),
    Part::new(
        "511 to 514 discarded between frames, by each rule",
        5 * 4 * 2 * 6,
        between,
    ),
    Part::new(
        "511 to 514 bytes of noise in the midst of a frame",
        9 * 4 * 3,
        midst,
    ),
    Part::new(
        "511 to 514 bytes of noise after the last frame, or where it lacks",
        9 * 4 * 2,
        after,
    ),
    Part::new("bytes after the reply", 9 * 7 * 3, trailing),
    Part::new(
        "boards that begin again, at every count of frames",
        480,
        again,
    ),
    Part::new("our own question come back", 9 * 6 * 4, echoes),
    Part::new("empty lists, with any stream behind them", 3 * 24, empty),
    Part::new("1 to 12 bytes held at the end", 9 * 12 * 3, held),
];

/// A command and count for which the rule applies.
fn for_rule(random: &mut Random, rule: usize) -> (u8, u8) {
    let numbered = (NUMBERED[random.below(2)], 8 + random.below(30) as u8);
    match rule {
        OTHER_NUMBERS => numbered,
        _ if random.below(2) == 0 => numbered,
        _ => drawn(random),
    }
}

/// Complete or with the last frame lacking.
fn before(random: &mut Random) -> Vec<Case> {
    let mut inputs = Vec::new();
    for case in 0..5 * 4 * 2 * 9 {
        let (rule, count) = (case % 5, ABOUT_512[case / 5 % 4]);
        let (command, values) = for_rule(random, rule);
        let asked = asked(command, values);
        let last = asked.wanted.saturating_sub(case / 20 % 2);
        let stream = discarding(random, asked, rule, count, last);
        inputs.push(input(command, values, &stream));
    }
    cases(random, inputs)
}

/// In one piece between two frames, or in two.
fn between(random: &mut Random) -> Vec<Case> {
    let mut inputs = Vec::new();
    for case in 0..5 * 4 * 2 * 6 {
        let (rule, count) = (case % 5, ABOUT_512[case / 5 % 4]);
        let (command, values) = for_rule(random, OTHER_NUMBERS);
        let asked = asked(command, values);
        let front = if case / 20 % 2 == 0 {
            0
        } else {
            100 + random.below(300)
        };
        let place = 1 + random.below(asked.wanted - 1);
        let stream = [
            noise(random, front),
            streams::run(random, asked, 1, place),
            RULES[rule](random, asked, count - front),
            streams::run(random, asked, place + 1, asked.wanted),
        ];
        inputs.push(input(command, values, &stream.concat()));
    }
    cases(random, inputs)
}

/// The broken frame is discarded too, so its bytes are part of the number. A whole reply follows.
fn midst(random: &mut Random) -> Vec<Case> {
    let mut inputs = Vec::new();
    for command in COMMANDS {
        for count in ABOUT_512.iter().flat_map(|count| [*count; 3]) {
            let values = 1 + random.below(40) as u8;
            let broken = reply(random, command, values);
            let place = 1 + random.below(FRAME - 1);
            let (begin, end) = broken[..FRAME].split_at(place);
            let noise = noise(random, count - FRAME);
            let whole = reply(random, command, values);
            let stream = [begin, &noise, end, &whole].concat();
            inputs.push(input(command, values, &stream));
        }
    }
    cases(random, inputs)
}

fn after(random: &mut Random) -> Vec<Case> {
    let mut inputs = Vec::new();
    for command in COMMANDS {
        for count in ABOUT_512 {
            for lacking in [0, FRAME] {
                let values = 1 + random.below(40) as u8;
                let reply = reply(random, command, values);
                let noise = noise(random, count);
                let stream = [&reply[..reply.len() - lacking], &noise].concat();
                inputs.push(input(command, values, &stream));
            }
        }
    }
    cases(random, inputs)
}

/// A byte, a start, a frame's beginning, noise, noise over 512, the question, the reply again.
fn trailing(random: &mut Random) -> Vec<Case> {
    let mut inputs = Vec::new();
    for command in COMMANDS {
        for count in [1, 9, 255] {
            let again = reply(random, command, count);
            let short = 1 + random.below(40);
            let behind = [
                vec![0],
                vec![START; 14],
                again[..FRAME - 1].to_vec(),
                noise(random, short),
                noise(random, 600),
                question(command),
                again,
            ];
            for behind in behind {
                let reply = reply(random, command, count);
                inputs.push(input(command, count, &[reply, behind].concat()));
            }
        }
    }
    cases(random, inputs)
}

/// Once, twice or often, now and then without the end.
fn again(random: &mut Random) -> Vec<Case> {
    let mut inputs = Vec::new();
    for (command, per_frame, most) in [(0x95, 3, 85), (0x96, 7, 37)] {
        for wanted in (2..=most).flat_map(|wanted| [wanted; 4]) {
            let count = (per_frame * wanted).min(255) as u8;
            let asked = asked(command, count);
            let mut stream = Vec::new();
            for _ in 0..[1, 2, 20][random.below(3)] {
                let place = 1 + random.below(wanted - 1);
                stream.extend(streams::run(random, asked, 1, place));
            }
            if random.below(4) > 0 {
                stream.extend(streams::clean(random, asked));
            }
            inputs.push(input(command, count, &stream));
        }
    }
    cases(random, inputs)
}

/// Alone, before the reply, in the midst of it and often.
fn echoes(random: &mut Random) -> Vec<Case> {
    let mut inputs = Vec::new();
    for command in COMMANDS {
        for count in [1, 3, 7, 8, 48, 255] {
            let question = question(command);
            let reply = reply(random, command, count);
            let streams = [
                question.clone(),
                [&question[..], &reply].concat(),
                [&reply[..FRAME], &question, &reply[FRAME..]].concat(),
                [&question.repeat(38 + random.below(4)), &reply[..]].concat(),
            ];
            inputs.extend(streams.map(|stream| input(command, count, &stream)));
        }
    }
    cases(random, inputs)
}

/// Of 95 and 96 nothing is taken; 97 has a flag even so.
fn empty(random: &mut Random) -> Vec<Case> {
    let mut inputs = Vec::new();
    for command in [0x95, 0x96, 0x97] {
        let one = Asked {
            wanted: 1,
            ..asked(command, 0)
        };
        for round in 0..24 {
            let stream = match round % 6 {
                0 => reply(random, command, 1),
                1 => noise(random, 513),
                2 => question(command),
                3 => vec![START; 1 + round],
                _ => streams::mixed(random, one),
            };
            inputs.push(input(command, 0, &stream));
        }
    }
    cases(random, inputs)
}

/// The beginning of a frame: alone, after noise, or where the last frame is to come.
fn held(random: &mut Random) -> Vec<Case> {
    let mut inputs = Vec::new();
    for command in COMMANDS {
        for bytes in 1..FRAME {
            let begun = &reply(random, command, 1)[..bytes];
            let mut starts = vec![START; bytes];
            starts[bytes / 2..].fill(0x01);
            let reply = reply(random, command, 20);
            let all_but_last = &reply[..reply.len() - FRAME];
            let noise = noise(random, bytes);
            let streams = [
                begun.to_vec(),
                [&noise, begun].concat(),
                [all_but_last, begun].concat(),
                starts,
            ];
            inputs.extend(streams.map(|stream| input(command, 20, &stream)));
        }
    }
    cases(random, inputs)
}
