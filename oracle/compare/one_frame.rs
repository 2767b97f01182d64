//! One-frame replies, right and wrong, for all that reads them.

use crate::frames::{self, DATA, FRAME};
use crate::random::Random;
use crate::trial::{Part, Trial};

/// What reads one-frame replies: the frame check, and every decoder of such a reply.
pub trait Reads {
    /// A command whose replies it reads.
    fn command(random: &mut Random) -> u8;

    /// Asks both sides, and counts one case: they must agree, and where the number is known
    /// beforehand it must be theirs.
    fn compare(trial: &mut Trial, reply: &[u8], command: u8, known: Option<u8>);
}

/// For every reader.
pub const fn parts<R: Reads>(of: &'static str) -> [Part; 6] {
    [
        Part::new(
            of,
            "right replies of 13 to 40 and 1,105 bytes",
            20_000,
            right::<R>,
        ),
        Part::new(of, "0 to 12 bytes", 20_000, short::<R>),
        Part::new(
            of,
            "a right frame with bytes after it",
            20_000,
            prolonged::<R>,
        ),
        Part::new(of, "every bit and byte damaged", 300_000, damaged::<R>),
        Part::new(of, "wrong start byte or command", 30_000, wrong_header::<R>),
        Part::new(of, "drawn replies", 1_000_000, drawn::<R>),
    ]
}

/// For every reader of data.
pub const fn data_part<R: Reads>(of: &'static str) -> Part {
    Part::new(
        of,
        "every value of every two neighbouring data bytes",
        7 << 16,
        neighbours::<R>,
    )
}

/// For what looks at the address, of every command.
pub const fn address_part<R: Reads>(of: &'static str) -> Part {
    Part::new(
        of,
        "every address with every command: sound, another command, short, a wrong sum",
        256 * 256 * 4,
        addresses::<R>,
    )
}

fn right<R: Reads>(trial: &mut Trial) {
    for length in frames::lengths(FRAME) {
        for _ in 0..trial.rounds(840) {
            let command = R::command(&mut trial.random);
            let reply = frames::reply(&mut trial.random, command, length);
            R::compare(trial, &reply, command, Some(0));
        }
    }
}

fn short<R: Reads>(trial: &mut Trial) {
    for length in 0..FRAME {
        for _ in 0..trial.rounds(840) {
            let command = R::command(&mut trial.random);
            let right = frames::reply(&mut trial.random, command, length);
            R::compare(trial, &right, command, Some(1));
            let wrong = trial.random.bytes(length);
            R::compare(trial, &wrong, command, Some(1));
        }
    }
}

/// The buffer is summed whole, so the first 13 bytes being right is not enough.
fn prolonged<R: Reads>(trial: &mut Trial) {
    for length in frames::lengths(FRAME + 1) {
        for _ in 0..trial.rounds(315) {
            let command = R::command(&mut trial.random);
            let mut reply = frames::reply(&mut trial.random, command, FRAME);
            reply.resize(length, 0);
            R::compare(trial, &reply, command, Some(sum_refusal(&reply)));
            trial.random.fill(&mut reply[FRAME..]);
            R::compare(trial, &reply, command, Some(sum_refusal(&reply)));
            frames::put_sum(&mut reply);
            R::compare(trial, &reply, command, Some(0));
        }
    }
}

fn sum_refusal(reply: &[u8]) -> u8 {
    if frames::has_right_sum(reply) {
        0
    } else {
        3
    }
}

fn damaged<R: Reads>(trial: &mut Trial) {
    for length in frames::lengths(FRAME) {
        for _ in 0..trial.rounds(21) {
            let command = R::command(&mut trial.random);
            let mut reply = frames::reply(&mut trial.random, command, length);
            for place in 0..length {
                let known = if place == 0 || place == 2 { 2 } else { 3 };
                let drawn = trial.random.change();
                for change in (0..8).map(|bit| 1 << bit).chain([drawn]) {
                    reply[place] ^= change;
                    R::compare(trial, &reply, command, Some(known));
                    reply[place] ^= change;
                }
            }
        }
    }
}

/// With a right and with a wrong sum: the header is judged first.
fn wrong_header<R: Reads>(trial: &mut Trial) {
    for change in 1..=255 {
        for places in [&[0][..], &[2], &[0, 2]] {
            for _ in 0..trial.rounds(21) {
                let command = R::command(&mut trial.random);
                let length = FRAME + trial.random.below(28);
                let mut reply = frames::reply(&mut trial.random, command, length);
                for place in places {
                    reply[*place] ^= change;
                }
                frames::put_sum(&mut reply);
                R::compare(trial, &reply, command, Some(2));
                reply[length - 1] ^= trial.random.change();
                R::compare(trial, &reply, command, Some(2));
            }
        }
    }
}

fn drawn<R: Reads>(trial: &mut Trial) {
    for _ in 0..trial.rounds(1_000_000) {
        let command = R::command(&mut trial.random);
        let reply = frames::any_reply(&mut trial.random, command);
        R::compare(trial, &reply, command, None);
    }
}

/// Every value of every two neighbouring data bytes: so every two-byte count and every byte.
fn neighbours<R: Reads>(trial: &mut Trial) {
    for place in DATA..FRAME - 2 {
        for value in (0..=u16::MAX).step_by(trial.stride()) {
            let command = R::command(&mut trial.random);
            let mut reply = frames::reply(&mut trial.random, command, FRAME);
            reply[place..place + 2].copy_from_slice(&value.to_be_bytes());
            frames::put_sum(&mut reply);
            R::compare(trial, &reply, command, Some(0));
        }
    }
}

fn addresses<R: Reads>(trial: &mut Trial) {
    for command in (0..=255).step_by(trial.stride()) {
        for address in 0..=255 {
            let length = FRAME + trial.random.below(28);
            let mut reply = frames::reply(&mut trial.random, command, length);
            reply[1] = address;
            frames::put_sum(&mut reply);
            let other = command ^ trial.random.change();
            R::compare(trial, &reply, command, Some(0));
            R::compare(trial, &reply, other, Some(2));
            R::compare(trial, &reply[..FRAME - 1], command, Some(1));
            reply[length - 1] ^= trial.random.change();
            R::compare(trial, &reply, command, Some(3));
        }
    }
}
