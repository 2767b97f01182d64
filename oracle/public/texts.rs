//! Text in a lent buffer, beside what `format!` makes: at places in it, at its end and past it.

use crate::told::Answer;
use crate::trial::{Part, Trial};
use translated::report::{self, Tally};
use translated::text::Text;

pub const PARTS: &[Part] = &[
    Part::new(
        "text",
        "each function, anywhere in a buffer and past it",
        8 * 10_000,
        texts,
    ),
    Part::new(
        "put_field and put_line",
        "each kind of value, and a line for each of several",
        16 * 10_000,
        kinds,
    ),
    Part::new("put_hex2", "every byte", 256 * 7, every_byte),
    Part::new(
        "report",
        "every command that cannot be asked",
        247 * 40,
        unknown,
    ),
];

/// What a function answered, and the whole buffer after the call.
#[derive(Debug, PartialEq)]
struct Put {
    next: usize,
    buffer: Vec<u8>,
}

impl Answer for Put {
    fn flip(&mut self, bit: usize) {
        if self.buffer.is_empty() || bit % 2 == 0 {
            self.next.flip(bit / 2);
        } else {
            self.buffer.flip(bit / 2);
        }
    }
}

/// The text from this place on, as far as the buffer goes.
fn rule(mut buffer: Vec<u8>, at: usize, text: &str) -> Put {
    for (place, byte) in (at..=usize::MAX).zip(text.bytes()) {
        if place < buffer.len() {
            buffer[place] = byte;
        }
    }
    let next = at.saturating_add(text.len());
    Put { next, buffer }
}

/// What a text's own methods put from a place on, and the place behind it.
fn texted(out: &mut [u8], at: usize, put: impl FnOnce(&mut Text)) -> usize {
    let mut text = Text { out, at };
    put(&mut text);
    text.at
}

/// One call, in a drawn buffer.
fn compare(
    trial: &mut Trial,
    at: usize,
    length: usize,
    text: &str,
    put: impl FnOnce(&mut [u8]) -> usize,
) {
    let before = trial.random.bytes(length);
    let mut buffer = before.clone();
    let next = put(&mut buffer);
    let ours = trial.port.answered(Put { next, buffer });
    trial.check(rule(before, at, text), ours, || {
        format!("at {at} length {length} text {text:?}")
    });
}

/// Most often in the buffer, else about its end or about the largest place.
fn drawn_at(trial: &mut Trial, length: usize) -> usize {
    match trial.random.below(4) {
        0 => (length + 2).saturating_sub(trial.random.below(5)),
        1 => usize::MAX - trial.random.below(24),
        _ => trial.random.below(length + 1),
    }
}

/// What is drawn for a call: the buffer's length, the place, and a name of up to 13 letters.
fn drawn(trial: &mut Trial) -> (usize, usize, &'static str) {
    let length = trial.random.below(60);
    let at = drawn_at(trial, length);
    (length, at, &"total_voltage"[..trial.random.below(14)])
}

fn texts(trial: &mut Trial) {
    for _ in 0..trial.rounds(10_000) {
        let (length, at, word) = drawn(trial);
        let fewer = trial.random.below(64);
        let n = trial.random.next() >> fewer;
        let z = (trial.random.word() as i32) >> (fewer / 2);
        let byte = trial.random.byte();
        let letter = char::from(b'a' + byte % 26);
        let name = word.as_bytes();
        let mut put = |text: String, put: &dyn Fn(&mut Text)| {
            compare(trial, at, length, &text, |out| texted(out, at, put));
        };
        put(letter.to_string(), &|text| text.put_byte(letter as u8));
        put(word.to_string(), &|text| text.put_word(name));
        put(n.to_string(), &|text| text.put_decimal(n));
        put(z.to_string(), &|text| text.put_signed(z));
        put(format!("{byte:02X}"), &|text| text.put_hex2(byte));
        put(format!("{word} {n}"), &|text| text.put_field(name, n));
        put(format!("{word} {n}\n"), &|text| text.put_line(name, n));
        put(format!("{word} {z}\n"), &|text| text.put_line(name, z));
    }
}

/// A flag is 0 or 1.
fn kinds(trial: &mut Trial) {
    for _ in 0..trial.rounds(10_000) {
        let (length, at, word) = drawn(trial);
        let (name, fewer) = (word.as_bytes(), trial.random.below(64));
        let wide = trial.random.next() >> fewer;
        let values = trial.random.bytes(length / 8);
        let mut put = |text: String, put: &dyn Fn(&mut Text)| {
            compare(trial, at, length, &text, |out| texted(out, at, put));
        };
        macro_rules! of_kinds {
            ($($kind:ty)*) => {$(
                let value = wide as $kind;
                put(format!("{word} {value}"), &|text| text.put_field(name, value));
                put(format!("{word} {value}\n"), &|text| text.put_line(name, value));
            )*};
        }
        of_kinds!(u8 u16 u32 usize i8 i32);
        let flag = wide % 2 == 1;
        let digit = u8::from(flag);
        put(format!("{word} {digit}"), &|text| text.put_field(name, flag));
        put(format!("{word} {digit}\n"), &|text| text.put_line(name, flag));
        let each = |value: &u8| format!("{word} {value}\n");
        let lines: String = values.iter().map(each).collect();
        put(lines, &|text| text.put_lines(name, &values));
        let each = |value: &u8| format!("{word} {}\n", *value as i8);
        let lines: String = values.iter().map(each).collect();
        let values: Vec<i8> = values.iter().map(|value| *value as i8).collect();
        put(lines, &|text| text.put_lines(name, &values));
    }
}

/// In a buffer of three places: at each, at its end, past it, and at the largest places.
fn every_byte(trial: &mut Trial) {
    for byte in 0..=255 {
        for at in [0, 1, 2, 3, 4, usize::MAX - 1, usize::MAX] {
            compare(trial, at, 3, &format!("{byte:02X}"), |out| {
                texted(out, at, |text| text.put_hex2(byte))
            });
        }
    }
}

/// The counts line, and then 10, or 2 where that is the status.
fn unknown(trial: &mut Trial) {
    for command in (0..=255).filter(|command| !(0x90..=0x98).contains(command)) {
        for round in 0..trial.rounds(40) {
            let (taken, discarded, cleared) = (
                trial.random.word(),
                trial.random.word(),
                trial.random.word(),
            );
            let (held, frames) = (trial.random.below(13), trial.random.below(86));
            let [noise, sum, other, number, echo] = [(); 5].map(|()| trial.random.word());
            let (status, refusal) = if round % 2 == 0 { (0, 10) } else { (2, 2) };
            let text = format!(
                "reply {command:02X} taken {taken} held {held} frames {frames} discarded {discarded} cleared {cleared} \
                 noise {noise} sum {sum} command {other} number {number} echo {echo}\n\
                 refused {refusal}\n"
            );
            let tally = Tally {
                taken,
                held,
                frames,
                discarded,
                cleared,
                noise,
                sum,
                command: other,
                number,
                echo,
            };
            let count = trial.random.byte();
            let reply = trial.random.bytes(frames);
            let length = trial.random.below(240);
            compare(trial, 0, length, &text, |out| {
                report::report(command, count, tally, &reply, status, out)
            });
        }
    }
}
