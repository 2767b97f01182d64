//! What the writers stand on: a frame of any sender and command, a frame put at any place, flags as the bits of a byte.

use crate::frames::{self, FRAME, START};
use crate::random::Random;
use crate::trial::{Part, Trial};
use translated::{frame, wire, writing};

pub const PARTS: &[Part] = &[
    Part::new(
        "framed",
        "every address with every command",
        256 * 256,
        framed,
    ),
    Part::new(
        "put_frame",
        "every room to 40, every place about it",
        41 * 44,
        put,
    ),
    Part::new("byte_of", "any flags, from any place", 4 * 41 * 44, packed),
];

/// Any place from 0 to two behind these, and the last there is.
fn places(end: usize) -> impl Iterator<Item = usize> {
    (0..=end + 2).chain([usize::MAX])
}

fn any_frame(random: &mut Random) -> [u8; FRAME] {
    std::array::from_fn(|_| random.byte())
}

fn framed(trial: &mut Trial) {
    for both in (0..=u16::MAX).step_by(trial.stride()) {
        let [address, command] = both.to_le_bytes();
        let mut wanted = any_frame(&mut trial.random);
        wanted[..4].copy_from_slice(&[START, address, command, 8]);
        frames::put_sum(&mut wanted);
        let payload = std::array::from_fn(|place| wanted[4 + place]);
        let ours = trial
            .port
            .answered(frame::framed(address, command, payload));
        trial.check(wanted, ours, || format!("payload {payload:02X?}"));
    }
}

/// Where there is no room for all 13 bytes, none is put. What is not lent stays.
fn put(trial: &mut Trial) {
    for room in 0..=40 {
        let before: [u8; 64] = std::array::from_fn(|_| trial.random.byte());
        for at in places(40) {
            let bytes = any_frame(&mut trial.random);
            let (mut wanted, mut ours) = (before, before);
            if let Some(end) = at.checked_add(FRAME).filter(|end| *end <= room) {
                wanted[at..end].copy_from_slice(&bytes);
            }
            writing::put_frame(bytes, &mut ours[..room], at);
            let ours = trial.port.answered(ours);
            trial.check(wanted, ours, || format!("room {room} at {at}"));
        }
    }
}

/// The lowest bit first; a byte has room for eight.
fn packed(trial: &mut Trial) {
    for length in 0..=40 {
        let flags: Vec<bool> = (0..length).map(|_| trial.random.below(2) == 1).collect();
        for from in places(40) {
            for n in [0, 1 + trial.random.below(7), 8, 9 + trial.random.below(99)] {
                let set = flags.iter().skip(from).take(n.min(8)).enumerate();
                let rule = set.fold(0, |byte, (bit, flag)| byte | u8::from(*flag) << bit);
                let ours = trial.port.answered(wire::byte_of(&flags, from, n));
                trial.check(rule, ours, || format!("{n} from {from} of {flags:?}"));
            }
        }
    }
}
