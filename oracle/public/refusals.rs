//! The numbers of answers, beside the documents' tables of refusals.

use crate::trial::{Part, Trial};
use translated::frame::{number_of, FrameKind, Refusal};
use translated::list::ListTold;
use translated::pack::PackCheck;

pub const PARTS: &[Part] = &[
    Part::new(
        "numbers",
        "of every refusal, in each kind of answer",
        6 * 12,
        refused,
    ),
    Part::new("numbers", "0 where there is an answer", 7 * 1_000, given),
];

/// Document 01's refusals, 1 to 11, in its order, and document 02's 12.
const REFUSALS: [Refusal; 12] = [
    Refusal::ReplySizeError,
    Refusal::UnexpectedFrame,
    Refusal::CheckSumError,
    Refusal::FrameNoError,
    Refusal::UnknownMode,
    Refusal::ReplyTooLong,
    Refusal::RequestTooShort,
    Refusal::BadState,
    Refusal::NoRoom,
    Refusal::UnknownCommand,
    Refusal::CountTooLarge,
    Refusal::ValueOutOfRange,
];

fn compare(trial: &mut Trial, known: u8, ours: u8, kind: &str) {
    let ours = trial.port.answered(ours);
    trial.check(known, ours, || format!("{kind} of {known}"));
}

fn refused(trial: &mut Trial) {
    for (known, refusal) in (1..).zip(REFUSALS) {
        compare(trial, known, u8::from(refusal), "Refusal");
        compare(trial, known, number_of(Err::<(), _>(refusal)), "a check");
        let kind = Err::<FrameKind, _>(refusal);
        compare(trial, known, number_of(kind), "a frame's kind");
        let told = ListTold::from(Err(refusal));
        compare(trial, known, told.number, "a list");
        compare(trial, 0, told.count as u8, "a list's count");
        let pack = Err::<PackCheck, _>(refusal);
        compare(trial, known, number_of(pack), "a pack");
    }
}

fn given(trial: &mut Trial) {
    for _ in 0..trial.rounds(1_000) {
        compare(trial, 0, number_of(Ok(())), "a check");
        for kind in [FrameKind::FromBoard, FrameKind::Echo] {
            compare(trial, 0, number_of(Ok(kind)), "a frame's kind");
        }
        let count = trial.random.next() as usize;
        compare(trial, 0, number_of(Ok(count)), "a list");
        let told = ListTold::from(Ok(count));
        let ours = trial.port.answered([usize::from(told.number), told.count]);
        trial.check([0, count], ours, || format!("a list of {count}"));
        for agrees in [false, true] {
            let difference = trial.random.word() as i32;
            let check = PackCheck { difference, agrees };
            compare(trial, 0, number_of(Ok(check)), "a pack");
        }
    }
}
