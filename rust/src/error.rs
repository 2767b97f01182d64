//! The refusals of the library, as errors.

use std::fmt::{self, Display, Formatter};

/// Why there is no reading. The first four are those of `dalybms_lib`; more may come, so a `match` needs a `_`.
#[derive(Clone, Copy, Debug, PartialEq, Eq)]
#[non_exhaustive]
pub enum Error {
    /// The reply is shorter than needed.
    ReplySizeError,
    /// The reply does not begin with A5 or answers another command; of a push: more than 512 bytes were
    /// discarded.
    UnexpectedFrame,
    /// The sum is wrong.
    CheckSumError,
    /// The frames of the reply are not in order.
    FrameNoError,
    /// A 93 reply has a mode other than 0, 1 and 2. `dalybms_lib` panics.
    UnknownMode,
    /// A reader was made for more than 1,105 bytes. `dalybms_lib` takes it.
    ReplyTooLong,
    /// A reader was made for a request of fewer than 3 bytes. `dalybms_lib` panics.
    RequestTooShort,
    /// The reader's fields contradict one another. No reader of this crate comes to it.
    BadState,
    /// A pack check has more than 255 cells. `dalybms_lib` has no pack check.
    CountTooLarge,
    /// The library answered this number, which it is proved not to do: another library was linked.
    Impossible(u8),
}

impl Error {
    /// The library's number as a result; 0 is done.
    #[inline]
    pub(crate) fn check(number: u8) -> Result<(), Self> {
        match number {
            0 => Ok(()),
            refusal => Err(Self::refusal(refusal)),
        }
    }

    #[cold]
    fn refusal(number: u8) -> Self {
        match number {
            1 => Self::ReplySizeError,
            2 => Self::UnexpectedFrame,
            3 => Self::CheckSumError,
            4 => Self::FrameNoError,
            5 => Self::UnknownMode,
            6 => Self::ReplyTooLong,
            7 => Self::RequestTooShort,
            8 => Self::BadState,
            11 => Self::CountTooLarge,
            other => Self::Impossible(other),
        }
    }

    /// The refusal's number, as the library and `readreply` tell it.
    ///
    /// ```
    /// use daly::{protocol::Soc, Error};
    ///
    /// assert_eq!(Soc::decode(&[]).map_err(Error::number).unwrap_err(), 1);
    /// assert_eq!(Error::CountTooLarge.number(), 11);
    /// ```
    pub fn number(self) -> u8 {
        match self {
            Self::ReplySizeError => 1,
            Self::UnexpectedFrame => 2,
            Self::CheckSumError => 3,
            Self::FrameNoError => 4,
            Self::UnknownMode => 5,
            Self::ReplyTooLong => 6,
            Self::RequestTooShort => 7,
            Self::BadState => 8,
            Self::CountTooLarge => 11,
            Self::Impossible(number) => number,
        }
    }
}

/// Words of this crate's own.
impl Display for Error {
    fn fmt(&self, f: &mut Formatter<'_>) -> fmt::Result {
        f.write_str(match self {
            Self::ReplySizeError => "the reply is too short",
            Self::UnexpectedFrame => "no frame of the reply, or too many bytes discarded",
            Self::CheckSumError => "the sum is wrong",
            Self::FrameNoError => "the frames are not in order",
            Self::UnknownMode => "the mode is unknown",
            Self::ReplyTooLong => "the reader has no room for such a reply",
            Self::RequestTooShort => "the request is too short",
            Self::BadState => "the reader's state is bad",
            Self::CountTooLarge => "the cells are too many",
            Self::Impossible(number) => return write!(f, "the library answered {number}"),
        })
    }
}

impl std::error::Error for Error {}
