//! What the library tells beyond `dalybms_lib`: what became of every byte of the line and why bytes were thrown
//! away, the board's own whole numbers, whether the cells add up to their pack, and the frames themselves.
//!
//! A reading that money depends on is kept with its account:
//!
//! ```
//! use daly::account::{cell_millivolts, pack_check};
//! use daly::protocol::{Address, CellVoltages, FrameReader};
//!
//! # fn main() -> Result<(), daly::Error> {
//! // Noise, then three cells in one frame, then what is not ours.
//! let line = [
//!     0x00, 0xFF, 0xA5, 0x01, 0x95, 0x08, 0x01, 0x0C, 0xE5, 0x0C, 0xE2, 0x0C, 0xE6, 0x00, 0x15, 0x77,
//! ];
//! let mut reader = FrameReader::new(&CellVoltages::request(Address::Host), CellVoltages::reply_size(3));
//! let pushed = reader.push_counted(&line);
//! assert_eq!((pushed.took, pushed.said), (15, Ok(())));
//!
//! let account = reader.account();
//! assert_eq!((account.taken, account.discarded, account.collected), (15, 2, 1));
//!
//! let cells = cell_millivolts(&reader.into_bytes(), 3)?;
//! assert_eq!(cells, [3301, 3298, 3302]);
//!
//! // The pack says 99 tenths of a volt.
//! let pack = pack_check(&cells, 99)?;
//! assert_eq!((pack.difference, pack.agrees), (1, true));
//! # Ok(())
//! # }
//! ```

mod counts;

pub use crate::ffi::Discarded;
use crate::{ffi, Error};
pub use counts::{cell_millivolts, CellVoltageRangeCounts, MosfetStatusCounts, SocCounts};

/// What became of the bytes that a [`FrameReader`](crate::protocol::FrameReader) took.
///
/// At all times `taken` is `held` + 13 × `collected` + `discarded` + 13 × `cleared`, modulo 2^32: this is proved.
/// Of a reader that was refused when it was made, all is zero.
#[derive(Clone, Copy, Debug, PartialEq, Eq)]
pub struct Account {
    /// Bytes taken, modulo 2^32.
    pub taken: u32,
    /// Bytes held: they may begin a frame whose end has not come.
    pub held: usize,
    /// Frames of the reply.
    pub collected: usize,
    /// Frames that the reply is to have.
    pub wanted: usize,
    /// Bytes in no frame of the reply, modulo 2^32. [`FrameReader::counts`](crate::protocol::FrameReader::counts)
    /// tells why.
    pub discarded: u32,
    /// Frames dropped because the board began its reply again, modulo 2^32.
    pub cleared: u32,
    /// Whether more than 512 bytes were ever discarded.
    pub mark: bool,
}

impl Account {
    pub(crate) fn of(counts: &ffi::Counts) -> Self {
        Self {
            taken: counts.taken,
            held: counts.held,
            collected: counts.collected,
            wanted: counts.wanted,
            discarded: counts.discarded.all(),
            cleared: counts.cleared,
            mark: counts.mark != 0,
        }
    }
}

/// What a [`FrameReader`](crate::protocol::FrameReader) has counted, and why it discarded what it did.
///
/// Of a reader that was refused when it was made, all is zero.
#[derive(Clone, Copy, Debug, PartialEq, Eq)]
pub struct Counts {
    /// Bytes taken, modulo 2^32.
    pub taken: u32,
    /// Bytes in no frame of the reply, by the reason.
    pub discarded: Discarded,
    /// Frames dropped because the board began its reply again, modulo 2^32.
    pub cleared: u32,
}

impl Counts {
    pub(crate) fn of(counts: &ffi::Counts) -> Self {
        Self {
            taken: counts.taken,
            discarded: counts.discarded,
            cleared: counts.cleared,
        }
    }
}

impl Discarded {
    /// All bytes discarded: the sum of the five, modulo 2^32. More than 512 are too many.
    ///
    /// ```
    /// use daly::account::Discarded;
    ///
    /// let discarded = Discarded { noise: 300, sum: 4, command: 26, number: 13, echo: 39 };
    /// assert_eq!(discarded.all(), 382);
    /// assert_eq!(Discarded { noise: u32::MAX, ..discarded }.all(), 81);
    /// ```
    pub fn all(self) -> u32 {
        ffi::account::discarded_all(self)
    }
}

/// What a push answers.
#[derive(Clone, Copy, Debug, PartialEq, Eq)]
#[must_use = "it may say that too many bytes were discarded"]
pub struct Pushed {
    /// How many bytes of the chunk were taken. Those behind them are the caller's: a complete reader takes none.
    pub took: usize,
    /// What `push` answers.
    pub said: Result<(), Error>,
}

/// Whether cells add up to their pack.
#[derive(Clone, Copy, Debug, PartialEq, Eq)]
pub struct PackCheck {
    /// The sum of the cells less the pack, in millivolts.
    pub difference: i32,
    /// Whether that is from −50 to 50.
    pub agrees: bool,
}

/// Holds cells, in millivolts, to the pack's total, in tenths of a volt: [`cell_millivolts`] and
/// [`SocCounts::total_voltage`]. More than 255 cells are [`Error::CountTooLarge`]; no cells agree with 0.
///
/// ```
/// use daly::account::pack_check;
///
/// let pack = pack_check(&[4350, 4350, 4350], 131).unwrap();
/// assert_eq!((pack.difference, pack.agrees), (-50, true));
/// assert!(!pack_check(&[4350, 4350, 4349], 131).unwrap().agrees);
/// ```
pub fn pack_check(cells: &[u16], total_voltage: u16) -> Result<PackCheck, Error> {
    let told = ffi::account::pack_check(cells, total_voltage)?;
    Ok(PackCheck {
        difference: told.difference,
        agrees: told.agrees != 0,
    })
}

/// The sum of all bytes but the last, modulo 256: what the last byte of a right frame is. 0 of no bytes.
///
/// ```
/// let frame = [0xA5, 0x40, 0x90, 0x08, 0, 0, 0, 0, 0, 0, 0, 0, 0x7D];
/// assert_eq!(daly::account::calc_crc(&frame), 0x7D);
/// ```
pub fn calc_crc(buffer: &[u8]) -> u8 {
    ffi::account::calc_crc(buffer)
}

/// Whether the buffer is a right frame of this command: at least 13 bytes, the start byte A5, the command and the
/// sum. The errors are those of a reply of one frame, in the same order. An echo of our own question is
/// such a frame, too.
///
/// ```
/// use daly::{account::frame_check, Error};
///
/// let frame = [0xA5, 0x40, 0x90, 0x08, 0, 0, 0, 0, 0, 0, 0, 0, 0x7D];
/// assert_eq!(frame_check(&frame, 0x90), Ok(()));
/// assert_eq!(frame_check(&frame, 0x91), Err(Error::UnexpectedFrame));
/// ```
pub fn frame_check(buffer: &[u8], command: u8) -> Result<(), Error> {
    ffi::check(buffer, command)
}

/// The 13 bytes of frame k, counted from 0, as a part of the buffer. Where it has no full frame k:
/// [`Error::ReplySizeError`].
///
/// ```
/// use daly::{account::frame, Error};
///
/// let reply = [[1; 13], [2; 13]].concat();
/// assert_eq!(frame(&reply, 1), Ok(&[2; 13][..]));
/// assert_eq!(frame(&reply, 2), Err(Error::ReplySizeError));
/// ```
pub fn frame(buffer: &[u8], k: usize) -> Result<&[u8], Error> {
    ffi::account::frame_refusal(buffer, k)?;
    let mut frames = buffer.chunks_exact(ffi::FRAME);
    frames.nth(k).ok_or(Error::Impossible(0))
}
