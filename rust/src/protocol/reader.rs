//! The reader that finds the frames of a reply on the line.

use crate::account::{Account, Counts, Pushed};
use crate::{ffi, Error};
use std::fmt::{self, Debug, Formatter};

/// Collects the frames of the reply to a request from a noisy line, however its bytes are cut.
///
/// It begins anew at each start byte, keeps frames with the right sum and command and, where more than one
/// is wanted, numbered 1, 2, 3 and so on; a frame numbered 1 begins the reply again.
///
/// It does not allocate before [`FrameReader::into_bytes`]. Bytes behind the last wanted frame are dropped;
/// `dalybms_lib` keeps them where nobody gets at them. Who reads no more than [`FrameReader::missing`] bytes
/// at a time pushes none of them.
///
/// On two-wire lines the adapter returns what we sent. Such an echo is a right frame of a one-frame reply, as in
/// `dalybms_lib`: the address is not looked at. [`FrameReader::new_strict`] makes a reader that throws echoes away.
pub struct FrameReader {
    reader: ffi::Reader,
    /// What `new` could not answer.
    refusal: Option<Error>,
    /// What the library answered last: 0 says that all frames are there. A refused reader lacks a frame.
    missing: usize,
}

impl FrameReader {
    /// A reader for the reply to `request`, of `reply_size` bytes.
    ///
    /// A request of fewer than 3 bytes is refused with [`Error::RequestTooShort`], and then a reply of more
    /// than 1,105 with [`Error::ReplyTooLong`]: such a reader answers the error to every push, is never
    /// complete, lacks a frame and has no bytes.
    pub fn new(request: &[u8], reply_size: usize) -> Self {
        Self::open(request, reply_size, false)
    }

    /// As [`FrameReader::new`], for two-wire lines: a reader in strict mode. `dalybms_lib` has no such reader.
    ///
    /// It discards an echo whole: a right frame of the command with the host's address, 40 hexadecimal, in byte 1.
    /// The 13 bytes count as discarded, as `echo`, also among the 512. The echo's number is not read, so one that is numbered 1
    /// does not begin the reply again.
    ///
    /// ```
    /// use daly::protocol::{Address, FrameReader, Soc};
    ///
    /// // What we sent, and then the reply: 52.3 V.
    /// let request = Soc::request(Address::Host);
    /// let reply = [0xA5, 0x01, 0x90, 0x08, 0x02, 0x0B, 0x00, 0x00, 0x74, 0xB7, 0x03, 0x6A, 0xE3];
    /// let line = [&request[..], &reply[..]].concat();
    ///
    /// let mut strict = FrameReader::new_strict(&request, Soc::reply_size());
    /// strict.push(&line)?;
    /// assert_eq!((strict.is_complete(), strict.account().discarded), (true, 13));
    /// assert_eq!(Soc::decode(&strict.into_bytes())?.total_voltage, 52.3);
    ///
    /// // As in `dalybms_lib`, the echo is the reply.
    /// let mut reader = FrameReader::new(&request, Soc::reply_size());
    /// reader.push(&line)?;
    /// let echo = Soc::decode(&reader.into_bytes())?;
    /// assert_eq!((echo.total_voltage, echo.current), (0.0, -3000.0));
    /// # Ok::<(), daly::Error>(())
    /// ```
    pub fn new_strict(request: &[u8], reply_size: usize) -> Self {
        Self::open(request, reply_size, true)
    }

    #[inline]
    fn open(request: &[u8], reply_size: usize, strict: bool) -> Self {
        let (counts, missing) = ffi::Reader::open(request, reply_size, strict);
        Self {
            reader: ffi::Reader::empty(counts),
            refusal: missing.err(),
            missing: missing.unwrap_or(ffi::FRAME),
        }
    }

    /// Why the reader was refused when it was made, if it was. `dalybms_lib` has no such question.
    pub fn refusal(&self) -> Option<Error> {
        self.refusal
    }

    /// Whether all frames of the reply are there.
    #[inline]
    pub fn is_complete(&self) -> bool {
        self.missing == 0
    }

    /// How many bytes the next frame still needs; 0 once complete.
    #[inline]
    pub fn missing(&self) -> usize {
        self.missing
    }

    /// Takes bytes of the line.
    ///
    /// It answers [`Error::UnexpectedFrame`] where more than 512 bytes were discarded since the reader was
    /// made. The bytes are taken all the same.
    #[inline]
    pub fn push(&mut self, data: &[u8]) -> Result<(), Error> {
        self.push_counted(data).said
    }

    /// As [`FrameReader::push`], and tells how many of the bytes it took. `dalybms_lib` has no such question.
    #[inline]
    pub fn push_counted(&mut self, data: &[u8]) -> Pushed {
        if let Some(error) = self.refusal {
            return Pushed {
                took: 0,
                said: Err(error),
            };
        }
        let said = self.reader.push(data);
        self.missing = said.missing.into();
        Pushed {
            took: said.took,
            said: Error::check(said.status),
        }
    }

    /// What became of the bytes so far. `dalybms_lib` has no such question.
    pub fn account(&self) -> Account {
        Account::of(&self.reader.counts)
    }

    /// What was counted so far, and why bytes were thrown away. `dalybms_lib` has no such question.
    ///
    /// ```
    /// use daly::account::Discarded;
    /// use daly::protocol::{Address, FrameReader, Soc};
    ///
    /// // What we sent, a byte of noise, a start byte too many, and then the reply.
    /// let request = Soc::request(Address::Host);
    /// let reply = [0xA5, 0x01, 0x90, 0x08, 0x02, 0x0B, 0x00, 0x00, 0x74, 0xB7, 0x03, 0x6A, 0xE3];
    /// let line = [&request[..], &[0x00, 0xA5], &reply[..]].concat();
    ///
    /// let mut reader = FrameReader::new_strict(&request, Soc::reply_size());
    /// reader.push(&line)?;
    /// let counts = reader.counts();
    /// assert_eq!((counts.taken, counts.cleared), (28, 0));
    /// assert_eq!(counts.discarded, Discarded { noise: 1, sum: 1, echo: 13, ..Discarded::default() });
    /// assert_eq!(counts.discarded.all(), reader.account().discarded);
    /// # Ok::<(), daly::Error>(())
    /// ```
    pub fn counts(&self) -> Counts {
        Counts::of(&self.reader.counts)
    }

    /// The frames, one after the other, complete or not.
    #[inline]
    pub fn into_bytes(self) -> Vec<u8> {
        self.reader.copy_out()
    }
}

/// Without the bytes.
impl Debug for FrameReader {
    fn fmt(&self, f: &mut Formatter<'_>) -> fmt::Result {
        f.debug_struct("FrameReader")
            .field("counts", &self.reader.counts)
            .field("refusal", &self.refusal)
            .finish_non_exhaustive()
    }
}
