//! The protocol of Daly battery boards for controllers in Rust.
//!
//! The module [`protocol`] has the names and signatures of `dalybms_lib::protocol`, so a controller
//! changes its `use` lines and nothing else:
//!
//! ```
//! use daly::protocol::{Address, FrameReader, Soc}; // was: dalybms_lib::protocol
//!
//! fn charge(line: &[u8]) -> Result<f32, daly::Error> {
//!     let mut reader = FrameReader::new(&Soc::request(Address::Host), Soc::reply_size());
//!     reader.push(line)?;
//!     Ok(Soc::decode(&reader.into_bytes())?.soc_percent)
//! }
//!
//! let line = [0x00, 0xA5, 0xA5, 0x01, 0x90, 0x08, 0x02, 0x0B, 0x00, 0x00, 0x74, 0xB7, 0x03, 0x6A, 0xE3];
//! assert_eq!(charge(&line), Ok(87.4));
//! ```
//!
//! The module [`account`] has what `dalybms_lib` has not: what became of every byte of the line and why bytes were
//! thrown away, the board's own whole numbers, and whether the cells add up to their pack. With the feature `board`
//! there is the module `board`, which writes replies as a board sends them, for a bench; only then `libwriters.a` is
//! linked, too.
//!
//! All of it is done by calls into `libdaly.a` and `libwriters.a`, of which every function is proved. Nothing is
//! worked out here: answers are turned into the types above, and memory is lent. Build the archives by
//! `tools/build daly`, and for the feature `board` also `tools/build writers`; they run on x86-64 Linux.
//! `DALY_LIB_DIR` names their folder, from where you stand, where that is not `../target/staticlib` beside this crate.
//!
//! # Where it parts from `dalybms_lib`
//!
//! - An unknown mode in a right 93 reply is [`Error::UnknownMode`], where `dalybms_lib` panics.
//! - 255 temperature sensors give 255 temperatures, where `dalybms_lib` gives 259: the first 255 are the
//!   same.
//! - A reader has room for a reply of 1,105 bytes, the longest that the protocol has. A longer one is
//!   [`Error::ReplyTooLong`]; a request of fewer than 3 bytes is [`Error::RequestTooShort`], where
//!   `dalybms_lib` panics. `FrameReader::new` answers a reader and no error, so such a reader is made and
//!   remembers its refusal: it is never complete, lacks a frame, has no bytes, and every push answers the
//!   error. [`protocol::FrameReader::refusal`], which `dalybms_lib` has not, tells it at once.
//! - `dalybms_lib`'s own `Error` was not given: [`Error`] has the four variants that its `protocol` names, and
//!   more, so a `match` on it needs a `_`.
//! - The sentences of [`Error`] and [`protocol::ErrorCode`] (their `Display`) are this crate's own, and `{:?}` of
//!   a reader shows counts and no bytes.
//! - [`protocol::FrameReader::new_strict`], which `dalybms_lib` has not, makes a reader for two-wire lines: it throws
//!   away what the adapter returns of our own questions. A reader by `new` takes such an echo for a reply of one frame,
//!   as in `dalybms_lib`.
//! - [`protocol::FrameReader::counts`], which `dalybms_lib` has not, tells a bad cable from a second master: the bytes
//!   thrown away, counted by five reasons. `dalybms_lib` keeps their sum alone, for its log.
//! - Left out: serde, log lines, and the clients.
//!
//! The library builds requests from the host's address, 40 hexadecimal, and
//! [`protocol::Address`] has that one alone, here as in `dalybms_lib`: no other request can be asked for.

#![deny(missing_docs)]
#![deny(unsafe_op_in_unsafe_fn)]

pub mod account;
#[cfg(feature = "board")]
pub mod board;
mod error;
mod ffi;
pub mod protocol;

pub use error::Error;
