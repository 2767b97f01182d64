//! The crate root that protocol.rs is compiled under.

/// Stands in for src/error.rs, which is not given: the four variants that protocol.rs names. It is an error as
/// any other; its sentences are invented.
#[derive(Debug, thiserror::Error)]
pub enum Error {
    #[error("ReplySizeError")]
    ReplySizeError,
    #[error("UnexpectedFrame")]
    UnexpectedFrame,
    #[error("CheckSumError")]
    CheckSumError,
    #[error("FrameNoError")]
    FrameNoError,
}

/// Made by the build: protocol.rs, then exposed.rs.
#[path = "../../target/oracle/protocol.rs"]
pub mod protocol;
