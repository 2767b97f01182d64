//! Errors and faults as errors among others: behind `?`, boxed, wrapped, with a source.

use dalybms_lib::protocol::{ErrorCode, Status};
use dalybms_lib::Error;
use std::error::Error as StdError;
use std::fmt;

/// Why a round failed.
#[derive(Debug)]
enum Failure {
    Protocol(Error),
    Board(ErrorCode),
}

impl fmt::Display for Failure {
    fn fmt(&self, f: &mut fmt::Formatter<'_>) -> fmt::Result {
        match self {
            Self::Protocol(error) => write!(f, "no reading: {error:?}"),
            Self::Board(fault) => write!(f, "the board reports {fault:?}"),
        }
    }
}

impl StdError for Failure {
    fn source(&self) -> Option<&(dyn StdError + 'static)> {
        Some(match self {
            Self::Protocol(error) => error,
            Self::Board(fault) => fault,
        })
    }
}

impl From<Error> for Failure {
    fn from(error: Error) -> Self {
        Self::Protocol(error)
    }
}

impl From<ErrorCode> for Failure {
    fn from(fault: ErrorCode) -> Self {
        Self::Board(fault)
    }
}

fn cells(reply: &[u8], fault: Option<ErrorCode>) -> Result<u8, Failure> {
    let status = Status::decode(reply)?;
    match fault {
        Some(fault) => Err(fault.into()),
        None => Ok(status.cells),
    }
}

fn boxed(reply: &[u8], fault: Option<ErrorCode>) -> Result<u8, Box<dyn StdError + Send + Sync>> {
    if let Some(fault) = fault {
        return Err(Box::new(fault));
    }
    Ok(Status::decode(reply)?.cells)
}

fn main() {
    let reply = [0xA5, 0x01, 0x94, 0x08, 8, 2, 1, 0, 0, 0, 0, 0, 0x4D];
    for (reply, fault) in [
        (&reply[..], None),
        (&reply, Some(ErrorCode::EepromErr)),
        (&reply[..4], None),
    ] {
        match cells(reply, fault.clone()) {
            Ok(cells) => println!("{cells} cells"),
            Err(failure) => println!(
                "{failure} {}",
                failure.source().is_some_and(|e| e.source().is_none())
            ),
        }
        let error = boxed(reply, fault).err();
        println!("{error:?}");
        if let Some(error) = error {
            println!(
                "{:?} {}",
                error.downcast_ref::<ErrorCode>(),
                error.is::<Error>()
            );
            println!("said: {}", !error.to_string().is_empty());
        }
    }
}
