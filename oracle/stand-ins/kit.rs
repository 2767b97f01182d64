// Stands in for what `readreply` has of the kit's `std` and Rust's has not, where it is built as Rust: the handle that its
// `main` takes, and arguments by their number.

mod kit {
    pub struct HostRuntime;

    impl HostRuntime {
        pub fn stdin(&self) -> std::io::Stdin {
            std::io::stdin()
        }

        pub fn stdout(&self) -> std::io::Stdout {
            std::io::stdout()
        }

        pub fn stderr(&self) -> std::io::Stderr {
            std::io::stderr()
        }
    }

    pub mod env {
        pub enum FillError {
            NotPresent,
            TooLong,
        }

        pub trait Env {
            fn arg(&self, number: usize, buffer: &mut [u8]) -> Result<usize, FillError>;
        }

        impl Env for super::HostRuntime {
            fn arg(&self, number: usize, buffer: &mut [u8]) -> Result<usize, FillError> {
                let argument = std::env::args_os().nth(number).ok_or(FillError::NotPresent)?;
                let bytes = std::os::unix::ffi::OsStrExt::as_bytes(argument.as_os_str());
                let place = buffer.get_mut(..bytes.len()).ok_or(FillError::TooLong)?;
                place.copy_from_slice(bytes);
                Ok(bytes.len())
            }
        }
    }

    pub mod io {
        pub use std::io::{IsTerminal, Read, Stdin, Write};
    }
}

use kit::HostRuntime;

fn main() {
    run(HostRuntime)
}
