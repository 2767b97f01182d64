//! The serial line of the example controller: opened, made still, written and read, with an end to every wait.

use std::fmt::{self, Display, Formatter};
use std::fs::{File, OpenOptions};
use std::io::{self, ErrorKind, Read, Write};
use std::os::unix::fs::OpenOptionsExt;
use std::thread::sleep;
use std::time::{Duration, Instant};

/// How long a reply may take.
pub const PATIENCE: Duration = Duration::from_secs(2);
/// Silence where no reply came in time, since it may still come.
pub const LATE: Duration = Duration::from_secs(1);
/// Silence before a question, longer than an adapter rests in the midst of a reply.
pub const STILL: Duration = Duration::from_millis(50);
/// Between two looks at the line.
const PAUSE: Duration = Duration::from_millis(2);
/// O_NOCTTY and O_NONBLOCK, on Linux.
const OPEN_FLAGS: i32 = 0o400 | 0o4000;
/// EIO, on Linux.
const HUNG_UP: i32 = 5;

/// Why there is no reading.
pub enum Failure {
    HungUp,
    TimeIsUp(usize, &'static str),
    Refused(daly::Error),
    Line(io::Error),
}

impl From<daly::Error> for Failure {
    fn from(error: daly::Error) -> Self {
        Self::Refused(error)
    }
}

impl From<io::Error> for Failure {
    fn from(error: io::Error) -> Self {
        match error.raw_os_error() {
            Some(HUNG_UP) => Self::HungUp,
            _ => Self::Line(error),
        }
    }
}

impl Display for Failure {
    fn fmt(&self, f: &mut Formatter<'_>) -> fmt::Result {
        match self {
            Self::HungUp => f.write_str("the line hung up"),
            Self::TimeIsUp(bytes, which) => write!(f, "time is up, {bytes} bytes {which}"),
            Self::Refused(error) => write!(f, "refused {error:?}"),
            Self::Line(error) => error.fmt(f),
        }
    }
}

/// Whether the line has nothing to read, or no room to write.
fn waits(error: &io::Error) -> bool {
    matches!(error.kind(), ErrorKind::WouldBlock | ErrorKind::Interrupted)
}

pub struct Line(File);

impl Line {
    pub fn open(path: &str) -> io::Result<Self> {
        let mut options = OpenOptions::new();
        options.read(true).write(true).custom_flags(OPEN_FLAGS);
        options.open(path).map(Self)
    }

    /// Drops what lies on the line, and what still comes, until it was silent for so long. No frame says which
    /// question it answers: a late one would pass for the answer to the next, and so on for good. A line that
    /// is never silent is left when PATIENCE is over, one that hung up at once.
    pub fn settle(&mut self, silence: Duration) {
        let began = Instant::now();
        let mut heard = began;
        while heard.elapsed() < silence && heard.duration_since(began) < PATIENCE {
            match self.0.read(&mut [0; 256]) {
                Ok(0) => return,
                Ok(_) => heard = Instant::now(),
                Err(error) if waits(&error) => sleep(PAUSE),
                Err(_) => return,
            }
        }
    }

    /// Writes the whole question: a line that takes a part of it is given the rest when it has room again.
    pub fn send(&mut self, mut question: &[u8]) -> Result<(), Failure> {
        let until = Instant::now() + PATIENCE;
        while !question.is_empty() {
            if Instant::now() >= until {
                return Err(Failure::TimeIsUp(
                    question.len(),
                    "of the question not sent",
                ));
            }
            match self.0.write(question) {
                Ok(sent) => question = &question[sent..],
                Err(error) if waits(&error) => sleep(PAUSE),
                Err(error) => return Err(error.into()),
            }
        }
        Ok(())
    }

    /// Reads some bytes, at most as many as are missing.
    pub fn receive(&mut self, until: Instant, missing: &mut [u8]) -> Result<usize, Failure> {
        while Instant::now() < until {
            match self.0.read(missing) {
                Ok(0) => return Err(Failure::HungUp),
                Ok(length) => return Ok(length),
                Err(error) if waits(&error) => sleep(PAUSE),
                Err(error) => return Err(error.into()),
            }
        }
        Err(Failure::TimeIsUp(missing.len(), "missing"))
    }
}
