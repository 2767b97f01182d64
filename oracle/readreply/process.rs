//! One run of the program: an input in, and all that comes out.

use std::fs::{self, File};
use std::io::{self, Read, Write};
use std::os::fd::AsRawFd;
use std::path::{Path, PathBuf};
use std::process::{Child, ChildStdin, Command, Stdio};
use std::sync::Mutex;
use std::thread;
use std::time::{Duration, Instant};

extern "C" {
    fn ioctl(fd: i32, request: u64, count: *mut i32) -> i32;
    fn kill(pid: i32, signal: i32) -> i32;
    fn poll(asked: *mut Polled, count: u64, timeout: i32) -> i32;
}

#[repr(C)]
struct Polled {
    fd: i32,
    events: i16,
    found: i16,
}

/// How many bytes are in a pipe, unread.
const FIONREAD: u64 = 0x541B;
/// Nobody can read from a pipe any more.
const POLLERR: i16 = 8;
const SIGKILL: i32 = 9;
/// A pause so short that a process that waits for a byte is soon asked again.
const MOMENT: Duration = Duration::from_micros(10);

/// The processes that run, each with the time when it is to be ended.
static RUNNING: Mutex<Vec<(u32, Instant)>> = Mutex::new(Vec::new());

#[derive(Clone)]
pub struct Program {
    pub path: PathBuf,
    /// Told to a stand-in; an empty one is none.
    pub fault: Option<&'static str>,
    /// A run that takes longer is killed.
    pub limit: Duration,
}

/// How the input comes.
#[derive(Clone, Debug)]
pub enum Way {
    /// Standard input is a file.
    File,
    /// Through a pipe, in pieces of these lengths, as fast as they can be written.
    Pieces(Vec<usize>),
    /// The same, but a piece is written when the one before was read: so each is a read of its own.
    Reads(Vec<usize>),
}

/// What a run came to.
#[derive(Clone, PartialEq)]
pub struct Seen {
    pub output: Vec<u8>,
    pub errors: Vec<u8>,
    /// How the process ended, as the system says it.
    pub ended: String,
    /// Whether some of the input could not be written, since nobody read it any more.
    pub unread: bool,
}

impl Seen {
    /// Of a run in which nothing is wrong.
    pub fn right(text: &str, unread: bool) -> Self {
        Self {
            output: text.as_bytes().to_vec(),
            errors: Vec::new(),
            ended: "exit status: 0".to_string(),
            unread,
        }
    }
}

/// Ends what runs for too long. A process is on the list only while nobody can have reaped it, so no
/// other can have its number.
pub fn watch() {
    thread::spawn(|| loop {
        thread::sleep(Duration::from_millis(100));
        let running = RUNNING.lock().unwrap();
        for (pid, _) in running.iter().filter(|(_, end)| *end < Instant::now()) {
            // SAFETY: nothing is lent.
            unsafe { kill(*pid as i32, SIGKILL) };
        }
    });
}

impl Program {
    /// Runs the program on this input. `scratch` is a file that the input may be written to.
    pub fn run(&self, input: &[u8], way: &Way, scratch: &Path) -> io::Result<Seen> {
        let mut command = Command::new(&self.path);
        command.stdout(Stdio::piped()).stderr(Stdio::piped());
        if let Some(fault) = self.fault {
            command.env("FAULT", fault);
        }
        match way {
            Way::File => {
                fs::write(scratch, input)?;
                command.stdin(File::open(scratch)?);
            }
            _ => drop(command.stdin(Stdio::piped())),
        };
        let mut child = command.spawn()?;
        let end = Instant::now() + self.limit;
        RUNNING.lock().unwrap().push((child.id(), end));
        let unread = child
            .stdin
            .take()
            .is_some_and(|pipe| !written(pipe, input, way, end));
        let read = outputs(&mut child);
        RUNNING
            .lock()
            .unwrap()
            .retain(|(pid, _)| *pid != child.id());
        let ended = ended(&mut child, end)?;
        let (output, errors) = read?;
        Ok(Seen {
            output,
            errors,
            ended,
            unread,
        })
    }
}

/// Writes the input in its pieces, and says whether all of it could be.
fn written(mut pipe: ChildStdin, input: &[u8], way: &Way, end: Instant) -> bool {
    let (Way::Pieces(lengths) | Way::Reads(lengths)) = way else {
        return true;
    };
    let mut rest = input;
    for length in lengths {
        let (piece, behind) = rest.split_at(*length);
        if pipe.write_all(piece).is_err() {
            return false;
        }
        if matches!(way, Way::Reads(_)) {
            wait_until_read(&pipe, end);
        }
        rest = behind;
    }
    pipe.write_all(rest).is_ok()
}

/// Until the pipe is empty, or nobody is left to read it.
fn wait_until_read(pipe: &ChildStdin, end: Instant) {
    let fd = pipe.as_raw_fd();
    let (mut unread, events, found) = (0, 0, 0);
    let mut polled = Polled { fd, events, found };
    while Instant::now() < end {
        // SAFETY: both are alive, and where the answers are put.
        unsafe { (ioctl(fd, FIONREAD, &mut unread), poll(&mut polled, 1, 0)) };
        if unread == 0 || polled.found & POLLERR != 0 {
            return;
        }
        thread::sleep(MOMENT);
    }
}

/// Both outputs to their ends. What is no more than one pipe's room of errors cannot block the other.
fn outputs(child: &mut Child) -> io::Result<(Vec<u8>, Vec<u8>)> {
    let (mut output, mut errors) = (Vec::new(), Vec::new());
    if let Some(mut pipe) = child.stdout.take() {
        pipe.read_to_end(&mut output)?;
    }
    if let Some(mut pipe) = child.stderr.take() {
        pipe.read_to_end(&mut errors)?;
    }
    Ok((output, errors))
}

/// How the process ended; one that closed its outputs and does not end is killed.
fn ended(child: &mut Child, end: Instant) -> io::Result<String> {
    loop {
        if let Some(status) = child.try_wait()? {
            return Ok(status.to_string());
        }
        if Instant::now() > end {
            child.kill()?;
        }
        thread::sleep(MOMENT);
    }
}
