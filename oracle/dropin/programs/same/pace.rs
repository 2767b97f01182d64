//! Leaves a board alone between two questions.

use dalybms_lib::protocol::{Address, Soc, Status, MINIMUM_DELAY};
use std::thread::sleep;
use std::time::{Duration, Instant};

/// Known when it is compiled.
const ROUND: Duration = Duration::from_millis(2 * MINIMUM_DELAY.as_millis() as u64);

struct Paced {
    last: Instant,
}

impl Paced {
    fn send(&mut self, request: Vec<u8>) -> bool {
        let rest = MINIMUM_DELAY.saturating_sub(self.last.elapsed());
        sleep(rest);
        let waited = self.last.elapsed() >= MINIMUM_DELAY;
        self.last = Instant::now();
        waited && request.len() == 13
    }
}

fn main() {
    let mut line = Paced {
        last: Instant::now(),
    };
    println!("{:?} {ROUND:?}", MINIMUM_DELAY);
    println!("{}", line.send(Soc::request(Address::Host)));
    println!("{}", line.send(Status::request(Address::Host)));
}
