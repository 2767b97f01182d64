// README: a `match` on `Error` needs a `_`
// daly: error[E0004]: non-exhaustive patterns

use dalybms_lib::protocol::Soc;
use dalybms_lib::Error;

fn main() {
    let word = match Soc::decode(&[]).unwrap_err() {
        Error::ReplySizeError => "short",
        Error::UnexpectedFrame => "not ours",
        Error::CheckSumError => "damaged",
        Error::FrameNoError => "out of order",
    };
    println!("{word}");
}
