//! A trait of the controller's own on the readings, and readers on threads of their own.

use dalybms_lib::protocol::{
    Address, CellVoltageRange, FrameReader, Soc, Status, TemperatureRange,
};
use dalybms_lib::Error;
use std::collections::BTreeMap;
use std::fmt::Debug;
use std::sync::{Arc, Mutex};
use std::thread;

trait Reading: Debug + Clone + Send + Sized + 'static {
    const NAME: &'static str;
    fn question() -> (Vec<u8>, usize);
    fn read(reply: &[u8]) -> Result<Self, Error>;
}

macro_rules! readings {
    ($($name:ident)*) => {$(
        impl Reading for $name {
            const NAME: &'static str = stringify!($name);
            fn question() -> (Vec<u8>, usize) {
                ($name::request(Address::Host), $name::reply_size())
            }
            fn read(reply: &[u8]) -> Result<Self, Error> {
                $name::decode(reply)
            }
        }
    )*};
}

readings!(Soc CellVoltageRange TemperatureRange Status);

type Seen = Arc<Mutex<BTreeMap<&'static str, String>>>;

fn poll<R: Reading>(seen: &Seen) -> thread::JoinHandle<Result<R, Error>> {
    let (request, size) = R::question();
    let mut reader = FrameReader::new(&request, size);
    let seen = Arc::clone(seen);
    thread::spawn(move || {
        for byte in b"noise".iter().chain(&request) {
            reader.push(std::slice::from_ref(byte))?;
        }
        let reading = R::read(&reader.into_bytes())?;
        seen.lock()
            .unwrap()
            .insert(R::NAME, format!("{:?}", reading.clone()));
        Ok(reading)
    })
}

fn main() -> Result<(), Error> {
    let seen = Seen::default();
    let (soc, status) = (poll::<Soc>(&seen), poll::<Status>(&seen));
    let (volts, degrees) = (
        poll::<CellVoltageRange>(&seen),
        poll::<TemperatureRange>(&seen),
    );
    let soc = soc.join().unwrap()?;
    println!("{} {}", soc.current, status.join().unwrap()?.cycles);
    println!(
        "{:?} {:?}",
        volts.join().unwrap()?,
        degrees.join().unwrap()?
    );
    println!("{:#?}", seen.lock().unwrap());
    Ok(())
}
