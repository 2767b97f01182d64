//! A whole reading: request, new, the loop that README shows, decode. By the Rust, by the C functions and by
//! the drop-in crate. `reading NAME STEP CELLS` runs one of them once; bench/reading counts its instructions.

use std::hint::black_box;

extern "C" {
    fn read_by_c(wire: *const u8, step: usize, cells: u8, volts: *mut f32) -> usize;
}

/// The frames of a reply to 95, cells of 3,300 mV and on.
fn wire(cells: u8) -> Vec<u8> {
    let mut bytes = Vec::new();
    for frame in 0..cells.div_ceil(3) {
        let mut one = vec![0xA5, 0x01, 0x95, 0x08, frame + 1];
        for cell in 0..3u16 {
            one.extend((3300 + 3 * u16::from(frame) + cell).to_be_bytes());
        }
        one.push(0);
        one.push(one.iter().fold(0, |sum: u8, byte| sum.wrapping_add(*byte)));
        bytes.extend(one);
    }
    bytes
}

macro_rules! reading {
    ($name:ident, $counted:ident, $crate_:ident) => {
        #[inline(never)]
        fn $counted(wire: &[u8], step: usize, cells: u8) -> $crate_::protocol::CellVoltages {
            $name(wire, step, cells)
        }

        #[inline(never)]
        fn $name(wire: &[u8], step: usize, cells: u8) -> $crate_::protocol::CellVoltages {
            use $crate_::protocol::{Address, CellVoltages, FrameReader};
            let request = CellVoltages::request(Address::Host);
            let mut reader = FrameReader::new(&request, CellVoltages::reply_size(cells));
            let mut at = 0;
            while !reader.is_complete() {
                let length = reader.missing().min(step);
                reader.push(&wire[at..at + length]).expect("a right push");
                at += length;
            }
            CellVoltages::decode(&reader.into_bytes(), cells).expect("a right reply")
        }
    };
}

reading!(by_rust, counted_rust, dalybms_lib);
reading!(by_dropin, counted_dropin, daly);

#[inline(never)]
fn counted_c(wire: &[u8], step: usize, cells: u8, volts: &mut [f32; 255]) -> usize {
    // SAFETY: the loop reads no more than the frames that it wants, and all of them are there.
    unsafe { read_by_c(wire.as_ptr(), step, cells, volts.as_mut_ptr()) }
}

#[inline(never)]
fn warm_c(wire: &[u8], step: usize, cells: u8) -> usize {
    let mut volts = [0.0; 255];
    // SAFETY: as in counted_c.
    unsafe { read_by_c(wire.as_ptr(), step, cells, volts.as_mut_ptr()) }
}

fn main() {
    let words: Vec<String> = std::env::args().collect();
    let (step, cells) = (words[2].parse().unwrap(), words[3].parse().unwrap());
    let wire = wire(cells);
    let (step, cells) = black_box((step, cells));
    // One of each first, so that the allocator is warm, as in a controller that has run for a while.
    let warm = (
        by_rust(&wire, step, cells).len(),
        by_dropin(&wire, step, cells).len(),
        warm_c(&wire, step, cells),
    );
    assert_eq!(black_box(warm), (cells.into(), cells.into(), cells.into()));
    let volts = match words[1].as_str() {
        "rust" => counted_rust(&wire, step, cells).to_vec(),
        "dropin" => counted_dropin(&wire, step, cells).to_vec(),
        _ => {
            let mut volts = [0.0; 255];
            let count = counted_c(&wire, step, cells, &mut volts);
            volts[..count].to_vec()
        }
    };
    assert_eq!(volts.len(), usize::from(cells));
    for (cell, volt) in volts.iter().enumerate() {
        assert_eq!(*volt, (3300 + cell as u16) as f32 / 1000.0);
    }
}
