//! The loop around a reader: reads from a line no more than is missing, over noise, our own question, a frame that
//! breaks off and a reply that begins again.

use dalybms_lib::protocol::{Address, CellVoltages, FrameReader};
use dalybms_lib::Error;
use std::io::Read;

/// A line that brings its bytes a few at a time.
struct Line<'a> {
    bytes: &'a [u8],
    turn: usize,
}

impl Read for Line<'_> {
    fn read(&mut self, buffer: &mut [u8]) -> std::io::Result<usize> {
        self.turn += 1;
        let length = buffer.len().min(1 + self.turn % 5);
        self.bytes.read(&mut buffer[..length])
    }
}

fn frame(number: u8, cells: [u16; 3]) -> Vec<u8> {
    let mut frame = vec![0xA5, 0x01, 0x95, 0x08, number];
    frame.extend(cells.iter().flat_map(|cell| cell.to_be_bytes()));
    frame.push(0);
    frame.push(
        frame
            .iter()
            .fold(0, |sum: u8, byte| sum.wrapping_add(*byte)),
    );
    frame
}

fn collect(line: &mut impl Read, cells: u8) -> Result<Vec<u8>, Error> {
    let request = CellVoltages::request(Address::Host);
    let mut reader = FrameReader::new(&request, CellVoltages::reply_size(cells));
    while !reader.is_complete() {
        let mut buffer = vec![0; reader.missing()];
        let length = line.read(&mut buffer).expect("a slice can be read");
        if length == 0 {
            println!("the line is silent, {} bytes missing", reader.missing());
            break;
        }
        reader.push(&buffer[..length])?;
        println!("{length} bytes, {} missing", reader.missing());
    }
    Ok(reader.into_bytes())
}

fn main() -> Result<(), Error> {
    let (one, two) = (frame(1, [3301, 3298, 3302]), frame(2, [3297, 3300, 0]));
    let echo = CellVoltages::request(Address::Host);
    let bytes = [
        &echo[..],
        &[0x00, 0xA5, 0x3C],
        &one,
        &two[..5],
        &one,
        &two,
        b"behind",
    ]
    .concat();
    let mut line = Line {
        bytes: &bytes,
        turn: 0,
    };
    let reply = collect(&mut line, 5)?;
    println!("{} bytes left, reply {reply:02X?}", line.bytes.len());
    println!("{:?}", CellVoltages::decode(&reply, 5)?);
    println!("{:02X?}", collect(&mut &one[..], 5)?);
    Ok(())
}
