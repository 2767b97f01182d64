//! What both sides are asked.

#[derive(Debug)]
pub enum Question {
    Request {
        command: u8,
        enable: bool,
        soc_percent: f32,
    },
    /// The size of the reply; the count is that of 95 and 96.
    Size { command: u8, count: u8 },
    /// The count is that of 95, 96 and 97.
    Decode {
        command: u8,
        count: u8,
        reply: Vec<u8>,
    },
    /// A new reader for each cutting, and the stream pushed into it in chunks of these lengths.
    Read {
        request: Vec<u8>,
        size: usize,
        stream: Vec<u8>,
        cuttings: Vec<Vec<usize>>,
    },
}

/// The thirteen commands.
pub const COMMANDS: [u8; 13] = [
    0x90, 0x91, 0x92, 0x93, 0x94, 0x95, 0x96, 0x97, 0x98, 0xD9, 0xDA, 0x21, 0x00,
];
