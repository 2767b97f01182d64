//! Right replies.

/// `frames` right frames, numbered from 1; `first` is byte 4 of a single one.
pub fn reply(command: u8, frames: usize, first: Option<u8>) -> Vec<u8> {
    let mut bytes = Vec::new();
    for k in 0..frames {
        let mut frame = [(k * 37 + 11) as u8; 13];
        frame[0] = 0xA5;
        frame[2] = command;
        frame[4] = first.unwrap_or(k as u8 + 1);
        frame[12] = frame[..12].iter().fold(0, |sum, b| b.wrapping_add(sum));
        bytes.extend(frame);
    }
    bytes
}
