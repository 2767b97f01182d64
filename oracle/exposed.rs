/// Public ways to the private functions and fields above. The build appends this text to protocol.rs,
/// so that the file itself stays as published; a function here only calls its namesake, or reads or
/// sets the reader's fields.
pub mod exposed {
    use super::FrameReader;
    use crate::Error;

    pub fn calc_crc(buffer: &[u8]) -> u8 {
        super::calc_crc(buffer)
    }

    pub fn validate_len(buffer: &[u8], expected_size: usize) -> Result<(), Error> {
        super::validate_len(buffer, expected_size)
    }

    pub fn validate_frame_header(buffer: &[u8], command: u8) -> Result<(), Error> {
        super::validate_frame_header(buffer, command)
    }

    pub fn validate_checksum(buffer: &[u8]) -> Result<(), Error> {
        super::validate_checksum(buffer)
    }

    /// All fields of a reader.
    pub struct ReaderFields<'a> {
        pub command: u8,
        pub n_frames: usize,
        pub pending: &'a [u8],
        pub frames: &'a [u8],
        pub discarded: usize,
    }

    pub fn reader_fields(reader: &FrameReader) -> ReaderFields<'_> {
        ReaderFields {
            command: reader.command,
            n_frames: reader.n_frames,
            pending: &reader.pending,
            frames: &reader.frames,
            discarded: reader.discarded,
        }
    }

    pub fn reader_with(fields: ReaderFields) -> FrameReader {
        FrameReader {
            command: fields.command,
            n_frames: fields.n_frames,
            pending: fields.pending.to_vec(),
            frames: fields.frames.to_vec(),
            discarded: fields.discarded,
        }
    }
}
