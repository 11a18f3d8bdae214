//! Stands in for `mpeg_ts`: the errors that the modules' own error is made from, inferred from that use.

#[derive(Debug)]
#[non_exhaustive]
pub enum Error {
    BufferTooShort { need: usize, have: usize, what: &'static str },
    CrcMismatch { computed: u32, expected: u32 },
    InvalidSyncByte { found: u8 },
    OutputBufferTooSmall { need: usize, have: usize },
    SectionLengthOverflow { declared: usize, available: usize },
}
