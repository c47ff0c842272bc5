//! A recorded trace: reads, writes and clocks, as the replay program takes them.
//!
//! A record is two bytes and a body, the least byte first: `RD` and an address (two bytes), `WR`, an address and a byte, or `CK` and a
//! count of clocks (four bytes).
//!
//! ```
//! use imfelkuz::trace::{Record, Records};
//!
//! let mut records = Records::new(b"WR\x00\xA0\x5CRD\x00\xA0CK\x05\x00\x00\x00");
//! assert_eq!(records.next(), Some(Ok(Record::Write(0xA000, 0x5C))));
//! assert_eq!(records.next(), Some(Ok(Record::Read(0xA000))));
//! assert_eq!(records.next(), Some(Ok(Record::Clocks(5))));
//! assert_eq!(records.next(), None);
//! ```

use crate::Refusal;

/// One record of a trace.
#[derive(Clone, Copy, Debug, PartialEq, Eq)]
pub enum Record {
    /// A read of an address.
    Read(u16),
    /// A byte written to an address.
    Write(u16, u8),
    /// Mapper clocks that pass.
    Clocks(u32),
}

/// The records of a trace, one after the other.
///
/// What is no record is the last that is given: [`Refusal::UnknownMark`] or [`Refusal::CutShort`], and [`place`](Records::place) then
/// says where it stands.
#[derive(Clone, Debug)]
pub struct Records<'a> {
    trace: &'a [u8],
    place: usize,
    stopped: bool,
}

impl<'a> Records<'a> {
    /// A reader at the start of a trace.
    pub fn new(trace: &'a [u8]) -> Self {
        Records { trace, place: 0, stopped: false }
    }

    /// The byte place of the next record, or of what is none.
    pub fn place(&self) -> usize {
        self.place
    }
}

fn record(left: &[u8]) -> Result<(Record, usize), Refusal> {
    match *left {
        [b'R', b'D', a, b, ..] => Ok((Record::Read(u16::from_le_bytes([a, b])), 4)),
        [b'W', b'R', a, b, byte, ..] => Ok((Record::Write(u16::from_le_bytes([a, b]), byte), 5)),
        [b'C', b'K', a, b, c, d, ..] => Ok((Record::Clocks(u32::from_le_bytes([a, b, c, d])), 6)),
        [_] | [b'R', b'D', ..] | [b'W', b'R', ..] | [b'C', b'K', ..] => Err(Refusal::CutShort),
        _ => Err(Refusal::UnknownMark),
    }
}

impl Iterator for Records<'_> {
    type Item = Result<Record, Refusal>;

    fn next(&mut self) -> Option<Self::Item> {
        let left = &self.trace[self.place..];
        if self.stopped || left.is_empty() {
            return None;
        }
        match record(left) {
            Ok((record, size)) => {
                self.place += size;
                Some(Ok(record))
            }
            Err(why) => {
                self.stopped = true;
                Some(Err(why))
            }
        }
    }
}
