//! "Dumps": numbers in groups of seven bits, records, export and the walk.

use crate::cells;
use crate::field::{self, Reading};
use crate::layout::{Layouts, OldShape, GROUPS_OFFERED};
use crate::refusal::Refusal;
use crate::storing::store_in_front;

pub const LONGEST_DUMP: usize = 65_536;
pub const LARGEST_SERIAL: u64 = (1 << 63) - 1;
const LONGEST_NUMBER: usize = 9;

/// "A number is groups of seven bits, lowest first, top bit set on all but the
/// last." Shortest form by making: it ends once nothing is left.
pub fn number_bytes(number: u64) -> Vec<u8> {
    let mut bytes = Vec::new();
    let mut rest = number;
    while rest >= 0x80 {
        bytes.push((rest & 0x7f) as u8 | 0x80);
        rest >>= 7;
    }
    bytes.push(rest as u8);
    bytes
}

/// The number at the front of `bytes` and what follows it; nothing where it is
/// "cut off, over nine bytes or not shortest".
pub fn number_in_front(bytes: &[u8]) -> Option<(u64, &[u8])> {
    let is_last = |byte: &u8| byte & 0x80 == 0;
    let length = bytes.iter().take(LONGEST_NUMBER).position(is_last)? + 1;
    let (number, after) = bytes.split_at(length);
    // "A last group of 0 is allowed only alone (shortest form)."
    if length > 1 && number[length - 1] == 0 {
        return None;
    }
    let add_group = |high: u64, byte: &u8| high << 7 | u64::from(byte & 0x7f);
    Some((number.iter().rev().fold(0, add_group), after))
}

/// "A record is serial, m, t, v, n as numbers, then n bytes."
pub fn record_bytes(serial: u64, shape: OldShape, cells: &[u8]) -> Vec<u8> {
    record_with_head(&[serial, shape.m, shape.t, shape.v], cells)
}

/// The numbers that stand before n, then n and n bytes.
pub fn record_with_head(head: &[u64], cells: &[u8]) -> Vec<u8> {
    let numbers = head.iter().copied().chain([cells.len() as u64]);
    let mut record: Vec<u8> = numbers.flat_map(number_bytes).collect();
    record.extend_from_slice(cells);
    record
}

/// Refusals in the order 10, 1, 2, 3, 9; an accepted export answers the length
/// of the record it stored at the front of the output.
pub fn export(
    serial: u64,
    shape: OldShape,
    cells: &[u8],
    output: &mut [u8],
    layouts: &mut Layouts,
) -> Result<usize, Refusal> {
    if serial > LARGEST_SERIAL {
        return Err(Refusal::SerialOutOfBounds);
    }
    let layout = layouts.grant(&shape.in_form_0(), GROUPS_OFFERED)?;
    cells::groups_of(&layout, cells)?;
    store_in_front(&record_bytes(serial, shape, cells), output)
}

/// One whole record of a dump. `start` is where its cell bytes begin in the
/// dump.
#[derive(Clone, Debug, PartialEq, Eq)]
pub struct Record<'dump> {
    pub serial: u64,
    pub shape: OldShape,
    pub start: usize,
    pub cells: &'dump [u8],
    /// Refusals 1, 2, 3, 15 and 16 belong to the record and the walk goes on.
    pub outcome: Result<Reading, Refusal>,
}

#[derive(Clone, Copy, Debug, PartialEq, Eq)]
pub enum Ending {
    /// Refusal 8, before any record.
    TooLong,
    /// Refusal 7 with "the offset of the record's first byte".
    Malformed {
        offset: usize,
    },
    EndOfDump,
}

impl Ending {
    /// What stopped a walk.
    pub fn refusal(self) -> Option<Refusal> {
        match self {
            Ending::TooLong => Some(Refusal::TooManyBytes),
            Ending::Malformed { offset } => Some(Refusal::MalformedRecord { offset }),
            Ending::EndOfDump => None,
        }
    }
}

#[derive(Clone, Debug, PartialEq, Eq)]
pub struct Walk<'dump> {
    pub records: Vec<Record<'dump>>,
    pub ending: Ending,
}

pub fn walk<'dump>(dump: &'dump [u8], layouts: &mut Layouts) -> Walk<'dump> {
    let (unread, ending) = unread_records(dump);
    let read = |record: Unread<'dump, Head>| Record {
        serial: record.head.serial,
        shape: record.head.shape,
        start: record.start,
        cells: record.cells,
        outcome: field::read(&record.head.shape.in_form_0(), record.cells, layouts),
    };
    let records = unread.into_iter().map(read).collect();
    Walk { records, ending }
}

/// A whole record whose cells nobody has looked at. The head is what stands before
/// the count of its cell bytes.
pub struct Unread<'dump, H> {
    pub head: H,
    pub start: usize,
    pub cells: &'dump [u8],
}

#[derive(Clone, Copy)]
pub struct Head {
    pub serial: u64,
    pub shape: OldShape,
}

pub fn unread_records(dump: &[u8]) -> (Vec<Unread<'_, Head>>, Ending) {
    if dump.len() > LONGEST_DUMP {
        return (Vec::new(), Ending::TooLong);
    }
    unread_from(0, dump, head_in_front)
}

fn head_in_front(bytes: &[u8]) -> Option<(Head, &[u8])> {
    let (serial, bytes) = number_in_front(bytes)?;
    let (m, bytes) = number_in_front(bytes)?;
    let (t, bytes) = number_in_front(bytes)?;
    let (v, bytes) = number_in_front(bytes)?;
    let shape = OldShape { m, t, v };
    Some((Head { serial, shape }, bytes))
}

/// The records from an offset up to the dump's end or to the first malformed one.
/// `head_in_front` gives a record's head and what follows it, or nothing where it is
/// malformed.
pub fn unread_from<H>(
    first: usize,
    dump: &[u8],
    head_in_front: impl Fn(&[u8]) -> Option<(H, &[u8])>,
) -> (Vec<Unread<'_, H>>, Ending) {
    let mut records = Vec::new();
    let mut rest = &dump[first..];
    while !rest.is_empty() {
        let parts = head_in_front(rest).and_then(|(head, behind)| {
            let (cells, after) = counted_in_front(behind)?;
            Some((head, cells, after))
        });
        let offset = dump.len() - rest.len();
        let (head, cells, after) = match parts {
            Some(parts) => parts,
            None => return (records, Ending::Malformed { offset }),
        };
        let start = dump.len() - after.len() - cells.len();
        records.push(Unread { head, start, cells });
        rest = after;
    }
    (records, Ending::EndOfDump)
}

/// n, then n bytes, and what follows them.
fn counted_in_front(bytes: &[u8]) -> Option<(&[u8], &[u8])> {
    let (n, bytes) = number_in_front(bytes)?;
    // "Fewer than n bytes after n": n may be 2^63 − 1, so it is held against
    // what is left and never added to an offset.
    if n > bytes.len() as u64 {
        return None;
    }
    Some(bytes.split_at(n as usize))
}
