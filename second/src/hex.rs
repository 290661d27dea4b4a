//! Intel HEX (document 02, §1): bytes to a text of data lines and an end line,
//! and such a text to bytes.

use crate::refusal::Refusal;
use crate::storing::store_in_front;

pub const MOST_BYTES: usize = 65_536;

/// "16 data bytes a line on export but for the last".
const DATA_ON_A_LINE: usize = 16;

pub const DATA_TYPE: u8 = 0;
pub const END_TYPE: u8 = 1;

/// "Written as :00000001FF with a line feed".
const END_LINE: &[u8] = b":00000001FF\n";

/// Refusals in the order 8, 9; an accepted export answers the length of the text
/// it stored at the front of the output.
pub fn export(bytes: &[u8], output: &mut [u8]) -> Result<usize, Refusal> {
    if bytes.len() > MOST_BYTES {
        return Err(Refusal::TooManyBytes);
    }
    store_in_front(&text_of(bytes), output)
}

/// Refusals in the order of `bytes_of`, then 9; an accepted import answers how
/// many bytes it stored at the front of the output.
pub fn import(text: &[u8], output: &mut [u8]) -> Result<usize, Refusal> {
    store_in_front(&bytes_of(text)?, output)
}

/// The standard text of at most 65,536 bytes.
pub fn text_of(bytes: &[u8]) -> Vec<u8> {
    let mut text = Vec::new();
    for (place, data) in bytes.chunks(DATA_ON_A_LINE).enumerate() {
        let record = record_of(place * DATA_ON_A_LINE, DATA_TYPE, data);
        text.push(b':');
        text.extend(record.into_iter().flat_map(digits_of));
        text.push(b'\n');
    }
    text.extend(END_LINE);
    text
}

/// A record's bytes with a right sum. Of the address the low 16 bits are kept.
pub fn record_of(address: usize, kind: u8, data: &[u8]) -> Vec<u8> {
    let mut record = vec![data.len() as u8, (address >> 8) as u8, address as u8, kind];
    record.extend(data);
    record.push(sum_of(&record).wrapping_neg());
    record
}

fn sum_of(bytes: &[u8]) -> u8 {
    bytes.iter().fold(0, |sum, byte| sum.wrapping_add(*byte))
}

/// "Upper-case digits".
fn digits_of(byte: u8) -> [u8; 2] {
    [byte >> 4, byte & 15].map(|digit| b"0123456789ABCDEF"[usize::from(digit)])
}

/// The bytes that a text stands for. Refusals are "tested line by line": 23 where
/// no line is left, 20, 21, 22, 24; and 24 where text follows the end line.
pub fn bytes_of(text: &[u8]) -> Result<Vec<u8>, Refusal> {
    let mut bytes = Vec::new();
    let mut rest = text;
    loop {
        let (line, after) = line_in_front(rest)?;
        match line.kind {
            DATA_TYPE if !line.goes_on_after(bytes.len()) => return Err(Refusal::DataOutside),
            DATA_TYPE => bytes.extend(line.data),
            END_TYPE if after.is_empty() => return Ok(bytes),
            // "Any other type, or any text after the end, its shape untested".
            _ => return Err(Refusal::OtherType),
        }
        rest = after;
    }
}

/// A line that has passed refusals 20 and 21.
struct Line {
    address: usize,
    kind: u8,
    data: Vec<u8>,
}

impl Line {
    /// "Without a gap to FFFF at most". A line of no data has none that could lie
    /// elsewhere.
    fn goes_on_after(&self, bytes: usize) -> bool {
        let is_next = self.address == bytes && bytes + self.data.len() <= MOST_BYTES;
        self.data.is_empty() || is_next
    }
}

/// The first line and what follows it, or refusal 23, 20 or 21.
fn line_in_front(text: &[u8]) -> Result<(Line, &[u8]), Refusal> {
    if text.is_empty() {
        return Err(Refusal::NoEnd);
    }
    let (record, after) = record_in_front(text).ok_or(Refusal::LineShape)?;
    let line = Line {
        address: usize::from(record[1]) << 8 | usize::from(record[2]),
        kind: record[3],
        data: record[4..record.len() - 1].to_vec(),
    };
    if line.kind == END_TYPE && !(line.data.is_empty() && line.address == 0) {
        return Err(Refusal::LineShape);
    }
    if sum_of(&record) != 0 {
        return Err(Refusal::WrongSum);
    }
    Ok((line, after))
}

/// The bytes of the first line and what follows it: count, address in two bytes,
/// type, as many data bytes as counted, sum; nothing where the shape is bad.
fn record_in_front(text: &[u8]) -> Option<(Vec<u8>, &[u8])> {
    // "LF or CR LF after each line".
    let line_feed = text.iter().position(|character| *character == b'\n')?;
    let (line, after) = (&text[..line_feed], &text[line_feed + 1..]);
    let line = line.strip_suffix(b"\r").unwrap_or(line);
    let digits = line.strip_prefix(b":")?;
    if digits.len() % 2 != 0 {
        return None;
    }
    let record: Vec<u8> = digits.chunks(2).map(byte_of).collect::<Option<_>>()?;
    let count = usize::from(*record.first()?);
    if record.len() != 1 + 2 + 1 + count + 1 {
        return None;
    }
    Some((record, after))
}

/// "Either letter case".
fn byte_of(digits: &[u8]) -> Option<u8> {
    let value = |digit: u8| char::from(digit).to_digit(16);
    let byte = value(digits[0])? * 16 + value(digits[1])?;
    Some(byte as u8)
}
