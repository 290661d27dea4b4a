//! Faults in HEX texts: in the bytes of a line, and in the characters.

use super::Maker;
use crate::hex::{self, END_TYPE};

impl Maker {
    /// One fault in records that end with the end record.
    pub fn damage_records(&mut self, records: &mut Vec<Vec<u8>>) {
        if records.is_empty() {
            return;
        }
        let place = self.chance.index(records.len());
        match self.chance.between(1, 15) {
            1..=2 => self.make_sum_wrong(&mut records[place]),
            3..=5 => {
                let other = self.record_of_other_type();
                records.insert(place, other);
                // The text ends with it, and no end behind it.
                if self.chance.one_in(4) {
                    records.truncate(place + 1);
                }
            }
            6..=8 => records[place] = self.end_with_data_or_address(),
            9..=11 => self.move_address(&mut records[place]),
            12 => {
                records.pop();
            }
            13 => records.insert(place, records[place].clone()),
            14 => {
                records.remove(place);
            }
            _ => {
                let count = self.chance.any() as u8;
                records[place][0] = count;
                make_sum_right(&mut records[place]);
            }
        }
    }

    fn make_sum_wrong(&mut self, record: &mut [u8]) {
        let off = self.chance.between(1, 255) as u8;
        if let Some(sum) = record.last_mut() {
            *sum = sum.wrapping_add(off);
        }
    }

    fn record_of_other_type(&mut self) -> Vec<u8> {
        let kind = match self.chance.one_in(4) {
            true => self.chance.between(2, 255) as u8,
            false => self.chance.between(2, 5) as u8,
        };
        let count = self.chance.index(5);
        let data = self.chance.bytes(count);
        let address = self.chance.pick(&[0, 0, 1, 0x1234, 0xffff]);
        let mut record = hex::record_of(address, kind, &data);
        if self.chance.one_in(3) {
            self.make_sum_wrong(&mut record);
        }
        record
    }

    /// An end with data, with an address or with both, or as it should be.
    fn end_with_data_or_address(&mut self) -> Vec<u8> {
        let count = self.chance.index(3);
        let data = self.chance.bytes(count);
        let address = self.chance.pick(&[0, 1, 0x100, 0xffff]);
        let mut record = hex::record_of(address, END_TYPE, &data);
        if self.chance.one_in(2) {
            self.make_sum_wrong(&mut record);
        }
        record
    }

    /// A gap, an overlap, a step back, or far away.
    fn move_address(&mut self, record: &mut Vec<u8>) {
        let address = usize::from(record[1]) << 8 | usize::from(record[2]);
        let moved = match self.chance.between(1, 5) {
            1 => address + 1,
            2 => address.wrapping_sub(1),
            3 => address + 0x100,
            4 => 0,
            _ => self.chance.index(0x1_0000),
        };
        let data = record[4..record.len() - 1].to_vec();
        *record = hex::record_of(moved, record[3], &data);
    }

    /// One fault in the characters of a text.
    pub fn damage_characters(&mut self, text: &mut Vec<u8>) {
        let place = self.chance.index(text.len());
        match self.chance.between(1, 14) {
            // No line feed at the end, also with a lone CR there.
            1 => {
                text.pop();
            }
            2 => {
                text.pop();
                text.push(b'\r');
            }
            3 => text.insert(place, self.chance.pick(b" \t")),
            4..=5 => self.insert_empty_line(text),
            6 => self.insert_before_line_feed(text, b'\r'),
            7 => self.insert_before_line_feed(text, b' '),
            8..=9 => self.add_behind_the_end(text),
            10..=11 => text[place] = self.odd_character(),
            12 => {
                text.remove(place);
            }
            13 => text.insert(place, self.odd_character()),
            _ => text.truncate(place),
        }
    }

    /// Neighbours of the digits' ranges, what a line is made of, and others.
    fn odd_character(&mut self) -> u8 {
        match self.chance.one_in(4) {
            true => self.chance.any() as u8,
            false => self.chance.pick(b"/09:;@AFG`afg\r\n 01"),
        }
    }

    fn insert_empty_line(&mut self, text: &mut Vec<u8>) {
        let starts = 1 + count_of_line_feeds(text);
        let at = start_of_line(text, self.chance.index(starts));
        let empty: &[u8] = match self.chance.one_in(2) {
            true => b"\n",
            false => b"\r\n",
        };
        text.splice(at..at, empty.iter().copied());
    }

    fn insert_before_line_feed(&mut self, text: &mut Vec<u8>, character: u8) {
        let ends = count_of_line_feeds(text);
        let at = start_of_line(text, 1 + self.chance.index(ends)) - 1;
        text.insert(at, character);
    }

    fn add_behind_the_end(&mut self, text: &mut Vec<u8>) {
        let behind: [&[u8]; 7] = [
            b"\n",
            b"\r",
            b"\x1a",
            b"\0",
            b":00000001FF\n",
            b":0100000000FF\n",
            b"no line at all",
        ];
        text.extend(self.chance.pick(&behind));
    }
}

fn make_sum_right(record: &mut Vec<u8>) {
    record.pop();
    let sum = record.iter().fold(0u8, |sum, byte| sum.wrapping_add(*byte));
    record.push(sum.wrapping_neg());
}

fn count_of_line_feeds(text: &[u8]) -> usize {
    text.iter().filter(|character| **character == b'\n').count()
}

/// Where the line begins that has so many lines before it.
fn start_of_line(text: &[u8], lines_before: usize) -> usize {
    let lines = text.split_inclusive(|character| *character == b'\n');
    lines.take(lines_before).map(<[u8]>::len).sum()
}
