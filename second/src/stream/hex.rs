//! Bytes and HEX texts for made calls: standard texts, good ones of every shape,
//! damaged ones, and texts of full size.

use super::Maker;
use crate::hex::{self, DATA_TYPE, END_TYPE, MOST_BYTES};
use crate::protocol::{Call, Limits};

/// How the lines of a text are written.
#[derive(Clone, Copy)]
pub struct Style {
    /// Of two letters so many are lower case: none, each as it comes, or both.
    lower_of_two: usize,
    /// Of two lines so many end in CR LF.
    returned_of_two: usize,
}

impl Maker {
    pub fn hex_export_call(&mut self) -> Call {
        let bytes = self.bytes_for_hex();
        let due = hex::text_of(&bytes).len();
        Call::HexExport {
            output_length: self.output_length_around(due),
            bytes,
        }
    }

    pub fn hex_import_call(&mut self) -> Call {
        let bytes = self.bytes_for_hex();
        let text = self.hex_text(&bytes);
        let due = hex::bytes_of(&text).map_or(bytes.len(), |bytes| bytes.len());
        Call::HexImport {
            output_length: self.output_length_around(due),
            text,
        }
    }

    pub fn output_length_around(&mut self, due: usize) -> u64 {
        let due = due as u64;
        let length = match self.chance.between(1, 16) {
            1..=3 => due.saturating_sub(1),
            4..=8 => due,
            9..=10 => due + 1,
            11..=12 => due + self.chance.between(0, 20),
            13 => 0,
            14 => self.chance.between(0, due),
            15 => 300,
            _ => self.chance.pick(&[1, 16, 128, Limits::USUAL.output]),
        };
        length.min(self.limits.output)
    }

    /// Few bytes mostly; at times as many as an output of 1,024 has room for.
    fn bytes_for_hex(&mut self) -> Vec<u8> {
        let count = match self.chance.between(1, 16) {
            1 => 0,
            2..=4 => self.chance.pick(&[1, 15, 16, 17, 32, 35]),
            5 => self.chance.pick(&[255, 256, 257, 368, 369]),
            6 => self.chance.index(400),
            _ => self.chance.index(40),
        };
        self.chance.bytes(count)
    }

    fn hex_text(&mut self, bytes: &[u8]) -> Vec<u8> {
        let style = self.style();
        let mut records = self.records(bytes);
        match self.chance.between(1, 50) {
            1 => Vec::new(),
            2 => {
                let count = self.chance.index(40);
                self.chance.bytes(count)
            }
            3..=6 => hex::text_of(bytes),
            7..=20 => self.lines(&records, style),
            21..=34 => {
                self.damage_records(&mut records);
                self.lines(&records, style)
            }
            35..=46 => {
                let mut text = self.lines(&records, style);
                self.damage_characters(&mut text);
                text
            }
            // Two faults, so that their order decides.
            _ => {
                self.damage_records(&mut records);
                self.damage_records(&mut records);
                self.lines(&records, style)
            }
        }
    }

    fn style(&mut self) -> Style {
        Style {
            lower_of_two: self.chance.index(3),
            returned_of_two: self.chance.index(3),
        }
    }

    /// Good records: the bytes in lines of any length, lines of no data at any
    /// address between them, and the end.
    fn records(&mut self, bytes: &[u8]) -> Vec<Vec<u8>> {
        let mut records = Vec::new();
        let mut address = 0;
        while address < bytes.len() {
            self.push_no_data_at_times(&mut records);
            let count = self.data_on_a_line().min(bytes.len() - address);
            let data = &bytes[address..address + count];
            records.push(hex::record_of(address, DATA_TYPE, data));
            address += count;
        }
        self.push_no_data_at_times(&mut records);
        records.push(hex::record_of(0, END_TYPE, &[]));
        records
    }

    fn push_no_data_at_times(&mut self, records: &mut Vec<Vec<u8>>) {
        if self.chance.one_in(10) {
            let address = self.chance.pick(&[0, 1, 16, 0xffff, 0x0a0b]);
            records.push(hex::record_of(address, DATA_TYPE, &[]));
        }
    }

    fn data_on_a_line(&mut self) -> usize {
        match self.chance.between(1, 8) {
            1 => 255,
            2..=3 => 16,
            4 => 1 + self.chance.index(255),
            _ => 1 + self.chance.index(24),
        }
    }

    pub fn lines(&mut self, records: &[Vec<u8>], style: Style) -> Vec<u8> {
        let mut text = Vec::new();
        for record in records {
            let is_returned = self.chance.index(2) < style.returned_of_two;
            self.push_line(record, style, is_returned, &mut text);
        }
        text
    }

    fn push_line(&mut self, record: &[u8], style: Style, is_returned: bool, text: &mut Vec<u8>) {
        let digits: String = record.iter().map(|byte| format!("{:02X}", byte)).collect();
        text.push(b':');
        for digit in digits.bytes() {
            let is_lower = self.chance.index(2) < style.lower_of_two;
            let lower = digit.to_ascii_lowercase();
            text.push(if is_lower { lower } else { digit });
        }
        text.extend(if is_returned { "\r\n" } else { "\n" }.bytes());
    }

    /// How many of them there are.
    pub fn full_size_hex_calls(&self) -> u64 {
        match self.limits {
            Limits::LARGE => 11,
            _ => 4,
        }
    }

    /// The calls of full size that a stream ends with, from the last one back.
    pub fn full_size_hex_call(&mut self, place: u64) -> Option<Call> {
        match place {
            0 => Some(self.export_of_length(MOST_BYTES, 0)),
            1 => Some(self.export_of_length(MOST_BYTES + 1, 0)),
            2 => Some(self.import_of_longest_text()),
            3 => Some(self.import_of_most_bytes()),
            4.. if self.limits == Limits::LARGE => self.larger_hex_call(place - 4),
            _ => None,
        }
    }

    /// The further ones of a stream whose calls have room for whole texts.
    fn larger_hex_call(&mut self, place: u64) -> Option<Call> {
        match place {
            0 => Some(self.export_of_length(MOST_BYTES, 1)),
            1 => Some(self.import_of_full_size(&[], 0)),
            2 => Some(self.import_of_full_size(&[], 1)),
            // A line at the last address once more, one that starts again at 0, and
            // one with no data.
            3 => Some(self.import_of_full_size(&[hex::record_of(0xffff, DATA_TYPE, &[0])], 0)),
            4 => Some(self.import_of_full_size(&[hex::record_of(0, DATA_TYPE, &[0])], 0)),
            5 => Some(self.import_of_full_size(&[hex::record_of(0, DATA_TYPE, &[])], 0)),
            6 => Some(self.import_past_the_last_address()),
            _ => None,
        }
    }

    fn export_of_length(&mut self, count: usize, missing: u64) -> Call {
        let bytes = self.chance.bytes(count);
        let due = hex::text_of(&bytes).len() as u64 - missing;
        Call::HexExport {
            output_length: due.min(self.limits.output),
            bytes,
        }
    }

    /// Lines of no data fill the text to the last character that a call may have.
    fn import_of_longest_text(&mut self) -> Call {
        let style = self.style();
        let bytes = self.chance.bytes(1_000);
        let mut records = self.records(&bytes);
        let end = records.pop().unwrap_or_default();
        let mut text = self.lines(&records, style);
        let room = self.limits.bytes as usize - text.len();
        // Lines have 12 characters, and those with CR LF 13.
        for place in (0..room / 12).rev() {
            let filling = hex::record_of(place, DATA_TYPE, &[]);
            let record = if place == 0 { &end } else { &filling };
            self.push_line(record, style, place < room % 12, &mut text);
        }
        Call::HexImport {
            output_length: 1_000,
            text,
        }
    }

    /// As much data as a call's text has room for in lines of 255 bytes, or as
    /// addresses are there.
    fn import_of_most_bytes(&mut self) -> Call {
        let longest_line = 11 + 2 * 255 + 2;
        let lines = self.limits.bytes as usize / longest_line - 1;
        let bytes = self.chance.bytes((255 * lines).min(MOST_BYTES));
        let text = self.text_in_lines_of(255, &bytes, &[]);
        Call::HexImport {
            output_length: self.limits.output.min(MOST_BYTES as u64),
            text,
        }
    }

    /// The text of 65,536 bytes, with further records before the end.
    fn import_of_full_size(&mut self, further: &[Vec<u8>], missing: u64) -> Call {
        let bytes = self.chance.bytes(MOST_BYTES);
        let text = self.text_in_lines_of(16, &bytes, further);
        Call::HexImport {
            output_length: MOST_BYTES as u64 - missing,
            text,
        }
    }

    fn import_past_the_last_address(&mut self) -> Call {
        let bytes = self.chance.bytes(MOST_BYTES - 1);
        let past = hex::record_of(0xffff, DATA_TYPE, &[1, 2]);
        Call::HexImport {
            output_length: self.limits.output,
            text: self.text_in_lines_of(255, &bytes, &[past]),
        }
    }

    fn text_in_lines_of(&mut self, count: usize, bytes: &[u8], further: &[Vec<u8>]) -> Vec<u8> {
        let record = |(place, data)| hex::record_of(place * count, DATA_TYPE, data);
        let mut records: Vec<Vec<u8>> = bytes.chunks(count).enumerate().map(record).collect();
        records.extend_from_slice(further);
        records.push(hex::record_of(0, END_TYPE, &[]));
        let style = self.style();
        self.lines(&records, style)
    }
}
