//! Dumps for made calls: whole, damaged, malformed and of full size.

use super::shapes::BOUNDARY_NUMBERS;
use super::Maker;
use crate::dump::{self, LARGEST_SERIAL};
use crate::layout::OldShape;

/// Which of a record's five numbers is n.
const COUNT: usize = 4;

impl Maker {
    pub fn serial(&mut self) -> u64 {
        let boundaries = [0, 127, 128, 16_383, 16_384, LARGEST_SERIAL - 1];
        match self.chance.between(1, 10) {
            1..=2 => LARGEST_SERIAL,
            3..=4 => self.chance.pick(&boundaries),
            _ => self.chance.of_any_length(63),
        }
    }

    pub fn dump(&mut self) -> Vec<u8> {
        match self.chance.between(1, 100) {
            1..=4 => Vec::new(),
            5..=9 => {
                let count = self.chance.index(24);
                self.chance.bytes(count)
            }
            10..=40 => self.whole_records(4),
            41..=52 => {
                let dump = self.some_records();
                self.truncated(dump)
            }
            53..=64 => {
                let dump = self.some_records();
                self.corrupted(dump)
            }
            _ => self.dump_with_an_odd_record(),
        }
    }

    fn whole_records(&mut self, most: usize) -> Vec<u8> {
        let count = self.chance.index(most + 1);
        (0..count).flat_map(|_| self.record()).collect()
    }

    /// A whole record, its cells readable or not.
    fn record(&mut self) -> Vec<u8> {
        let shape = self.shape_of_a_record();
        let cells = self.cells(&shape.in_form_0());
        dump::record_bytes(self.serial(), shape, &cells)
    }

    /// Nine bytes hold no number above the largest serial.
    pub fn shape_of_a_record(&mut self) -> OldShape {
        let shape = self.old_shape();
        OldShape {
            m: shape.m.min(LARGEST_SERIAL),
            t: shape.t.min(LARGEST_SERIAL),
            v: shape.v.min(LARGEST_SERIAL),
        }
    }

    fn some_records(&mut self) -> Vec<u8> {
        let mut dump = self.whole_records(1);
        dump.extend(self.record());
        dump
    }

    pub fn truncated(&mut self, dump: Vec<u8>) -> Vec<u8> {
        let mut dump = dump;
        let length = self.chance.index(dump.len());
        dump.truncate(length);
        dump
    }

    pub fn corrupted(&mut self, dump: Vec<u8>) -> Vec<u8> {
        let mut dump = dump;
        let place = self.chance.index(dump.len());
        dump[place] = match self.chance.one_in(2) {
            true => dump[place] ^ (1 << self.chance.index(8)),
            false => self.chance.any() as u8,
        };
        dump
    }

    /// Whole records, one with an odd number, and perhaps more after it.
    fn dump_with_an_odd_record(&mut self) -> Vec<u8> {
        let mut dump = self.whole_records(1);
        dump.extend(self.odd_record());
        dump.extend(self.whole_records(1));
        dump
    }

    fn odd_record(&mut self) -> Vec<u8> {
        let shape = self.old_shape();
        let cells = self.cells(&shape.in_form_0());
        let numbers = [self.serial(), shape.m, shape.t, shape.v, cells.len() as u64];
        // n is the number that a reader acts on, so it is odd most often.
        let odd = match self.chance.one_in(3) {
            true => COUNT,
            false => self.chance.index(numbers.len()),
        };
        let mut record = self.numbers_with_an_odd_one(&numbers, odd);
        record.extend(cells);
        record
    }

    pub fn numbers_with_an_odd_one(&mut self, numbers: &[u64], odd: usize) -> Vec<u8> {
        let mut bytes = Vec::new();
        for (place, number) in numbers.iter().enumerate() {
            if place == odd {
                bytes.extend(self.odd_number(*number));
            } else {
                bytes.extend(dump::number_bytes(*number));
            }
        }
        bytes
    }

    /// Longer than needed, longer than allowed, or another number than is due.
    fn odd_number(&mut self, due: u64) -> Vec<u8> {
        match self.chance.between(1, 12) {
            1..=3 => {
                let shortest = dump::number_bytes(due).len();
                let length = self.chance.between(shortest as u64 + 1, 11);
                lengthened(due, length as usize)
            }
            4 => lengthened(self.chance.between(0, 127), 1 + self.chance.index(11)),
            5 => dump::number_bytes(LARGEST_SERIAL),
            6 => dump::number_bytes(1 << 63),
            7 => dump::number_bytes(u64::MAX),
            8 => dump::number_bytes(due.saturating_add(1)),
            9 => dump::number_bytes(due.saturating_sub(1)),
            10 => vec![0x80; 1 + self.chance.index(11)],
            11 => vec![0],
            _ => dump::number_bytes(self.chance.pick(&BOUNDARY_NUMBERS)),
        }
    }

    /// A dump of exactly this length. It ends with a whole record or, at times,
    /// with one cut off.
    pub fn dump_of_length(&mut self, length: usize) -> Vec<u8> {
        let mut dump = Vec::with_capacity(length);
        if self.chance.one_in(3) {
            dump.extend(self.long_record(length / 2));
        }
        self.filled_to(length, dump, &[7, 2, 3, 4], Maker::record)
    }

    /// Goes on with records to exactly this length. The last one has the head that is
    /// given.
    pub fn filled_to(
        &mut self,
        length: usize,
        front: Vec<u8>,
        last_head: &[u8],
        mut record: impl FnMut(&mut Maker) -> Vec<u8>,
    ) -> Vec<u8> {
        let mut dump = front;
        // With 127 cell bytes at most, n is one byte.
        let before_cells = last_head.len() + 1;
        while length - dump.len() > before_cells + 127 {
            let record = record(self);
            if record.len() + before_cells <= length - dump.len() {
                dump.extend(record);
            }
        }
        let cells = length - dump.len() - before_cells;
        let said = cells + usize::from(self.chance.one_in(4));
        dump.extend(last_head);
        dump.push(said as u8);
        dump.extend(vec![0; cells]);
        dump
    }

    fn long_record(&mut self, cells: usize) -> Vec<u8> {
        let shape = self.shape_of_a_record();
        let cells = self.chance.bytes(cells);
        dump::record_bytes(self.serial(), shape, &cells)
    }
}

/// The number in at least `length` bytes, so mostly not in shortest form.
fn lengthened(number: u64, length: usize) -> Vec<u8> {
    let mut bytes = dump::number_bytes(number);
    while bytes.len() < length {
        if let Some(last) = bytes.last_mut() {
            *last |= 0x80;
        }
        bytes.push(0);
    }
    bytes
}
