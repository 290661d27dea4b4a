//! Two fields as one, held to the lists of their patterns: all numbers from blank in every
//! order, and pairs of buffers.

#[path = "common/listed_field.rs"]
mod listed_field;
#[path = "common/listed_writes.rs"]
mod listed_writes;

use listed_field::{every_buffer, fields, Field};
use second::layout::Layouts;
use second::pairs::{self, PairReading, PairShape, PairWritten};
use second::refusal::Refusal;
use std::collections::HashSet;

/// Two listed fields of one form, m and range.
struct Listed {
    first: Field,
    second: Field,
    layouts: Layouts,
}

/// Each with itself and with every other one that it can be paired with.
fn listed_pairs() -> Vec<Listed> {
    let all = fields();
    let mut pairs = Vec::new();
    for one in &all {
        for other in &all {
            let is_of_one_range = one.0.form < 2 && one.0.ranges == other.0.ranges;
            if is_of_one_range && (one.0.form, one.0.m) == (other.0.form, other.0.m) {
                pairs.push(Listed {
                    first: Field::new(one),
                    second: Field::new(other),
                    layouts: Layouts::default(),
                });
            }
        }
    }
    pairs
}

/// The number that a field brings in and the writes that are left in it.
fn held(field: &Field, cells: &[u8]) -> Result<(u64, usize), Refusal> {
    match field.reading_due(cells) {
        Err(Refusal::Blank) => Ok((0, field.counts.len())),
        read => read.map(|read| (read.number, read.left)),
    }
}

impl Listed {
    fn shape(&self) -> PairShape {
        let (first, second) = (&self.first.shape, &self.second.shape);
        PairShape {
            form: first.form,
            m: first.m,
            t: [first.t, second.t],
            v: [first.ranges[0], second.ranges[0]],
        }
    }

    fn range(&self) -> u64 {
        self.first.longest_range()
    }

    fn read_due(&self, cells: [&[u8]; 2]) -> Result<PairReading, Refusal> {
        let first = self.first.reading_due(cells[0])?;
        let (number, left) = held(&self.second, cells[1])?;
        Ok(PairReading {
            number: (first.number + number) % self.range(),
            left: first.left + left,
        })
    }

    fn write_due(&self, number: u64, cells: [&[u8]; 2]) -> Result<PairWritten, Refusal> {
        self.first.groups(cells[0]).ok_or(Refusal::WrongBytes)?;
        if number >= self.range() {
            return Err(Refusal::NumberOutOfRange);
        }
        let (first, left_in_first) = held(&self.first, cells[0])?;
        let (second, _) = held(&self.second, cells[1])?;
        let (field, listed, other) = match left_in_first {
            0 => (1, &self.second, first),
            _ => (0, &self.first, second),
        };
        let generation = listed.generation_due(cells[field])?;
        let mut shares = 0..self.range();
        let share = shares.find(|share| (share + other) % self.range() == number);
        let share = share.expect("one makes the sum right");
        let written = listed.written_at(generation, cells[field], share);
        Ok(PairWritten { field, written })
    }

    fn check(&mut self, number: u64, cells: [&[u8]; 2]) {
        let shape = self.shape();
        let read = pairs::read(&shape, cells, &mut self.layouts);
        assert_eq!(read, self.read_due(cells), "{:?}", cells);
        let written = pairs::write(&shape, number, cells, &mut self.layouts);
        assert_eq!(written, self.write_due(number, cells), "{:?}", cells);
    }
}

type State = [Vec<u8>; 2];

/// Where every number of a range leads from some states, each read back. None may be
/// refused.
fn after_every_number(listed: &mut Listed, states: &HashSet<State>) -> HashSet<State> {
    let shape = listed.shape();
    let mut after = HashSet::new();
    for state in states {
        for number in 0..listed.range() {
            let lent = [&state[0][..], &state[1]];
            listed.check(number, lent);
            let told = pairs::write(&shape, number, lent, &mut listed.layouts);
            let told = told.expect("not both are spent");
            let mut next = state.clone();
            next[told.field] = told.written.cells;
            let lent = [&next[0][..], &next[1]];
            let read = pairs::read(&shape, lent, &mut listed.layouts);
            assert_eq!(read.map(|read| read.number), Ok(number));
            after.insert(next);
        }
    }
    after
}

/// Pairs whose states are few enough to go through all of them.
fn is_small(listed: &Listed) -> bool {
    let writes = listed.first.counts.len() + listed.second.counts.len();
    listed.range().pow(writes as u32) <= 1 << 16
}

/// Every run of t1 + t2 numbers. In form 1 both are spent then; in form 0 a 0 may have
/// used no generation.
#[test]
fn every_run_of_numbers_from_blank() {
    let mut pairs_tried = 0;
    for mut listed in listed_pairs().into_iter().filter(is_small) {
        pairs_tried += 1;
        let blank = [&listed.first, &listed.second].map(|field| vec![0; field.bytes()]);
        let mut states = HashSet::from([blank]);
        for _ in 0..listed.first.counts.len() + listed.second.counts.len() {
            states = after_every_number(&mut listed, &states);
        }
        let shape = listed.shape();
        for state in &states {
            let lent = [&state[0][..], &state[1]];
            let left = pairs::read(&shape, lent, &mut listed.layouts).map(|read| read.left);
            let written = pairs::write(&shape, 0, lent, &mut listed.layouts);
            let is_spent = written == Err(Refusal::LastGenerationUsed);
            assert_eq!(left == Ok(0), is_spent);
            assert!(is_spent || shape.form == 0);
        }
    }
    assert!(pairs_tried >= 10, "{}", pairs_tried);
}

/// Every pair of buffers of a byte each, with one number or another.
#[test]
fn every_pair_of_buffers_of_one_byte() {
    let is_of_a_byte = |listed: &Listed| listed.first.bytes() == 1 && listed.second.bytes() == 1;
    for mut listed in listed_pairs().into_iter().filter(is_of_a_byte) {
        let numbers = listed.range() + 1;
        for (place, first) in every_buffer(1).enumerate() {
            for (other, second) in every_buffer(1).enumerate() {
                let number = (place * 7 + other) as u64 % numbers;
                listed.check(number, [&first, &second]);
            }
        }
    }
}

/// Readable cells and others of two bytes on either side.
#[test]
fn some_pairs_of_buffers_of_two_bytes() {
    let is_longer = |listed: &Listed| listed.first.bytes() + listed.second.bytes() > 2;
    let mut written = 0;
    for mut listed in listed_pairs().into_iter().filter(is_longer) {
        let [firsts, seconds] = [&listed.first, &listed.second].map(some_cells);
        for first in &firsts {
            for (place, second) in seconds.iter().enumerate() {
                let number = place as u64 % (listed.range() + 1);
                listed.check(number, [first, second]);
                written += usize::from(listed.write_due(number, [first, second]).is_ok());
            }
        }
    }
    assert!(written > 10_000, "{}", written);
}

/// Blank ones, readable ones of all generations and some that have no reading.
fn some_cells(field: &Field) -> Vec<Vec<u8>> {
    let mut readable: Vec<Vec<u8>> = field.readable.keys().cloned().collect();
    readable.sort();
    let step = 1 + readable.len() / 40;
    let unreadable =
        every_buffer(field.bytes()).filter(|cells| !field.readable.contains_key(cells));
    let some = unreadable.step_by(1 + (1 << (8 * field.bytes())) / 20);
    let mut cells: Vec<Vec<u8>> = readable.into_iter().step_by(step).chain(some).collect();
    cells.push(vec![0; field.bytes()]);
    cells
}
