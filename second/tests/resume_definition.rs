//! Every buffer of small fields is resumed, and held to the list of its patterns.

#[path = "common/listed_field.rs"]
mod listed_field;
#[path = "common/listed_writes.rs"]
mod listed_writes;

use listed_field::{every_buffer, fields, Field};
use second::layout::Layouts;
use second::refusal::Refusal;
use second::resuming::{self, Resumed};

impl Field {
    fn resume_due(&self, cells: &[u8], number: u64) -> Result<Resumed, Refusal> {
        let before = self.groups(cells).ok_or(Refusal::WrongBytes)?;
        if self.shape.form < 2 && number >= self.range(1) {
            return Err(Refusal::NumberOutOfRange);
        }
        if !self.is_cut_off(cells) {
            return Err(Refusal::NotCutOff);
        }
        let zeros = before.iter().filter(|group| **group == 0).count();
        let enough = self.counts[1..].iter().position(|count| *count <= zeros);
        let generation = enough.ok_or(Refusal::LastGenerationUsed)? + 2;
        if number >= self.range(generation) {
            return Err(Refusal::NumberOutOfRange);
        }
        let written = self.written_at(generation, cells, number);
        let after = self
            .groups(&written.cells)
            .expect("no left-over bit is set");
        let is_new =
            |group: &usize| after[*group] == self.erased() && before[*group] != after[*group];
        Ok(Resumed {
            written,
            erased: (0..after.len()).filter(is_new).collect(),
        })
    }

    /// Neither blank nor readable, so that no generation is due and none has been used.
    fn is_cut_off(&self, cells: &[u8]) -> bool {
        let due = self.generation_due(cells);
        !matches!(due, Ok(_) | Err(Refusal::LastGenerationUsed))
    }

    /// Where there is anything to resume, every number with a cell byte and every ninth one
    /// with two.
    fn numbers_for(&self, cells: &[u8]) -> Vec<u64> {
        let longest = self.longest_range();
        match cells {
            _ if self.groups(cells).is_none() || !self.is_cut_off(cells) => vec![0, longest],
            [_] => (0..=longest).collect(),
            [first, ..] => (u64::from(first % 9)..=longest).step_by(9).collect(),
            [] => Vec::new(),
        }
    }
}

#[test]
fn every_buffer_of_small_fields() {
    let mut layouts = Layouts::default();
    let mut accepted = 0;
    for listed in fields() {
        let field = Field::new(&listed);
        for cells in every_buffer(field.bytes()) {
            for number in field.numbers_for(&cells) {
                let resumed = resuming::resume(&field.shape, number, &cells, &mut layouts);
                accepted += usize::from(resumed.is_ok());
                assert_eq!(resumed, field.resume_due(&cells, number), "{:?}", cells);
            }
        }
    }
    assert!(accepted > 100_000);
}

/// What the zeros point to is always the generation before the one that is written.
#[test]
fn the_generation_is_the_one_behind_that_of_the_refusal() {
    let mut layouts = Layouts::default();
    for listed in fields() {
        let field = Field::new(&listed);
        for cells in every_buffer(field.bytes()) {
            let pointed = match field.reading_due(&cells) {
                Err(Refusal::Miscounted { generation, .. } | Refusal::Beyond { generation }) => {
                    generation
                }
                _ => continue,
            };
            let resumed = resuming::resume(&field.shape, 0, &cells, &mut layouts);
            let written = resumed.map(|resumed| resumed.written.generation);
            match pointed == field.counts.len() {
                true => assert_eq!(written, Err(Refusal::LastGenerationUsed)),
                false => assert_eq!(written, Ok(pointed + 1)),
            }
        }
    }
}
