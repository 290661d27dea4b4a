//! The call that writes many numbers at once, operation 13.

use super::call::{numbers_of, of_cells, words, Parts};
use super::{counted_bytes, counted_numbers, shape, Failure, Limits};
use crate::layout::Shape;
use std::io::Read;

/// More than a call may write, so that such a call can be asked for and refused.
const MOST_NUMBERS: u64 = 128;

#[derive(Clone, Debug, PartialEq, Eq)]
pub struct ManyCall {
    pub shape: Shape,
    pub numbers: Vec<u64>,
    pub cells: Vec<u8>,
}

pub(super) fn call_after(stream: &mut impl Read, limits: Limits) -> Result<ManyCall, Failure> {
    Ok(ManyCall {
        shape: shape(stream)?,
        numbers: counted_numbers(MOST_NUMBERS, stream)?,
        cells: counted_bytes(limits, stream)?,
    })
}

impl ManyCall {
    pub fn parts(&self) -> Parts<'_> {
        let count = self.numbers.len() as u64;
        let numbers = [&numbers_of(&self.shape)[..], &[count], &self.numbers];
        (13, numbers.concat(), vec![&self.cells])
    }

    pub fn meaning(&self) -> String {
        let count = match self.numbers.len() {
            1 => "1 number".to_string(),
            count => format!("{} numbers", count),
        };
        let cells = of_cells(&self.cells);
        format!("write many {}, {}, {}", words(&self.shape), count, cells)
    }
}
