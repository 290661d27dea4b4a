//! The call that resumes a write, operation 15.

use super::call::{numbers_of, of_cells, words, Parts};
use super::{counted_bytes, number, shape, Failure, Limits};
use crate::layout::Shape;
use std::io::Read;

#[derive(Clone, Debug, PartialEq, Eq)]
pub struct ResumeCall {
    pub shape: Shape,
    pub number: u64,
    pub cells: Vec<u8>,
}

pub(super) fn call_after(stream: &mut impl Read, limits: Limits) -> Result<ResumeCall, Failure> {
    Ok(ResumeCall {
        shape: shape(stream)?,
        number: number(stream)?,
        cells: counted_bytes(limits, stream)?,
    })
}

impl ResumeCall {
    pub fn parts(&self) -> Parts<'_> {
        let numbers = [&numbers_of(&self.shape)[..], &[self.number]];
        (15, numbers.concat(), vec![&self.cells])
    }

    pub fn meaning(&self) -> String {
        let given = format!("{}, number {}", words(&self.shape), self.number);
        format!("resume {}, {}", given, of_cells(&self.cells))
    }
}
