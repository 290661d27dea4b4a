//! The call that judges a field before and after, operation 14.

use super::call::{counted, numbers_of, words, Parts};
use super::{shape, two_strings, Failure, Limits};
use crate::layout::Shape;
use std::io::Read;

#[derive(Clone, Debug, PartialEq, Eq)]
pub struct JudgeCall {
    pub shape: Shape,
    pub before: Vec<u8>,
    pub after: Vec<u8>,
}

pub(super) fn call_after(stream: &mut impl Read, limits: Limits) -> Result<JudgeCall, Failure> {
    let shape = shape(stream)?;
    let [before, after] = two_strings(limits, stream)?;
    Ok(JudgeCall {
        shape,
        before,
        after,
    })
}

impl JudgeCall {
    pub fn parts(&self) -> Parts<'_> {
        let strings = vec![&self.before[..], &self.after];
        (14, numbers_of(&self.shape), strings)
    }

    pub fn meaning(&self) -> String {
        let (before, after) = (counted(&self.before), counted(&self.after));
        let given = words(&self.shape);
        format!("judge {}, {} before, {} after", given, before, after)
    }
}
