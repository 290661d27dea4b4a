//! The calls on two fields as one, operations 16 and 17.

use super::call::{counted, Parts};
use super::{number, two_strings, Failure, Limits};
use crate::pairs::PairShape;
use std::io::Read;

#[derive(Clone, Debug, PartialEq, Eq)]
pub struct PairCall {
    pub pair: PairShape,
    /// What is written; nothing for a read.
    pub number: Option<u64>,
    pub cells: [Vec<u8>; 2],
}

pub(super) fn read_after(stream: &mut impl Read, limits: Limits) -> Result<PairCall, Failure> {
    Ok(PairCall {
        pair: pair(stream)?,
        number: None,
        cells: two_strings(limits, stream)?,
    })
}

pub(super) fn write_after(stream: &mut impl Read, limits: Limits) -> Result<PairCall, Failure> {
    Ok(PairCall {
        pair: pair(stream)?,
        number: Some(number(stream)?),
        cells: two_strings(limits, stream)?,
    })
}

fn pair(stream: &mut impl Read) -> Result<PairShape, Failure> {
    let (form, m) = (number(stream)?, number(stream)?);
    let (t1, v1) = (number(stream)?, number(stream)?);
    let (t2, v2) = (number(stream)?, number(stream)?);
    Ok(PairShape {
        form,
        m,
        t: [t1, t2],
        v: [v1, v2],
    })
}

impl PairCall {
    pub fn lent(&self) -> [&[u8]; 2] {
        [&self.cells[0], &self.cells[1]]
    }

    pub fn parts(&self) -> Parts<'_> {
        let PairShape { form, m, t, v } = self.pair;
        let mut numbers = vec![form, m, t[0], v[0], t[1], v[1]];
        numbers.extend(self.number);
        let operation = match self.number {
            None => 16,
            Some(_) => 17,
        };
        (operation, numbers, self.lent().to_vec())
    }

    pub fn meaning(&self) -> String {
        let PairShape { form, m, t, v } = self.pair;
        let fields = [0, 1].map(|field| {
            let cells = counted(&self.cells[field]);
            format!("t {}, v {}, {}", t[field], v[field], cells)
        });
        let given = format!("form {}, m {}, {}", form, m, fields.join(", "));
        match self.number {
            None => format!("pair read {}", given),
            Some(number) => format!("pair write {}, number {}", given, number),
        }
    }
}
