//! "Two fields as one": two fields of one range side by side hold the sum of their numbers
//! modulo the range.

use crate::cells;
use crate::counting::Counting;
use crate::field::{self, Reading, Written};
use crate::layout::{Layout, Layouts, OldShape, Shape, GROUPS_OFFERED};
use crate::refusal::Refusal;

/// "They share m and form and may differ in t." Both ranges are given, so that unequal ones
/// can be refused.
#[derive(Clone, Copy, Debug, PartialEq, Eq)]
pub struct PairShape {
    pub form: u64,
    pub m: u64,
    pub t: [u64; 2],
    pub v: [u64; 2],
}

#[derive(Clone, Copy, Debug, PartialEq, Eq)]
pub struct PairReading {
    pub number: u64,
    /// Writes left in both together.
    pub left: usize,
}

#[derive(Clone, Debug, PartialEq, Eq)]
pub struct PairWritten {
    /// Which of the two was written, 0 or 1. The other one is as it was.
    pub field: usize,
    pub written: Written,
}

impl PairShape {
    /// "Forms 0 and 1 only": form 2 has as many ranges as generations and never one alone,
    /// so that it is out of bounds here.
    pub fn shape(&self, field: usize) -> Shape {
        let (m, t, v) = (self.m, self.t[field], self.v[field]);
        OldShape { m, t, v }.in_form(self.form)
    }

    /// "18 for unequal v, before either", within bounds or not.
    fn refuse_unequal(&self) -> Result<(), Refusal> {
        match self.v[0] == self.v[1] {
            true => Ok(()),
            false => Err(Refusal::UnequalRanges),
        }
    }
}

/// Refusals in the order 18; of the first field 1, 2, 3, 11, 15, 16; of the second 1, 2, 3,
/// 15, 16.
pub fn read(
    pair: &PairShape,
    cells: [&[u8]; 2],
    layouts: &mut Layouts,
) -> Result<PairReading, Refusal> {
    pair.refuse_unequal()?;
    let first = field::read(&pair.shape(0), cells[0], layouts)?;
    let second = Side::opened(pair.shape(1), cells[1], layouts)?;
    let second = second.held(&mut layouts.counting)?;
    Ok(PairReading {
        number: (first.number + second.number) % pair.v[0],
        left: first.left + second.left,
    })
}

/// Refusals in the order 18; of the first field 1, 2, 3, 6, 15, 16; of the second 1, 2, 3,
/// 15, 16; then 5, "only when both are spent". The lent cells stay as they are.
pub fn write(
    pair: &PairShape,
    number: u64,
    cells: [&[u8]; 2],
    layouts: &mut Layouts,
) -> Result<PairWritten, Refusal> {
    pair.refuse_unequal()?;
    let range = pair.v[0];
    let first = Side::opened(pair.shape(0), cells[0], layouts)?;
    field::refuse_beyond(range, number)?;
    let of_first = first.held(&mut layouts.counting)?;
    let second = Side::opened(pair.shape(1), cells[1], layouts)?;
    let of_second = second.held(&mut layouts.counting)?;
    // "Write the first until it is spent, then the second."
    let (field, other) = match (of_first.left, of_second.left) {
        (0, 0) => return Err(Refusal::LastGenerationUsed),
        (0, _) => (1, of_first.number),
        _ => (0, of_second.number),
    };
    // "The number that makes the sum right modulo v."
    let share = (number + range - other) % range;
    let written = field::write(&pair.shape(field), share, cells[field], layouts)?;
    Ok(PairWritten { field, written })
}

/// One of the two fields, past refusals 1 to 3.
struct Side {
    layout: Layout,
    groups: Vec<u64>,
}

impl Side {
    fn opened(shape: Shape, cells: &[u8], layouts: &mut Layouts) -> Result<Side, Refusal> {
        let layout = layouts.grant(&shape, GROUPS_OFFERED)?;
        let groups = cells::groups_of(&layout, cells)?;
        Ok(Side { layout, groups })
    }

    /// What it brings into the sum: "a blank second counts as 0 in every form", and so does
    /// a blank first that is written. Refusals in the order 15, 16.
    fn held(&self, counting: &mut Counting) -> Result<Reading, Refusal> {
        match field::read_groups(&self.layout, &self.groups, counting) {
            Err(Refusal::Blank) => Ok(Reading {
                generation: 1,
                number: 0,
                left: self.layout.generations(),
            }),
            read => read,
        }
    }
}
