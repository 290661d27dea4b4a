//! "After a cut-off write": the number still in the board goes into cells that have no
//! reading, at the next generation for which they have zero groups enough.

use crate::cells;
use crate::field::{self, Written};
use crate::layout::{Layout, Layouts, Shape, GROUPS_OFFERED};
use crate::refusal::Refusal;

#[derive(Clone, Debug, PartialEq, Eq)]
pub struct Resumed {
    pub written: Written,
    /// "The groups all ones now and not before", counted from 0, rising.
    pub erased: Vec<usize>,
}

/// Refusals in the order 1, 2, 3, 6, 17, 5, and in form 2, where "6 comes after 5", in the
/// order 1, 2, 3, 17, 5, 6.
pub fn resume(
    shape: &Shape,
    number: u64,
    cells: &[u8],
    layouts: &mut Layouts,
) -> Result<Resumed, Refusal> {
    let layout = layouts.grant(shape, GROUPS_OFFERED)?;
    let before = cells::groups_of(&layout, cells)?;
    if layout.has_one_range() {
        field::refuse_beyond(layout.range(1), number)?;
    }
    let counting = &mut layouts.counting;
    // "17 where the cells do have a reading or are blank": a write would take these, or
    // find them spent.
    if field::generation_due(&layout, &before, counting).is_ok() {
        return Err(Refusal::NotCutOff);
    }
    let generation = generation_left(&layout, &before).ok_or(Refusal::LastGenerationUsed)?;
    // "6 .. goes by the range of the generation found."
    field::refuse_beyond(layout.range(generation), number)?;
    let after = field::written_at(generation, &layout, &before, number, counting);
    Ok(Resumed {
        written: field::report(generation, &layout, cells, &after),
        erased: newly_erased(layout.erased(), &before, &after),
    })
}

/// "The first generation from 2 on whose h_i is at most the zero groups left." Nothing
/// where fewer than h_t are left.
pub fn generation_left(layout: &Layout, groups: &[u64]) -> Option<usize> {
    let zeros = field::zeros_among(groups);
    let mut generations = 2..=layout.generations();
    generations.find(|generation| layout.count(*generation) <= zeros)
}

fn newly_erased(erased: u64, before: &[u64], after: &[u64]) -> Vec<usize> {
    let is_new = |group: &usize| after[*group] == erased && before[*group] != erased;
    (0..after.len()).filter(is_new).collect()
}
