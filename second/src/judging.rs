//! "Boards from our second supplier": whether the cells after are a right write on the
//! cells before, whichever zero groups the board erased as spare ones.

use crate::cells;
use crate::field;
use crate::layout::{Layouts, Shape, GROUPS_OFFERED};
use crate::refusal::Refusal;

#[derive(Clone, Copy, Debug, PartialEq, Eq)]
pub enum Judged {
    /// "Yes with the new number".
    Yes {
        number: u64,
    },
    No,
}

/// Refusals in the order 1, 2; of the before cells 3, 15, 16; of the after cells 3, 11,
/// 15, 16.
pub fn judge(
    shape: &Shape,
    before: &[u8],
    after: &[u8],
    layouts: &mut Layouts,
) -> Result<Judged, Refusal> {
    let layout = layouts.grant(shape, GROUPS_OFFERED)?;
    let counting = &mut layouts.counting;
    let before = cells::groups_of(&layout, before)?;
    // "Blank before cells are due generation 1 in every form."
    let due = field::generation_due(&layout, &before, counting)?;
    let after = cells::groups_of(&layout, after)?;
    let reading = field::read_groups(&layout, &after, counting)?;
    // "Spent before cells get no": no reading is of generation t + 1.
    let is_right = reading.generation == due
        && none_fell(&before, &after)
        && (due == 1 || are_erased(&before, &after, layout.erased()));
    Ok(match is_right {
        true => Judged::Yes {
            number: reading.number,
        },
        false => Judged::No,
    })
}

/// "No 1 became 0."
fn none_fell(before: &[u64], after: &[u64]) -> bool {
    let mut groups = before.iter().zip(after);
    groups.all(|(before, after)| before & !after == 0)
}

/// "Every group nonzero before is erased after from generation 2 on."
fn are_erased(before: &[u64], after: &[u64], erased: u64) -> bool {
    let mut groups = before.iter().zip(after);
    groups.all(|(before, after)| *before == 0 || *after == erased)
}
