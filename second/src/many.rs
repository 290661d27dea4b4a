//! "A quarter's numbers at once": one call for as many fields of one layout as there
//! are numbers, the fields lying end to end.

use crate::cells;
use crate::field::{self, Written};
use crate::layout::{Layouts, Shape, GROUPS_OFFERED};
use crate::refusal::Refusal;

/// "Up to 64 numbers".
pub const MOST_NUMBERS: usize = 64;

/// What single writes, one after another up to the first refusal, come to.
#[derive(Clone, Debug, PartialEq, Eq)]
pub struct ManyWritten {
    /// The fields that were written, in order.
    pub fields: Vec<Written>,
    /// Why the field behind them was refused. Counted from 0, its place is their count.
    pub stop: Option<Refusal>,
    /// Of all fields. The refused one and those behind it are as they were.
    pub cells: Vec<u8>,
}

/// Refusals before any write in the order 14, 1, 2, 3, where 3 is about the length
/// alone. Fields are then refused as single writes are, each when it is reached.
pub fn write_many(
    shape: &Shape,
    numbers: &[u64],
    cells: &[u8],
    layouts: &mut Layouts,
) -> Result<ManyWritten, Refusal> {
    if numbers.len() > MOST_NUMBERS {
        return Err(Refusal::TooManyNumbers);
    }
    let layout = layouts.grant(shape, GROUPS_OFFERED)?;
    let field_bytes = cells::byte_count(&layout);
    if cells.len() != numbers.len() * field_bytes {
        return Err(Refusal::WrongBytes);
    }
    let mut fields = Vec::new();
    let mut stop = None;
    for (number, field) in numbers.iter().zip(cells.chunks(field_bytes)) {
        match field::write(shape, *number, field, layouts) {
            Ok(written) => fields.push(written),
            Err(refusal) => {
                stop = Some(refusal);
                break;
            }
        }
    }
    let mut after: Vec<u8> = fields
        .iter()
        .flat_map(|field| field.cells.clone())
        .collect();
    after.extend(&cells[after.len()..]);
    Ok(ManyWritten {
        fields,
        stop,
        cells: after,
    })
}
