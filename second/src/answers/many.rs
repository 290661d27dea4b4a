//! The line that answers a call of many numbers.

use super::{in_hex, line, refused};
use crate::layout::Layouts;
use crate::many;
use crate::protocol::ManyCall;

/// Pairs of generation and turned count stand for the fields that were written, also
/// where a later one was refused.
pub fn answer(call: &ManyCall, layouts: &mut Layouts) -> String {
    let many = match many::write_many(&call.shape, &call.numbers, &call.cells, layouts) {
        Ok(many) => many,
        Err(refusal) => return line(&["many".to_string(), refused(refusal), in_hex(&call.cells)]),
    };
    let count = many.fields.len();
    let mut told = vec![match many.stop {
        None => format!("many 0 {}", count),
        Some(refusal) => format!("many {} field {}", refused(refusal), count),
    }];
    let fields = many.fields.iter();
    told.extend(fields.map(|field| format!("{} {}", field.generation, field.turned)));
    told.push(in_hex(&many.cells));
    line(&told)
}
