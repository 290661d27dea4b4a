//! The line that answers a call to resume a write.

use super::{in_hex, line, refused};
use crate::layout::Layouts;
use crate::protocol::ResumeCall;
use crate::resuming;

pub fn answer(call: &ResumeCall, layouts: &mut Layouts) -> String {
    let resumed = match resuming::resume(&call.shape, call.number, &call.cells, layouts) {
        Ok(resumed) => resumed,
        Err(refusal) => {
            let told = [refused(refusal), in_hex(&call.cells)];
            return line(&[&["resume".to_string()], &told[..]].concat());
        }
    };
    let written = resumed.written;
    let count = resumed.erased.len();
    let mut told = vec![format!(
        "resume 0 {} {} {}",
        written.generation, written.turned, count
    )];
    told.extend(resumed.erased.iter().map(usize::to_string));
    told.push(in_hex(&written.cells));
    line(&told)
}
