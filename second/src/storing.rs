//! What calls with a lent output have in common.

use crate::refusal::Refusal;

/// "Stores the record at the front of the output, leaves later bytes unchanged, and
/// answers its length", or refusal 9 where it is "shorter than the record".
pub fn store_in_front(bytes: &[u8], output: &mut [u8]) -> Result<usize, Refusal> {
    let front = output
        .get_mut(..bytes.len())
        .ok_or(Refusal::OutputTooShort)?;
    front.copy_from_slice(bytes);
    Ok(bytes.len())
}
