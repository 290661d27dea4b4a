//! "Cells in bytes": bytes to wits to group values and back.

use crate::layout::Layout;
use crate::refusal::Refusal;

/// "The buffer is exactly the least number of bytes that holds m·h_1 wits."
pub fn byte_count(layout: &Layout) -> usize {
    (layout.wits() + 7) / 8
}

/// "Wit w is bit 7 − (w mod 8) of byte w div 8, bit 7 being the high one."
fn wits_of(bytes: &[u8]) -> Vec<bool> {
    let wit = |w: usize| bytes[w / 8] >> (7 - w % 8) & 1 == 1;
    (0..8 * bytes.len()).map(wit).collect()
}

fn bytes_of(wits: &[bool]) -> Vec<u8> {
    let byte = |part: &[bool]| {
        let set = (0..8_u8).zip(part).filter(|(_, wit)| **wit);
        set.fold(0, |byte, (w, _)| byte | 1 << (7 - w))
    };
    wits.chunks(8).map(byte).collect()
}

/// Group values from left to right; refusal 3 for "wrong byte count, or a
/// left-over bit is 1".
pub fn groups_of(layout: &Layout, bytes: &[u8]) -> Result<Vec<u64>, Refusal> {
    if bytes.len() != byte_count(layout) {
        return Err(Refusal::WrongBytes);
    }
    let wits = wits_of(bytes);
    let (in_groups, left_over) = wits.split_at(layout.wits());
    if left_over.contains(&true) {
        return Err(Refusal::WrongBytes);
    }
    // "The first is the high bit of the group's value."
    let value = |group: &[bool]| group.iter().fold(0, |high, wit| 2 * high + u64::from(*wit));
    let groups = in_groups.chunks(layout.wits_in_group());
    Ok(groups.map(value).collect())
}

/// The way back from `groups_of`; the left-over bits are 0.
pub fn bytes_of_groups(layout: &Layout, groups: &[u64]) -> Vec<u8> {
    let bits = (0..layout.wits_in_group()).rev();
    let wits_of_group = |group: &u64| {
        let value = *group;
        bits.clone().map(move |bit| value >> bit & 1 == 1)
    };
    let wits: Vec<bool> = groups.iter().flat_map(wits_of_group).collect();
    bytes_of(&wits)
}

pub fn ones(bytes: &[u8]) -> u64 {
    bytes.iter().map(|byte| u64::from(byte.count_ones())).sum()
}
