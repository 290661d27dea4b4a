//! The sample dumps that the repository ships: a morning's fetch from six drives,
//! and the same with three new drives as a new dump.

use crate::cells;
use crate::dump;
use crate::field;
use crate::layout::{Layouts, OldShape, Shape, GROUPS_OFFERED};
use crate::newdump;
use crate::refusal::Refusal;

const COUNTER: OldShape = OldShape {
    m: 2,
    t: 10,
    v: 1 << 56,
};
const SMALL: OldShape = OldShape { m: 2, t: 3, v: 4 };
const SMALL_FIELD: (u64, [u8; 1]) = (77, [0x4f]);

/// A serial and its cells.
type Field = (u64, Vec<u8>);

/// The drives in service and a small field.
pub fn sample_dump(layouts: &mut Layouts) -> Result<Vec<u8>, Refusal> {
    let mut dump = Vec::new();
    for (serial, cells) in drives_in_service(layouts)? {
        dump.extend(dump::record_bytes(serial, COUNTER, &cells));
    }
    let (serial, cells) = SMALL_FIELD;
    dump.extend(dump::record_bytes(serial, SMALL, &cells));
    Ok(dump)
}

/// The records of the old sample in their order, then the new drives.
pub fn sample_new_dump(layouts: &mut Layouts) -> Result<Vec<u8>, Refusal> {
    let shapes = [COUNTER.in_form_0(), SMALL.in_form_0(), COUNTER.in_form(1)];
    let mut dump = newdump::list_bytes(&shapes);
    for (serial, cells) in drives_in_service(layouts)? {
        dump.extend(newdump::record_bytes(serial, 0, &cells));
    }
    let (serial, cells) = SMALL_FIELD;
    dump.extend(newdump::record_bytes(serial, 1, &cells));
    for (serial, cells) in new_drives(layouts)? {
        dump.extend(newdump::record_bytes(serial, 2, &cells));
    }
    Ok(dump)
}

/// Readable, blank, spent and damaged fields of the 278-wit counter.
fn drives_in_service(layouts: &mut Layouts) -> Result<Vec<Field>, Refusal> {
    let mut after = |numbers: &[u64]| cells_after(&COUNTER.in_form_0(), numbers, layouts);
    let spent: Vec<u64> = (1..=10).map(|month| 41_870 + 113 * month).collect();
    let mut damaged = after(&[512_004, 512_377])?;
    damaged[17] |= 0x0c;
    Ok(vec![
        (4001, after(&[118_204])?),
        (4002, after(&[118_204, 118_951, 119_530])?),
        (4003, after(&[])?),
        (4004, after(&spent)?),
        (4005, damaged),
        (4006, after(&[0, 0, (1 << 56) - 1])?),
    ])
}

/// One that has not reported yet, one that has reported a 0, and one further on.
fn new_drives(layouts: &mut Layouts) -> Result<Vec<Field>, Refusal> {
    let mut after = |numbers: &[u64]| cells_after(&COUNTER.in_form(1), numbers, layouts);
    Ok(vec![
        (5001, after(&[])?),
        (5002, after(&[0])?),
        (5003, after(&[0, 640])?),
    ])
}

fn cells_after(shape: &Shape, numbers: &[u64], layouts: &mut Layouts) -> Result<Vec<u8>, Refusal> {
    let layout = layouts.grant(shape, GROUPS_OFFERED)?;
    let mut cells = vec![0; cells::byte_count(&layout)];
    for number in numbers {
        cells = field::write(shape, *number, &cells, layouts)?.cells;
    }
    Ok(cells)
}
