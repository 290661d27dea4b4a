//! "Layouts said once" (document 02, §3): the dump that lists its layouts before its
//! records, its walk, the moves from and to old dumps, and export for it. By §7 a layout
//! of form 2 is listed with all of its ranges.

use crate::cells;
use crate::dump::{self, Ending, Unread, LARGEST_SERIAL, LONGEST_DUMP};
use crate::field::{self, Reading};
use crate::layout::{self, Layouts, OldShape, Shape, GENERATION_BOUNDS, GROUPS_OFFERED};
use crate::refusal::Refusal;
use crate::storing::store_in_front;

/// "The count of layouts (at most 64)".
pub const MOST_LAYOUTS: usize = 64;

/// A layout's numbers as a dump lists them, within their bounds or not: "form, m, t, v of
/// each", and in form 2 "form, m, t and then t ranges".
pub fn listed_numbers(layout: &Shape) -> Vec<u64> {
    [&[layout.form, layout.m, layout.t], &layout.ranges[..]].concat()
}

pub fn listed_bytes(layout: &Shape) -> Vec<u8> {
    let numbers = listed_numbers(layout).into_iter();
    numbers.flat_map(dump::number_bytes).collect()
}

/// The count of layouts and each of them.
pub fn list_bytes(listed: &[Shape]) -> Vec<u8> {
    let mut list = dump::number_bytes(listed.len() as u64);
    list.extend(listed.iter().flat_map(listed_bytes));
    list
}

/// "Records of serial, layout number from 0, n and n bytes".
pub fn record_bytes(serial: u64, number: u64, cells: &[u8]) -> Vec<u8> {
    dump::record_with_head(&[serial, number], cells)
}

/// One whole record of a new dump.
#[derive(Clone, Debug, PartialEq, Eq)]
pub struct Record<'dump> {
    pub serial: u64,
    /// Which of the listed layouts it has.
    pub number: usize,
    pub layout: Shape,
    pub start: usize,
    pub cells: &'dump [u8],
    /// Refusals 1, 2, 3, 11, 15 and 16 belong to the record and the walk goes on.
    pub outcome: Result<Reading, Refusal>,
}

#[derive(Clone, Debug, PartialEq, Eq)]
pub struct Walk<'dump> {
    pub listed: Vec<Shape>,
    pub records: Vec<Record<'dump>>,
    pub ending: Ending,
}

/// "A second call walks it as before."
pub fn walk<'dump>(dump: &'dump [u8], layouts: &mut Layouts) -> Walk<'dump> {
    let Unwalked {
        listed,
        records,
        ending,
    } = unwalked(dump);
    let read = |record: Unread<'dump, Head>| {
        let layout = listed[record.head.number].clone();
        Record {
            serial: record.head.serial,
            number: record.head.number,
            start: record.start,
            cells: record.cells,
            outcome: field::read(&layout, record.cells, layouts),
            layout,
        }
    };
    let records = records.into_iter().map(read).collect();
    Walk {
        listed,
        records,
        ending,
    }
}

/// A new dump's list and its records, no cells read.
struct Unwalked<'dump> {
    listed: Vec<Shape>,
    records: Vec<Unread<'dump, Head>>,
    ending: Ending,
}

struct Head {
    serial: u64,
    /// Below the count of listed layouts.
    number: usize,
}

/// 8 comes first; then 7, "a broken layout list, or a count above 64, at offset 0".
fn unwalked(dump: &[u8]) -> Unwalked<'_> {
    let stopped = |ending: Ending| Unwalked {
        listed: Vec::new(),
        records: Vec::new(),
        ending,
    };
    if dump.len() > LONGEST_DUMP {
        return stopped(Ending::TooLong);
    }
    let (listed, behind) = match list_in_front(dump) {
        Some(parts) => parts,
        None => return stopped(Ending::Malformed { offset: 0 }),
    };
    let first = dump.len() - behind.len();
    let count = listed.len();
    let (records, ending) = dump::unread_from(first, dump, |bytes| head_in_front(count, bytes));
    Unwalked {
        listed,
        records,
        ending,
    }
}

/// The layout list and what follows it; nothing where it is broken. Its numbers may
/// be out of bounds, but for t in form 2: that is for the records which use them.
fn list_in_front(bytes: &[u8]) -> Option<(Vec<Shape>, &[u8])> {
    let (count, mut rest) = dump::number_in_front(bytes)?;
    if count > MOST_LAYOUTS as u64 {
        return None;
    }
    let mut listed = Vec::new();
    for _ in 0..count {
        let (layout, after) = listed_in_front(rest)?;
        listed.push(layout);
        rest = after;
    }
    Some((listed, rest))
}

fn listed_in_front(bytes: &[u8]) -> Option<(Shape, &[u8])> {
    let (form, bytes) = dump::number_in_front(bytes)?;
    let (m, bytes) = dump::number_in_front(bytes)?;
    let (t, mut rest) = dump::number_in_front(bytes)?;
    let mut ranges = Vec::new();
    for _ in 0..ranges_listed(form, t)? {
        let (range, after) = dump::number_in_front(rest)?;
        ranges.push(range);
        rest = after;
    }
    Some((Shape { form, m, t, ranges }, rest))
}

/// How many ranges stand behind t. Nothing for form 2 with a t that no layout has: "in a
/// dump, t outside 2 to 16 here is a broken layout list".
fn ranges_listed(form: u64, t: u64) -> Option<u64> {
    match layout::has_t_ranges(form) {
        true if GENERATION_BOUNDS.contains(&t) => Some(t),
        true => None,
        false => Some(1),
    }
}

/// "A layout number out of the list counting as 7".
fn head_in_front(count: usize, bytes: &[u8]) -> Option<(Head, &[u8])> {
    let (serial, bytes) = dump::number_in_front(bytes)?;
    let (number, bytes) = dump::number_in_front(bytes)?;
    if number >= count as u64 {
        return None;
    }
    let number = number as usize;
    Some((Head { serial, number }, bytes))
}

/// Refusals in the order 8, 7, 13, 8, 9; an accepted move answers the length of the
/// dump that it stored at the front of the output.
pub fn move_to_new(dump: &[u8], output: &mut [u8]) -> Result<usize, Refusal> {
    store_in_front(&moved_to_new(dump)?, output)
}

/// Refusals in the order 8, 7, 12, 8, 9.
pub fn move_to_old(dump: &[u8], output: &mut [u8]) -> Result<usize, Refusal> {
    store_in_front(&moved_to_old(dump)?, output)
}

/// "Layouts in order of first use". Readings are not looked at, nor are bounds.
pub fn moved_to_new(dump: &[u8]) -> Result<Vec<u8>, Refusal> {
    let (records, ending) = dump::unread_records(dump);
    refuse_stopped(ending)?;
    let mut used: Vec<OldShape> = Vec::new();
    let mut moved = Vec::new();
    for record in &records {
        let known = used.iter().position(|shape| *shape == record.head.shape);
        let number = known.unwrap_or(used.len());
        if number == used.len() {
            used.push(record.head.shape);
        }
        moved.extend(record_bytes(
            record.head.serial,
            number as u64,
            record.cells,
        ));
    }
    if used.len() > MOST_LAYOUTS {
        return Err(Refusal::TooManyLayouts);
    }
    let listed: Vec<Shape> = used.iter().map(|shape| shape.in_form_0()).collect();
    no_longer_than_a_dump([list_bytes(&listed), moved].concat())
}

/// "12 for a listed form, used or not": each layout has to have an old shape.
pub fn moved_to_old(dump: &[u8]) -> Result<Vec<u8>, Refusal> {
    let unwalked = unwalked(dump);
    refuse_stopped(unwalked.ending)?;
    let shapes: Option<Vec<OldShape>> = unwalked.listed.iter().map(old_shape_of).collect();
    let shapes = shapes.ok_or(Refusal::FormNotHeld)?;
    let in_old = |record: &Unread<Head>| {
        let shape = shapes[record.head.number];
        dump::record_bytes(record.head.serial, shape, record.cells)
    };
    no_longer_than_a_dump(unwalked.records.iter().flat_map(in_old).collect())
}

/// Nothing for "a listed form that the old dump cannot hold".
fn old_shape_of(listed: &Shape) -> Option<OldShape> {
    let Shape { form, m, t, .. } = *listed;
    match (form, &listed.ranges[..]) {
        (0, [v]) => Some(OldShape { m, t, v: *v }),
        _ => None,
    }
}

/// "7 and 8 first".
fn refuse_stopped(ending: Ending) -> Result<(), Refusal> {
    match ending.refusal() {
        Some(refusal) => Err(refusal),
        None => Ok(()),
    }
}

/// "8 again where the moved dump would pass 65,536 bytes".
fn no_longer_than_a_dump(moved: Vec<u8>) -> Result<Vec<u8>, Refusal> {
    match moved.len() > LONGEST_DUMP {
        true => Err(Refusal::TooManyBytes),
        false => Ok(moved),
    }
}

/// One layout for the list. Refusals in the order 1, 2, 9.
pub fn export_layout(
    shape: &Shape,
    output: &mut [u8],
    layouts: &mut Layouts,
) -> Result<usize, Refusal> {
    layouts.grant(shape, GROUPS_OFFERED)?;
    store_in_front(&listed_bytes(shape), output)
}

/// What a board gives of a record: the shape is that of the layout with this number
/// in its list.
#[derive(Clone, Debug, PartialEq, Eq)]
pub struct Exported {
    pub serial: u64,
    pub number: u64,
    pub shape: Shape,
}

/// One record. Refusals in the order 10, 1, 2, 3, 9; a layout number that no list
/// has is out of bounds too.
pub fn export_record(
    exported: &Exported,
    cells: &[u8],
    output: &mut [u8],
    layouts: &mut Layouts,
) -> Result<usize, Refusal> {
    if exported.serial > LARGEST_SERIAL {
        return Err(Refusal::SerialOutOfBounds);
    }
    if exported.number >= MOST_LAYOUTS as u64 {
        return Err(Refusal::OutOfBounds);
    }
    let layout = layouts.grant(&exported.shape, GROUPS_OFFERED)?;
    cells::groups_of(&layout, cells)?;
    let record = record_bytes(exported.serial, exported.number, cells);
    store_in_front(&record, output)
}
