//! Every value that document 01 lists, in its order.

mod common;

use common::{beyond, miscounted, reading, written};
use second::dump::{self, Ending};
use second::field::{Reading, Written};
use second::layout::{Layouts, OldShape};
use second::listing::fieldlist;
use second::refusal::Refusal;

const RANGE_4: OldShape = OldShape { m: 2, t: 3, v: 4 };
const RANGE_20: OldShape = OldShape { m: 2, t: 2, v: 20 };

fn read(shape: OldShape, cells: &[u8]) -> Result<Reading, Refusal> {
    common::read(&shape.in_form_0(), cells)
}

fn write(shape: OldShape, number: u64, cells: &[u8]) -> Result<Written, Refusal> {
    common::write(&shape.in_form_0(), number, cells)
}

fn granted(m: u64, t: u64, v: u64, offered: u64) -> Result<Vec<usize>, Refusal> {
    let shape = OldShape { m, t, v }.in_form_0();
    let layout = Layouts::default().grant(&shape, offered);
    layout.map(|layout| layout.counts().to_vec())
}

#[test]
fn published_lists_of_the_layout_section() {
    let ten = vec![139, 130, 120, 110, 99, 88, 76, 64, 51, 36];
    assert_eq!(granted(2, 10, 1 << 56, 256), Ok(ten));
    assert_eq!(granted(2, 2, 1 << 56, 256), Ok(vec![49, 36]));
    assert_eq!(granted(3, 2, 1 << 56, 256), Ok(vec![31, 20]));
    let (m, t, v) = (3, 2, 1 << 56);
    let layout = Layouts::default().grant(&OldShape { m, t, v }.in_form_0(), 256);
    assert_eq!(layout.map(|layout| layout.wits()), Ok(93));
}

#[test]
fn list_of_range_4_with_four_and_with_three_groups() {
    assert_eq!(granted(2, 3, 4, 4), Ok(vec![4, 3, 2]));
    assert_eq!(granted(2, 3, 4, 3), Err(Refusal::NoListFits));
}

#[test]
fn lists_of_range_2_and_of_range_20() {
    assert_eq!(granted(2, 2, 2, 256), Ok(vec![2, 1]));
    assert_eq!(granted(2, 2, 20, 256), Ok(vec![5, 3]));
}

#[test]
fn three_writes_and_no_fourth() {
    assert_eq!(write(RANGE_4, 3, &[0x00]), written(1, 2, &[0x03]));
    assert_eq!(write(RANGE_4, 1, &[0x03]), written(2, 1, &[0x0b]));
    assert_eq!(write(RANGE_4, 2, &[0x0b]), written(3, 2, &[0x4f]));
    for number in 0..4 {
        let refused = write(RANGE_4, number, &[0x4f]);
        assert_eq!(refused, Err(Refusal::LastGenerationUsed));
    }
}

#[test]
fn writing_0_to_blank_cells_uses_no_generation() {
    assert_eq!(write(RANGE_4, 0, &[0x00]), written(1, 0, &[0x00]));
    assert_eq!(read(RANGE_4, &[0x00]), reading(1, 0, 3));
}

#[test]
fn readings_at_the_edge_of_the_range() {
    assert_eq!(read(RANGE_4, &[0x23]), reading(2, 3, 1));
    assert_eq!(read(RANGE_4, &[0x43]), beyond(2));
    assert_eq!(read(RANGE_4, &[0x0f]), miscounted(2, 2));
    assert_eq!(read(RANGE_4, &[0xf0]), miscounted(2, 2));
    assert_eq!(read(RANGE_4, &[0xff]), miscounted(3, 0));
}

#[test]
fn numbers_of_range_20() {
    assert_eq!(write(RANGE_20, 16, &[0, 0]), written(1, 2, &[0x01, 0x40]));
    assert_eq!(write(RANGE_20, 19, &[0, 0]), written(1, 2, &[0x02, 0x40]));
    assert_eq!(read(RANGE_20, &[0x02, 0x80]), beyond(1));
}

#[test]
fn a_spare_group_is_erased() {
    let after = write(RANGE_20, 0, &[0x00, 0x40]);
    assert_eq!(after, written(2, 4, &[0xc1, 0xc0]));
    assert_eq!(read(RANGE_20, &[0xc1, 0xc0]), reading(2, 0, 0));
}

#[test]
fn number_20_and_a_left_over_bit_are_refused() {
    let refused = write(RANGE_20, 20, &[0, 0]);
    assert_eq!(refused, Err(Refusal::NumberOutOfRange));
    assert_eq!(read(RANGE_20, &[0x00, 0x41]), Err(Refusal::WrongBytes));
}

#[test]
fn the_largest_range_and_one_more() {
    assert_eq!(granted(2, 2, 1 << 56, 48), Err(Refusal::NoListFits));
    assert_eq!(granted(2, 2, 1 << 56, 49), Ok(vec![49, 36]));
    let beyond = (1 << 56) + 1;
    assert_eq!(granted(2, 2, beyond, 256), Err(Refusal::OutOfBounds));
}

#[test]
fn a_serial_of_80_00_is_not_shortest() {
    let dump = [0x80, 0x00, 2, 3, 4, 1, 0];
    let walk = dump::walk(&dump, &mut Layouts::default()).ending;
    assert_eq!(walk, Ending::Malformed { offset: 0 });
}

#[test]
fn refusals_come_in_the_order_of_the_table() {
    let no_list = OldShape { m: 1, ..RANGE_20 };
    assert_eq!(write(no_list, 99, &[]), Err(Refusal::OutOfBounds));
    assert_eq!(write(RANGE_20, 99, &[0]), Err(Refusal::WrongBytes));
    let unreadable = [0x02, 0x80];
    let refused = write(RANGE_20, 20, &unreadable);
    assert_eq!(refused, Err(Refusal::NumberOutOfRange));
    assert_eq!(write(RANGE_20, 1, &unreadable), beyond(1));
    let refused = write(RANGE_4, 4, &[0x43]);
    assert_eq!(refused, Err(Refusal::NumberOutOfRange));
    assert_eq!(write(RANGE_4, 3, &[0x43]), beyond(2));
    assert_eq!(write(RANGE_4, 3, &[0x0f]), miscounted(2, 2));
    let used_up = write(RANGE_20, 20, &[0xc1, 0xc0]);
    assert_eq!(used_up, Err(Refusal::NumberOutOfRange));
}

#[test]
fn offers_outside_their_bounds() {
    assert_eq!(granted(2, 3, 4, 0), Err(Refusal::NoListFits));
    assert_eq!(granted(2, 3, 4, 256), Ok(vec![4, 3, 2]));
    assert_eq!(granted(2, 3, 4, 257), Err(Refusal::OutOfBounds));
    assert_eq!(granted(5, 3, 4, 0), Err(Refusal::OutOfBounds));
}

const SAMPLE: [u8; 27] = [
    0x07, 0x02, 0x03, 0x04, 0x01, 0x4f, 0xac, 0x02, 0x02, 0x02, 0x14, 0x02, 0x00, 0x40, 0x08, 0x02,
    0x03, 0x04, 0x01, 0x00, 0x09, 0x02, 0x02, 0x14, 0x02, 0x02, 0x80,
];

#[test]
fn the_fieldlist_sample() {
    let printed = fieldlist(&SAMPLE, &mut Layouts::default());
    let due = "7 3 2 0\n300 1 1 1\n8 1 0 3\n9 refused 16\nrecords 4\n";
    assert_eq!(printed, due);
}

#[test]
fn fieldlist_of_nothing_of_too_much_and_of_a_cut_off_dump() {
    let layouts = &mut Layouts::default();
    assert_eq!(fieldlist(&[], layouts), "records 0\n");
    assert_eq!(fieldlist(&[0; 65_537], layouts), "refused 8\n");
    let cut_off = fieldlist(&SAMPLE[..13], layouts);
    assert_eq!(cut_off, "7 3 2 0\nstopped 7 at 6\nrecords 1\n");
}
