//! The new dump: its list, its records, its walk and its listing.

#[path = "common/octets.rs"]
mod octets;

use octets::octets;
use second::dump::{self, Ending};
use second::field::Reading;
use second::layout::{Layouts, OldShape, Shape};
use second::listing::{fieldlist, fieldlist_new};
use second::newdump;
use second::refusal::Refusal;
use second::sample;

const LARGEST: u64 = (1 << 63) - 1;
const RANGE_4: OldShape = OldShape { m: 2, t: 3, v: 4 };
const RANGE_20: OldShape = OldShape { m: 2, t: 2, v: 20 };
/// Document 01's sample input, moved.
const DOCUMENT_DUMP: &str = "02 00 02 03 04 00 02 02 14 07 00 01 4F AC 02 01 02 00 40 \
                             08 00 01 00 09 01 02 02 80";

fn walk(dump: &[u8]) -> newdump::Walk<'_> {
    newdump::walk(dump, &mut Layouts::default())
}

fn listing(dump: &[u8]) -> String {
    fieldlist_new(dump, &mut Layouts::default())
}

/// How many records come before the ending.
fn ending(dump: &[u8]) -> (usize, Ending) {
    let walk = walk(dump);
    (walk.records.len(), walk.ending)
}

fn list(shapes: &[OldShape]) -> Vec<u8> {
    let listed: Vec<Shape> = shapes.iter().map(|shape| shape.in_form_0()).collect();
    newdump::list_bytes(&listed)
}

fn read(generation: usize, number: u64, left: usize) -> Result<Reading, Refusal> {
    Ok(Reading {
        generation,
        number,
        left,
    })
}

#[test]
fn the_document_s_records_as_a_new_dump() {
    let dump = octets(DOCUMENT_DUMP);
    let walk = walk(&dump);
    assert_eq!(walk.listed, [RANGE_4, RANGE_20].map(OldShape::in_form_0));
    assert_eq!(walk.ending, Ending::EndOfDump);
    let found: Vec<_> = walk
        .records
        .iter()
        .map(|record| (record.serial, record.number, record.start, record.outcome))
        .collect();
    let due = [
        (7, 0, 12, read(3, 2, 0)),
        (300, 1, 17, read(1, 1, 1)),
        (8, 0, 22, read(1, 0, 3)),
        (9, 1, 26, Err(Refusal::Beyond { generation: 1 })),
    ];
    assert_eq!(found, due);
    assert_eq!(walk.records[1].layout, RANGE_20.in_form_0());
    assert_eq!(walk.records[1].cells, [0x00, 0x40]);
    let due = "7 3 2 0\n300 1 1 1\n8 1 0 3\n9 refused 16\nrecords 4\n";
    assert_eq!(listing(&dump), due);
}

#[test]
fn the_least_dump_is_a_count_of_0() {
    assert_eq!(ending(&[]), (0, Ending::Malformed { offset: 0 }));
    assert_eq!(ending(&[0]), (0, Ending::EndOfDump));
    assert_eq!(listing(&[]), "stopped 7 at 0\nrecords 0\n");
    assert_eq!(listing(&[0]), "records 0\n");
    // Behind no layouts no record has one.
    assert_eq!(
        ending(&octets("00 07 00 00")),
        (0, Ending::Malformed { offset: 1 })
    );
}

#[test]
fn a_form_above_2_is_the_record_s_refusal_1() {
    let dump = octets("01 03 02 03 04 07 00 01 4F");
    let walk = walk(&dump);
    assert_eq!(walk.listed, [RANGE_4.in_form(3)]);
    assert_eq!(walk.records.len(), 1);
    assert_eq!(walk.records[0].outcome, Err(Refusal::OutOfBounds));
    assert_eq!(listing(&dump), "7 refused 1\nrecords 1\n");
}

#[test]
fn a_layout_number_out_of_the_list() {
    let dump = octets("01 00 02 03 04 07 00 01 4F 08 01 01 4F");
    assert_eq!(ending(&dump), (1, Ending::Malformed { offset: 9 }));
    assert_eq!(listing(&dump), "7 3 2 0\nstopped 7 at 9\nrecords 1\n");
    for number in [1, 63, 64, 127, 128, 256, 1 << 32, LARGEST] {
        let record = newdump::record_bytes(8, number, &[0x4f]);
        let dump = [list(&[RANGE_4]), record].concat();
        assert_eq!(ending(&dump), (0, Ending::Malformed { offset: 5 }));
    }
}

#[test]
fn a_broken_list_stops_at_0() {
    let whole = [list(&[RANGE_4, RANGE_20]), vec![7, 0, 1, 0x4f]].concat();
    let length = list(&[RANGE_4, RANGE_20]).len();
    for cut in 0..length {
        let due = (0, Ending::Malformed { offset: 0 });
        assert_eq!(ending(&whole[..cut]), due);
    }
    assert_eq!(ending(&whole[..length]), (0, Ending::EndOfDump));
    for cut in length + 1..whole.len() {
        let due = (0, Ending::Malformed { offset: length });
        assert_eq!(ending(&whole[..cut]), due);
    }
    let cut_off = octets("01 00 02 03");
    assert_eq!(ending(&cut_off), (0, Ending::Malformed { offset: 0 }));
}

/// Each number of a list of one layout in turn, the count first.
#[test]
fn a_number_of_the_list_may_be_malformed() {
    for place in 0..5 {
        for odd in [&[0x80, 0x00][..], &[0x80; 10], &[0xff; 9]] {
            let mut dump = Vec::new();
            for number in 0..5 {
                dump.extend(if number == place { odd } else { &[0x01][..] });
            }
            dump.extend([0; 20]);
            assert_eq!(ending(&dump), (0, Ending::Malformed { offset: 0 }));
        }
    }
}

#[test]
fn a_number_of_a_record_may_be_malformed() {
    for place in 0..3 {
        for odd in [&[0x80, 0x00][..], &[0x80; 10], &[0xff; 9]] {
            let mut dump = list(&[RANGE_4]);
            dump.extend([7, 0, 1, 0x4f]);
            let offset = dump.len();
            for number in 0..3 {
                dump.extend(if number == place { odd } else { &[0x00][..] });
            }
            dump.extend([0, 0]);
            assert_eq!(ending(&dump), (1, Ending::Malformed { offset }));
        }
    }
}

#[test]
fn counts_of_layouts_up_to_64() {
    for count in [0, 1, 63, 64, 65, 127] {
        let mut dump = list(&vec![RANGE_4; count]);
        let offset = dump.len();
        dump.extend(newdump::record_bytes(
            1,
            count as u64 - u64::from(count > 0),
            &[0x4f],
        ));
        let due = match count {
            0 => (0, Ending::Malformed { offset }),
            1..=64 => (1, Ending::EndOfDump),
            _ => (0, Ending::Malformed { offset: 0 }),
        };
        assert_eq!(ending(&dump), due, "{} layouts", count);
    }
    // Counts above 64 with no layout behind them.
    for count in [65, 255, 256, (1 << 32) + 1, LARGEST] {
        let due = (0, Ending::Malformed { offset: 0 });
        assert_eq!(ending(&dump::number_bytes(count)), due);
    }
}

#[test]
fn layouts_out_of_bounds_belong_to_the_records_that_use_them() {
    let of_form_0 = [
        (0, 3, 4),
        (5, 3, 4),
        (2, 1, 4),
        (2, 17, 4),
        (2, 3, 1),
        (2, 3, (1 << 56) + 1),
        (2, 3, LARGEST),
    ];
    let of_form_0 = of_form_0.map(|(m, t, v)| OldShape { m, t, v }.in_form_0());
    let of_no_form = [3, LARGEST].map(|form| RANGE_4.in_form(form));
    let beyond = [&of_no_form[..], &of_form_0].concat();
    let mut dump = newdump::list_bytes(&[&beyond[..], &[RANGE_4.in_form_0()]].concat());
    for number in (0..=beyond.len() as u64).rev() {
        dump.extend(newdump::record_bytes(number, number, &[0x4f]));
    }
    let walk = walk(&dump);
    assert_eq!(walk.ending, Ending::EndOfDump);
    let outcomes: Vec<_> = walk.records.iter().map(|record| record.outcome).collect();
    assert_eq!(outcomes[0], read(3, 2, 0));
    assert_eq!(outcomes[1..], [Err(Refusal::OutOfBounds); 9]);
}

#[test]
fn refusals_of_form_1_belong_to_the_record() {
    let cells: [&[u8]; 5] = [&[0, 0], &[0, 1], &[0], &[0x02, 0x80], &[0xff, 0xc0]];
    let mut dump = newdump::list_bytes(&[RANGE_20.in_form(1)]);
    for (serial, cells) in (0..).zip(cells) {
        dump.extend(newdump::record_bytes(serial, 0, cells));
    }
    let due = "0 refused 11\n1 refused 3\n2 refused 3\n3 1 19 1\n4 refused 15\nrecords 5\n";
    assert_eq!(listing(&dump), due);
}

#[test]
fn a_dump_of_full_size_is_walked_and_a_longer_one_refused() {
    let cells = vec![0; 65_536 - 5 - 5];
    let record = newdump::record_bytes(1, 0, &cells);
    let mut dump = [list(&[RANGE_4]), record].concat();
    assert_eq!(dump.len(), 65_536);
    assert_eq!(listing(&dump), "1 refused 3\nrecords 1\n");
    dump.push(0);
    assert_eq!(ending(&dump), (0, Ending::TooLong));
    assert_eq!(listing(&dump), "refused 8\n");
    // 8 before 7.
    assert_eq!(ending(&[0x80; 65_537]), (0, Ending::TooLong));
}

#[test]
fn the_sample_is_the_old_one_moved_and_new_drives_behind_it() {
    let mut layouts = Layouts::default();
    let old = sample::sample_dump(&mut layouts).expect("its fields are in bounds");
    let new = sample::sample_new_dump(&mut layouts).expect("its fields are in bounds");
    let moved = newdump::moved_to_new(&old).expect("two layouts");
    let (walk_of_moved, walk_of_new) = (walk(&moved), walk(&new));
    assert_eq!(walk_of_new.listed[..2], walk_of_moved.listed);
    let parts = |record: &newdump::Record| (record.serial, record.number, record.cells.to_vec());
    let count = walk_of_moved.records.len();
    let front = walk_of_new.records[..count].iter().map(parts);
    let due = walk_of_moved.records.iter().map(parts);
    assert!(front.eq(due));
    let (old_lines, new_lines) = (fieldlist(&old, &mut layouts), listing(&new));
    assert_eq!(old_lines.lines().count(), 8);
    assert!(old_lines
        .lines()
        .zip(new_lines.lines())
        .take(7)
        .all(|(old, new)| old == new));
    let last: Vec<&str> = new_lines.lines().skip(7).collect();
    assert_eq!(
        last,
        [
            "5001 refused 11",
            "5002 1 0 9",
            "5003 2 640 8",
            "records 10"
        ]
    );
}
