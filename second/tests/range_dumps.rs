//! Layouts of form 2 in a new dump: their list, walks, moves and exports.

#[path = "common/octets.rs"]
mod octets;

use octets::octets;
use second::answers;
use second::dump::{self, Ending};
use second::layout::{Layouts, OldShape, Shape};
use second::listing::fieldlist_new;
use second::newdump::{self, Exported};
use second::protocol::{Call, NewDumpCall};
use second::refusal::Refusal;
use std::slice;

const LARGEST: u64 = (1 << 63) - 1;
const LARGEST_RANGE: u64 = 1 << 56;
const BROKEN: Ending = Ending::Malformed { offset: 0 };

fn line_of(call: Call) -> String {
    answers::answer(&call, &mut Layouts::default())
}

fn falling() -> Shape {
    Shape::of_ranges(2, &[20, 4, 2])
}

fn walk(dump: &[u8]) -> newdump::Walk<'_> {
    newdump::walk(dump, &mut Layouts::default())
}

fn walk_lines(dump: &[u8]) -> String {
    let dump = dump.to_vec();
    line_of(Call::NewDump(NewDumpCall::Walk { dump }))
}

fn to_old(dump: &[u8], room: usize) -> Result<usize, Refusal> {
    newdump::move_to_old(dump, &mut vec![0; room])
}

#[test]
fn walks_of_the_examples() {
    let dump = octets("01 02 02 03 14 04 02 07 00 01 0A 08 00 01 00");
    assert_eq!(walk(&dump).listed, [falling()]);
    let due = "record 7 0 2 2 3 20 4 2 10 1 0 1 16 2\nrecord 8 0 2 2 3 20 4 2 14 1 11\nend\n";
    assert_eq!(walk_lines(&dump), due);
    let listed = fieldlist_new(&dump, &mut Layouts::default());
    assert_eq!(listed, "7 1 16 2\n8 refused 11\nrecords 2\n");
    // Of form 0, t outside 2 to 16 is the record's.
    let dump = octets("01 00 02 01 14 07 00 01 0A");
    let due = "record 7 0 0 2 1 20 8 1 1\nend\n";
    assert_eq!(walk_lines(&dump), due);
    assert_eq!(
        walk(&dump).listed,
        [OldShape { m: 2, t: 1, v: 20 }.in_form_0()]
    );
}

#[test]
fn form_2_cannot_be_moved_to_old() {
    let unused = octets("01 02 02 03 14 04 02");
    let used = octets("01 02 02 03 14 04 02 07 00 01 0A");
    let behind_form_0 = octets("02 00 02 03 04 02 02 03 14 04 02 07 00 01 4F");
    for dump in [&unused, &used, &behind_form_0] {
        assert_eq!(to_old(dump, 100), Err(Refusal::FormNotHeld));
        assert_eq!(to_old(dump, 0), Err(Refusal::FormNotHeld));
    }
    let line = line_of(Call::NewDump(NewDumpCall::MoveToOld {
        output_length: 2,
        dump: unused.clone(),
    }));
    assert_eq!(line, "old 12 a5a5\n");
    // 7 comes first, of a record and of a list.
    let cut = [&unused[..], &[7, 0, 1]].concat();
    let refusal = Refusal::MalformedRecord { offset: 7 };
    assert_eq!(to_old(&cut, 100), Err(refusal));
    let broken = octets("01 02 02 01 14");
    let refusal = Refusal::MalformedRecord { offset: 0 };
    assert_eq!(to_old(&broken, 100), Err(refusal));
    let long = [&unused[..], &[0; 65_536]].concat();
    assert_eq!(to_old(&long, 100), Err(Refusal::TooManyBytes));
}

/// Used or not, and with as many ranges as t says too.
#[test]
fn t_outside_2_to_16_breaks_the_list_in_form_2_alone() {
    for t in [0, 1, 17, 18, 64, 128, 258, (1 << 32) + 3, LARGEST] {
        for ranges in [0, 1, 2, 3, 16, 17, 18, 64] {
            let ranges = vec![2; ranges];
            let listed = Shape {
                t,
                ..Shape::of_ranges(2, &ranges)
            };
            for others in [&[][..], &[falling()]] {
                let list = newdump::list_bytes(&[others, slice::from_ref(&listed)].concat());
                assert_eq!(walk(&list).ending, BROKEN);
                let used = [list, newdump::record_bytes(7, 0, &[0x0a])].concat();
                assert_eq!(walk(&used).ending, BROKEN);
                assert!(walk(&used).listed.is_empty());
            }
        }
        for form in [0, 1, 3, 4, 258, LARGEST] {
            let listed = OldShape { m: 2, t, v: 4 }.in_form(form);
            let list = newdump::list_bytes(slice::from_ref(&listed));
            assert_eq!(walk(&list).ending, Ending::EndOfDump);
            assert_eq!(walk(&list).listed, [listed]);
        }
    }
    for t in 2..=16 {
        let listed = Shape::of_ranges(2, &vec![4; t]);
        let list = newdump::list_bytes(slice::from_ref(&listed));
        assert_eq!(walk(&list).ending, Ending::EndOfDump);
        assert_eq!(walk(&list).listed, [listed]);
    }
}

#[test]
fn a_list_cut_in_its_ranges_is_broken() {
    let long = Shape::of_ranges(2, &[LARGEST_RANGE, 1 << 14, 300, 2]);
    let list = newdump::list_bytes(&[falling(), long.clone()]);
    for length in 0..list.len() {
        assert_eq!(walk(&list[..length]).ending, BROKEN);
    }
    assert_eq!(walk(&list).listed, [falling(), long]);
    // A range that is not shortest, or over nine bytes.
    for place in 4..7 {
        for odd in [&[0x80, 0x00][..], &[0x80; 10], &[0xff; 9]] {
            let mut list = octets("01 02 02 03 14 04 02");
            list.splice(place..=place, odd.iter().copied());
            list.extend([0; 20]);
            assert_eq!(walk(&list).ending, BROKEN);
        }
    }
}

/// What stands behind the ranges is the next layout or the first record.
#[test]
fn a_range_too_few_or_too_many_shifts_what_follows() {
    let few = octets("01 02 02 03 14 04 07 00 01 0A");
    let walk_of_few = walk(&few);
    assert_eq!(walk_of_few.listed, [Shape::of_ranges(2, &[20, 4, 7])]);
    assert_eq!(walk_of_few.ending, Ending::Malformed { offset: 7 });
    let many = octets("01 02 02 03 14 04 02 02 00 00");
    let walk_of_many = walk(&many);
    assert_eq!(walk_of_many.records[0].serial, 2);
    assert_eq!(walk_of_many.ending, Ending::EndOfDump);
}

#[test]
fn ranges_or_m_out_of_bounds_are_the_record_s_refusal_1() {
    let beyond = [
        Shape::of_ranges(2, &[20, 4, 1]),
        Shape::of_ranges(2, &[0, 4, 2]),
        Shape::of_ranges(2, &[20, LARGEST_RANGE + 1, 2]),
        Shape::of_ranges(2, &[20, 4, LARGEST]),
        Shape::of_ranges(1, &[20, 4, 2]),
        Shape::of_ranges(5, &[20, 4, 2]),
        Shape::of_ranges(LARGEST, &[20, 4, 2]),
    ];
    let mut dump = newdump::list_bytes(&[&beyond[..], &[falling()]].concat());
    for number in 0..=beyond.len() as u64 {
        dump.extend(newdump::record_bytes(number, number, &[0x0e]));
    }
    let walk = walk(&dump);
    assert_eq!(walk.ending, Ending::EndOfDump);
    let outcomes: Vec<_> = walk.records.iter().map(|record| record.outcome).collect();
    let (last, others) = outcomes.split_last().expect("there are records");
    assert!(others
        .iter()
        .all(|outcome| *outcome == Err(Refusal::OutOfBounds)));
    assert_eq!(last.map(|reading| reading.number), Ok(19));
}

#[test]
fn refusals_of_records_belong_to_them() {
    let cells: [&[u8]; 5] = [&[0x00], &[], &[0x0f], &[0xff], &[0x8f]];
    let mut dump = newdump::list_bytes(&[falling()]);
    for (serial, cells) in (0..).zip(cells) {
        dump.extend(newdump::record_bytes(serial, 0, cells));
    }
    let listed = fieldlist_new(&dump, &mut Layouts::default());
    let due = "0 refused 11\n1 refused 3\n2 refused 16\n3 refused 15\n4 2 3 1\nrecords 5\n";
    assert_eq!(listed, due);
}

fn layout_line(shape: &Shape, output_length: u64) -> String {
    line_of(Call::NewDump(NewDumpCall::ExportLayout {
        shape: shape.clone(),
        output_length,
    }))
}

#[test]
fn an_exported_layout_has_all_ranges() {
    assert_eq!(layout_line(&falling(), 6), "listed 0 6 020203140402\n");
    assert_eq!(layout_line(&falling(), 7), "listed 0 6 020203140402a5\n");
    assert_eq!(layout_line(&falling(), 5), "listed 9 a5a5a5a5a5\n");
    let widest = layout_line(&Shape::of_ranges(4, &[LARGEST_RANGE; 16]), 147);
    let ranges = "808080808080808001".repeat(16);
    assert_eq!(widest, format!("listed 0 147 020410{}\n", ranges));
    for ranges in [&[20, 4][..], &[20, 4, 2, 2], &[20, 4, 1], &[]] {
        let shape = Shape {
            t: 3,
            ..Shape::of_ranges(2, ranges)
        };
        assert_eq!(layout_line(&shape, 1), "listed 1 a5\n");
    }
}

#[test]
fn an_exported_record_is_refused_by_its_shape() {
    let line = |shape: Shape, output_length: u64, cells: &[u8]| {
        let exported = Exported {
            serial: 7,
            number: 63,
            shape,
        };
        line_of(Call::NewDump(NewDumpCall::ExportRecord {
            exported,
            output_length,
            cells: cells.to_vec(),
        }))
    };
    assert_eq!(line(falling(), 5, &[0x8f]), "export 0 4 073f018fa5\n");
    // Cells that have no reading are exported too.
    assert_eq!(line(falling(), 4, &[0xff]), "export 0 4 073f01ff\n");
    assert_eq!(line(falling(), 0, &[0x8f]), "export 9\n");
    assert_eq!(line(falling(), 0, &[]), "export 3\n");
    let few = Shape { t: 4, ..falling() };
    assert_eq!(line(few, 0, &[]), "export 1\n");
}

/// An old dump has no form, so that nothing of it is form 2.
#[test]
fn old_dumps_are_as_before() {
    let shape = OldShape { m: 2, t: 3, v: 4 };
    let old = dump::record_bytes(2, shape, &[0x4f]);
    let new = newdump::moved_to_new(&old).expect("one layout");
    assert_eq!(walk(&new).listed, [shape.in_form_0()]);
    assert_eq!(newdump::moved_to_old(&new), Ok(old));
}
