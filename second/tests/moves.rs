//! Moves of dumps to new and to old, and what stays the same over them.

#[path = "common/octets.rs"]
mod octets;

use octets::octets;
use second::dump;
use second::layout::{Layouts, OldShape, Shape};
use second::newdump;
use second::refusal::Refusal;

const OLD: &str = "07 02 03 04 01 4F AC 02 02 02 14 02 00 40 08 02 03 04 01 00 \
                   09 02 02 14 02 02 80";
const NEW: &str = "02 00 02 03 04 00 02 02 14 07 00 01 4F AC 02 01 02 00 40 08 00 01 00 \
                   09 01 02 02 80";
const SHAPE: OldShape = OldShape { m: 2, t: 3, v: 4 };

/// What a move answers, and its output afterwards.
type Moved = (Result<usize, Refusal>, Vec<u8>);

fn to_new(dump: &[u8], room: usize) -> Moved {
    let mut output = vec![0xa5; room];
    (newdump::move_to_new(dump, &mut output), output)
}

fn to_old(dump: &[u8], room: usize) -> Moved {
    let mut output = vec![0xa5; room];
    (newdump::move_to_old(dump, &mut output), output)
}

fn stored(bytes: &[u8], room: usize) -> Moved {
    let mut output = bytes.to_vec();
    output.resize(room, 0xa5);
    (Ok(bytes.len()), output)
}

fn refused(refusal: Refusal, room: usize) -> Moved {
    (Err(refusal), vec![0xa5; room])
}

fn malformed(offset: usize, room: usize) -> Moved {
    refused(Refusal::MalformedRecord { offset }, room)
}

#[test]
fn the_document_s_dump_there_and_back() {
    let (old, new) = (octets(OLD), octets(NEW));
    assert_eq!(to_new(&old, 200), stored(&new, 200));
    assert_eq!(to_new(&old, 28), stored(&new, 28));
    assert_eq!(to_old(&new, 27), stored(&old, 27));
    assert_eq!(to_old(&new, 100), stored(&old, 100));
    for room in 0..28 {
        assert_eq!(to_new(&old, room), refused(Refusal::OutputTooShort, room));
    }
    for room in 0..27 {
        assert_eq!(to_old(&new, room), refused(Refusal::OutputTooShort, room));
    }
}

#[test]
fn dumps_of_no_record() {
    assert_eq!(to_new(&[], 1), stored(&[0], 1));
    assert_eq!(to_new(&[], 0), refused(Refusal::OutputTooShort, 0));
    assert_eq!(to_old(&[0], 0), stored(&[], 0));
    assert_eq!(to_old(&[], 3), malformed(0, 3));
    let listed_only = octets("02 00 02 03 04 00 02 02 14");
    assert_eq!(to_old(&listed_only, 2), stored(&[], 2));
}

#[test]
fn listed_forms_that_the_old_dump_cannot_hold() {
    let unused = octets("02 00 02 03 04 01 02 03 04 07 00 01 4F");
    assert_eq!(to_old(&unused, 100), refused(Refusal::FormNotHeld, 100));
    let forms = [1, 3, 5, 127, 128, 256, 1 << 32, (1 << 63) - 1];
    let of_one_range = forms.map(|form| SHAPE.in_form(form)).into_iter();
    for shape in of_one_range.chain([Shape::of_ranges(2, &[20, 4, 2])]) {
        let list = newdump::list_bytes(&[shape]);
        assert_eq!(to_old(&list, 0), refused(Refusal::FormNotHeld, 0));
        // Malformed comes before it, and a length that is too large first of all.
        let cut = [&list[..], &[7, 0, 1]].concat();
        assert_eq!(to_old(&cut, 9), malformed(list.len(), 9));
        let long = [&list[..], &[0; 65_537]].concat();
        assert_eq!(to_old(&long, 9), refused(Refusal::TooManyBytes, 9));
    }
}

#[test]
fn equal_listed_layouts_are_one_in_the_old_dump() {
    let twice = octets("02 00 02 03 04 00 02 03 04 07 01 01 4F");
    let old = octets("07 02 03 04 01 4F");
    assert_eq!(to_old(&twice, 100), stored(&old, 100));
    let once = octets("01 00 02 03 04 07 00 01 4F");
    assert_eq!(to_new(&old, 9), stored(&once, 9));
}

/// Records of as many layouts as said, each used once, then each once more.
fn old_dump_of_layouts(count: u64) -> Vec<u8> {
    let shape = |i: u64| OldShape {
        m: 2,
        t: 2,
        v: 2 + i,
    };
    let once = (0..count).chain(0..count);
    once.flat_map(|i| dump::record_bytes(1, shape(i), &[]))
        .collect()
}

#[test]
fn up_to_64_layouts_move() {
    for count in [1, 2, 63, 64] {
        let moved = newdump::moved_to_new(&old_dump_of_layouts(count)).expect("few layouts");
        assert_eq!(moved[0], count as u8);
        assert_eq!(moved.len() as u64, 1 + 4 * count + 2 * 3 * count);
    }
    for count in [65, 66, 200] {
        let dump = old_dump_of_layouts(count);
        assert_eq!(
            to_new(&dump, 9_999),
            refused(Refusal::TooManyLayouts, 9_999)
        );
        assert_eq!(to_new(&dump, 0), refused(Refusal::TooManyLayouts, 0));
        // 7 and 8 come first.
        let cut = [&dump[..], &[0x80]].concat();
        assert_eq!(to_new(&cut, 9), malformed(dump.len(), 9));
    }
    let example: Vec<u8> = (0x02..=0x42).flat_map(|v| [1, 2, 2, v, 0]).collect();
    assert_eq!(to_new(&example, 9), refused(Refusal::TooManyLayouts, 9));
    let long = [0x01, 0x02, 0x02, 0x02, 0x00].repeat(13_108);
    assert_eq!(to_new(&long, 9), refused(Refusal::TooManyBytes, 9));
}

#[test]
fn a_moved_dump_of_full_size_and_one_that_would_be_longer() {
    let mut full = octets("05 02 03 04 F6 FF 03");
    full.extend(vec![0; 65_526]);
    assert_eq!(full.len(), 65_533);
    let new = [&octets("01 00 02 03 04 05 00 F6 FF 03")[..], &[0; 65_526]].concat();
    assert!(to_new(&full, 65_536) == stored(&new, 65_536));
    assert!(to_old(&new, 65_533) == stored(&full, 65_533));
    assert!(to_new(&full, 65_535) == refused(Refusal::OutputTooShort, 65_535));
    for more in 1..=3 {
        let longer = dump::record_bytes(5, SHAPE, &vec![0; 65_526 + more]);
        // It comes before 9.
        assert_eq!(to_new(&longer, 0), refused(Refusal::TooManyBytes, 0));
    }
}

/// 129 bytes more is the most that a move to new can add.
#[test]
fn a_move_to_new_adds_three_bytes_for_the_first_layout_and_two_for_each_other() {
    for count in 1..=64 {
        let filler = dump::record_bytes(5, SHAPE, &vec![0; 60_000]);
        let other = |i: u64| OldShape { v: 4 + i, ..SHAPE };
        let others = (1..count).flat_map(|i| dump::record_bytes(1, other(i), &[0x4f]));
        let dump: Vec<u8> = filler.into_iter().chain(others).collect();
        let moved = newdump::moved_to_new(&dump).expect("64 layouts at most");
        assert_eq!(moved.len(), dump.len() + 1 + 2 * count as usize);
    }
}

#[test]
fn an_old_dump_that_would_be_too_long() {
    let shape = OldShape {
        v: 1 << 56,
        ..SHAPE
    };
    let list = newdump::list_bytes(&[shape.in_form_0()]);
    // An old record has ten bytes more: eleven of m, t and v for one.
    let records = |count: usize| newdump::record_bytes(1, 0, &[0; 2]).repeat(count);
    let whole = 65_536 / 15;
    let fits = [list.clone(), records(whole)].concat();
    let moved = newdump::moved_to_old(&fits).expect("below the longest");
    assert_eq!(moved.len(), 15 * whole);
    let longer = [list, records(whole + 1)].concat();
    assert_eq!(to_old(&longer, 0), refused(Refusal::TooManyBytes, 0));
}

#[test]
fn faults_of_a_list_and_of_a_record_keep_a_dump_where_it_is() {
    let new = octets(NEW);
    let ends = [9, 13, 19, 23, 28];
    for length in 0..=new.len() {
        let answer = to_old(&new[..length], 50);
        match ends.iter().rev().find(|end| **end <= length) {
            Some(end) if *end == length => assert!(answer.0.is_ok()),
            Some(end) => assert_eq!(answer, malformed(*end, 50)),
            None => assert_eq!(answer, malformed(0, 50)),
        }
    }
    let old = octets(OLD);
    let ends = [0, 6, 14, 20, 27];
    for length in 0..=old.len() {
        let answer = to_new(&old[..length], 50);
        match ends.iter().rev().find(|end| **end <= length) {
            Some(end) if *end < length => assert_eq!(answer, malformed(*end, 50)),
            _ => assert!(answer.0.is_ok()),
        }
    }
}

/// All lists of as many entries, each below `choices`.
fn lists(length: u32, choices: usize) -> impl Iterator<Item = Vec<usize>> {
    (0..choices.pow(length)).map(move |mut code| {
        let mut next = || {
            let entry = code % choices;
            code /= choices;
            entry
        };
        (0..length).map(|_| next()).collect()
    })
}

/// Whether the layouts are all used, different and in the order of their first use.
fn is_in_first_use_order(layouts: &[usize], numbers: &[usize]) -> bool {
    let mut firsts: Vec<usize> = Vec::new();
    for number in numbers {
        if !firsts.contains(number) {
            firsts.push(*number);
        }
    }
    let is_different = (1..layouts.len()).all(|i| !layouts[..i].contains(&layouts[i]));
    is_different && firsts == (0..layouts.len()).collect::<Vec<usize>>()
}

/// Back and there, over every list of up to three of these shapes, one of them out
/// of bounds, and up to four records.
#[test]
fn back_and_there_gives_the_new_bytes_just_where_it_should() {
    let shapes = [(2, 3, 4), (2, 3, 5), (0, 300, 1 << 60)];
    let shape = |place: &usize| {
        let (m, t, v) = shapes[*place];
        OldShape { m, t, v }.in_form_0()
    };
    let (mut same, mut others) = (0, 0);
    for layouts in (0..=3).flat_map(|count| lists(count, shapes.len())) {
        let listed: Vec<Shape> = layouts.iter().map(shape).collect();
        let most = if layouts.is_empty() { 0 } else { 4 };
        for numbers in (0..=most).flat_map(|count| lists(count, layouts.len())) {
            let mut new = newdump::list_bytes(&listed);
            for (serial, number) in (126..).zip(&numbers) {
                new.extend(newdump::record_bytes(serial, *number as u64, &[0x4f, 0x80]));
            }
            let old = newdump::moved_to_old(&new).expect("form 0");
            let again = newdump::moved_to_new(&old).expect("few layouts");
            let is_due = is_in_first_use_order(&layouts, &numbers);
            assert_eq!(again == new, is_due, "{:?} {:?}", layouts, numbers);
            assert_eq!(newdump::moved_to_old(&again), Ok(old));
            same += usize::from(is_due);
            others += usize::from(!is_due);
        }
    }
    // One for no layout; 3, 6 and 6 lists that are different, by the ways in which up
    // to four records use all of them in order: 4, 1 + 3 + 7, 1 + 6.
    assert_eq!(same, 1 + 3 * 4 + 6 * 11 + 6 * 7);
    assert!(others > same);
}

#[test]
fn a_moved_dump_walks_to_the_same_records() {
    let mut layouts = Layouts::default();
    let shapes = [(2, 3, 4), (2, 2, 20), (5, 3, 4), (2, 3, 1 << 57)];
    let cells: [&[u8]; 4] = [&[0x4f], &[0x02, 0x80], &[0x43], &[]];
    for places in lists(3, 16) {
        let record = |place: &usize| {
            let (m, t, v) = shapes[place % 4];
            dump::record_bytes(*place as u64, OldShape { m, t, v }, cells[place / 4])
        };
        let old: Vec<u8> = places.iter().flat_map(record).collect();
        let new = newdump::moved_to_new(&old).expect("four layouts at most");
        let before = dump::walk(&old, &mut layouts);
        let after = newdump::walk(&new, &mut layouts);
        assert_eq!(before.ending, after.ending);
        assert_eq!(before.records.len(), after.records.len());
        for (before, after) in before.records.iter().zip(&after.records) {
            assert_eq!(before.serial, after.serial);
            assert_eq!(before.shape.in_form_0(), after.layout);
            assert_eq!(before.cells, after.cells);
            assert_eq!(before.outcome, after.outcome);
        }
        assert_eq!(newdump::moved_to_old(&new), Ok(old));
    }
}
