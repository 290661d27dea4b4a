//! The ranges of a shape in calls: `form m t k v_1 .. v_k` wherever a shape stands.

#[path = "common/answering.rs"]
mod answering;

use answering::{answered, answered_within, line_of};
use second::layout::{OldShape, Shape};
use second::newdump::Exported;
use second::protocol::{Call, Limits, ManyCall, NewDumpCall};

fn falling() -> Shape {
    Shape::of_ranges(2, &[20, 4, 2])
}

fn layout_call(shape: Shape) -> Call {
    let offered = 256;
    Call::Layout { shape, offered }
}

fn read_call(shape: Shape, cells: &[u8]) -> Call {
    let cells = cells.to_vec();
    Call::Read { shape, cells }
}

fn write_call(shape: Shape, number: u64, cells: &[u8]) -> Call {
    Call::Write {
        shape,
        number,
        cells: cells.to_vec(),
    }
}

fn many_call(shape: Shape, numbers: &[u64], cells: &[u8]) -> Call {
    Call::Many(ManyCall {
        shape,
        numbers: numbers.to_vec(),
        cells: cells.to_vec(),
    })
}

fn export_layout_call(shape: Shape) -> Call {
    Call::NewDump(NewDumpCall::ExportLayout {
        shape,
        output_length: 9,
    })
}

fn export_record_call(shape: Shape) -> Call {
    Call::NewDump(NewDumpCall::ExportRecord {
        exported: Exported {
            serial: 7,
            number: 8,
            shape,
        },
        output_length: 9,
        cells: Vec::new(),
    })
}

/// Each call that has a shape, and how many numbers stand before it.
fn calls_of(shape: &Shape) -> [(usize, Call); 6] {
    [
        (0, layout_call(shape.clone())),
        (0, read_call(shape.clone(), &[])),
        (0, write_call(shape.clone(), 0, &[])),
        (0, export_layout_call(shape.clone())),
        (2, export_record_call(shape.clone())),
        (0, many_call(shape.clone(), &[], &[])),
    ]
}

#[test]
fn lines_of_form_2() {
    assert_eq!(line_of(layout_call(falling())), "layout 0 4 2 1\n");
    let line = |number: u64, cells: &[u8]| line_of(write_call(falling(), number, cells));
    assert_eq!(line(19, &[0x00]), "write 0 1 3 0e\n");
    assert_eq!(line(3, &[0x0e]), "write 0 2 2 8f\n");
    assert_eq!(line(2, &[0x8f]), "write 6 8f\n");
    assert_eq!(line(1, &[0xef]), "write 5 ef\n");
    assert_eq!(line(99, &[0xef]), "write 5 ef\n");
    assert_eq!(line(99, &[0xff]), "write 15 3 0 ff\n");
    assert_eq!(line(99, &[0x0f]), "write 16 1 0f\n");
    let line = |cells: &[u8]| line_of(read_call(falling(), cells));
    assert_eq!(line(&[0x0e]), "read 0 1 19 2\n");
    assert_eq!(line(&[0x8f]), "read 0 2 3 1\n");
    assert_eq!(line(&[0x00]), "read 11\n");
    assert_eq!(line(&[0xff]), "read 15 3 0\n");
}

#[test]
fn lines_of_many_fields_of_form_2() {
    let line = |numbers: &[u64], cells: &[u8]| line_of(many_call(falling(), numbers, cells));
    let all = line(&[19, 3, 1], &[0x00, 0x0e, 0x8f]);
    assert_eq!(all, "many 0 3 1 3 2 2 3 2 0e8fef\n");
    // Each number would be in range of another generation.
    let stop = line(&[19, 4, 1], &[0x00, 0x0e, 0x8f]);
    assert_eq!(stop, "many 6 field 1 1 3 0e0e8f\n");
    let stop = line(&[19, 3, 2], &[0x00, 0x0e, 0x8f]);
    assert_eq!(stop, "many 6 field 2 1 3 2 2 0e8f8f\n");
    let stop = line(&[19, 99, 1], &[0x00, 0xef, 0x8f]);
    assert_eq!(stop, "many 5 field 1 1 3 0eef8f\n");
    let stop = line(&[19, 99, 1], &[0x00, 0xff, 0x8f]);
    assert_eq!(stop, "many 15 3 0 field 1 1 3 0eff8f\n");
    let stop = line(&[99, 3, 1], &[0x0f, 0x0e, 0x8f]);
    assert_eq!(stop, "many 16 1 field 0 0f0e8f\n");
    let of_13 = Shape::of_ranges(2, &[13, 13]);
    let stop = line_of(many_call(of_13, &[0, 99], &[0x00, 0x00, 0xff, 0xc1]));
    assert_eq!(stop, "many 3 field 1 1 1 0040ffc1\n");
}

#[test]
fn the_ranges_stand_behind_their_count() {
    for (before, call) in calls_of(&falling()) {
        let bytes = call.to_bytes();
        let numbers = bytes[1..].chunks(8).skip(before).take(7);
        let low_bytes: Vec<u8> = numbers.map(|number| number[0]).collect();
        assert_eq!(low_bytes, [2, 2, 3, 3, 20, 4, 2]);
    }
    let export = Call::Export {
        serial: 5,
        shape: OldShape { m: 2, t: 3, v: 4 },
        output_length: 6,
        cells: Vec::new(),
    };
    assert_eq!(export.to_bytes().len(), 1 + 8 * 6);
}

/// A shape of so many ranges in every form, otherwise within bounds.
fn shapes_of(count: usize) -> [Shape; 4] {
    [0, 1, 2, 3].map(|form| Shape {
        form,
        t: 3,
        ..Shape::of_ranges(2, &vec![4; count])
    })
}

#[test]
fn up_to_64_ranges_are_read_and_refused_with_1() {
    for count in [0, 2, 4, 15, 16, 17, 18, 63, 64] {
        for shape in shapes_of(count) {
            for (_, call) in calls_of(&shape) {
                let read = read_call(falling(), &[0x0e]).to_bytes();
                let stream = [call.to_bytes(), read].concat();
                let answer = answered(&stream);
                let (refused, rest) = answer.split_once('\n').expect("there are two lines");
                assert_eq!(refused.split(' ').nth(1), Some("1"), "{}", refused);
                assert_eq!(rest, "read 0 1 19 2\n");
            }
        }
    }
}

#[test]
fn more_than_64_ranges_are_too_long_as_soon_as_they_are_counted() {
    for limits in [Limits::USUAL, Limits::LARGE] {
        for shape in shapes_of(65) {
            for (before, call) in calls_of(&shape) {
                let bytes = call.to_bytes();
                assert_eq!(answered_within(limits, &bytes), "too long\n");
                let with_count = 1 + 8 * (before + 4);
                let answer = answered_within(limits, &bytes[..with_count]);
                assert_eq!(answer, "too long\n");
                let answer = answered_within(limits, &bytes[..with_count - 1]);
                assert_eq!(answer, "cut off\n");
            }
        }
        for count in [66, 1 << 32, u64::MAX] {
            let mut bytes = layout_call(falling()).to_bytes();
            bytes[1 + 8 * 3..1 + 8 * 4].copy_from_slice(&u64::to_le_bytes(count));
            assert_eq!(answered_within(limits, &bytes), "too long\n");
        }
    }
}

#[test]
fn a_call_cut_off_in_its_ranges_is_said_so() {
    for (_, call) in calls_of(&falling()) {
        let bytes = call.to_bytes();
        for length in 1..bytes.len() {
            assert_eq!(answered(&bytes[..length]), "cut off\n");
        }
    }
}

#[test]
fn shapes_in_words() {
    let meaning = layout_call(falling()).meaning();
    assert_eq!(meaning, "layout form 2, m 2, t 3, v 20 4 2, g 256");
    let none = Shape {
        ranges: Vec::new(),
        ..falling()
    };
    let meaning = read_call(none, &[0]).meaning();
    assert_eq!(meaning, "read form 2, m 2, t 3, v none, 1 byte of cells");
}
