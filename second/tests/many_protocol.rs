//! The call of many numbers as bytes and as a line.

#[path = "common/answering.rs"]
mod answering;

use answering::{answered, answered_within, line_of};
use second::layout::{OldShape, Shape};
use second::protocol::{Call, Limits, ManyCall};

fn small() -> Shape {
    OldShape { m: 2, t: 3, v: 4 }.in_form_0()
}

fn of_20() -> Shape {
    OldShape { m: 2, t: 2, v: 20 }.in_form_0()
}

fn many_call(shape: &Shape, numbers: &[u64], cells: &[u8]) -> Call {
    Call::Many(ManyCall {
        shape: shape.clone(),
        numbers: numbers.to_vec(),
        cells: cells.to_vec(),
    })
}

fn many_line(shape: &Shape, numbers: &[u64], cells: &[u8]) -> String {
    line_of(many_call(shape, numbers, cells))
}

#[test]
fn lines_of_fields_that_are_all_written() {
    let line = many_line(&small(), &[3, 1, 2], &[0, 0, 0]);
    assert_eq!(line, "many 0 3 1 2 1 1 1 1 030102\n");
    let form_1 = Shape { form: 1, ..small() };
    let line = many_line(&form_1, &[0, 0, 0], &[0, 0, 0]);
    assert_eq!(line, "many 0 3 1 1 1 1 1 1 010101\n");
    assert_eq!(many_line(&small(), &[0], &[0]), "many 0 1 1 0 00\n");
    assert_eq!(many_line(&small(), &[], &[]), "many 0 0\n");
}

#[test]
fn lines_of_stops() {
    let line = many_line(&small(), &[1, 1, 1], &[0x03, 0x4f, 0x00]);
    assert_eq!(line, "many 5 field 1 2 1 0b4f00\n");
    let line = many_line(&small(), &[3, 4, 2], &[0, 0, 0]);
    assert_eq!(line, "many 6 field 1 1 2 030000\n");
    let line = many_line(&of_20(), &[0; 3], &[0x00, 0x40, 0x00, 0x41, 0x00, 0x40]);
    assert_eq!(line, "many 3 field 1 2 4 c1c000410040\n");
    let line = many_line(&small(), &[3, 1, 2], &[0x00, 0x00, 0x43]);
    assert_eq!(line, "many 16 2 field 2 1 2 1 1 030143\n");
    let line = many_line(&small(), &[1, 1, 1], &[0x03, 0x0f, 0x00]);
    assert_eq!(line, "many 15 2 2 field 1 2 1 0b0f00\n");
    let line = many_line(&small(), &[1], &[0xff]);
    assert_eq!(line, "many 15 3 0 field 0 ff\n");
    assert_eq!(many_line(&small(), &[4], &[0]), "many 6 field 0 00\n");
}

#[test]
fn lines_of_refusals_before_any_write() {
    let beyond = Shape { m: 5, ..small() };
    assert_eq!(many_line(&beyond, &[0; 65], &[0]), "many 14 00\n");
    assert_eq!(many_line(&small(), &[0; 65], &[]), "many 14\n");
    assert_eq!(many_line(&beyond, &[0], &[0x4f]), "many 1 4f\n");
    assert_eq!(many_line(&small(), &[], &[0]), "many 3 00\n");
    assert_eq!(many_line(&small(), &[3, 3], &[0]), "many 3 00\n");
}

#[test]
fn the_numbers_stand_between_the_shape_and_the_cells() {
    let shape = Shape { form: 1, ..small() };
    let bytes = many_call(&shape, &[7, 8, 9], &[]).to_bytes();
    assert_eq!(bytes[0], 13);
    let low_bytes: Vec<u8> = bytes[1..].iter().copied().step_by(8).collect();
    assert_eq!(low_bytes, [1, 2, 3, 1, 4, 3, 7, 8, 9, 0]);
}

#[test]
fn a_call_cut_off_anywhere_is_said_so() {
    for numbers in [&[][..], &[3], &[3, 1]] {
        let bytes = many_call(&small(), numbers, &[0, 0]).to_bytes();
        for length in 1..bytes.len() {
            assert_eq!(answered(&bytes[..length]), "cut off\n");
        }
        assert!(answered(&bytes).starts_with("many "));
    }
}

#[test]
fn at_most_128_numbers_by_either_limits() {
    let longest = many_call(&small(), &[0; 128], &[]).to_bytes();
    let longer = many_call(&small(), &[0; 129], &[]).to_bytes();
    let shape_and_count = 1 + 8 * 6;
    for limits in [Limits::USUAL, Limits::LARGE] {
        assert_eq!(answered_within(limits, &longest), "many 14\n");
        assert_eq!(answered_within(limits, &longer), "too long\n");
        // Told as soon as the count is read.
        let answer = answered_within(limits, &longer[..shape_and_count]);
        assert_eq!(answer, "too long\n");
        let answer = answered_within(limits, &longest[..shape_and_count]);
        assert_eq!(answer, "cut off\n");
    }
    let beyond = many_call(&small(), &[], &[0; 65_538]).to_bytes();
    assert_eq!(answered(&beyond), "too long\n");
    assert!(answered_within(Limits::LARGE, &beyond).starts_with("many 3 00"));
}

#[test]
fn a_call_in_words() {
    let meaning = many_call(&small(), &[3, 1, 2], &[0; 3]).meaning();
    let due = "write many form 0, m 2, t 3, v 4, 3 numbers, 3 bytes of cells";
    assert_eq!(meaning, due);
    let meaning = many_call(&small(), &[3], &[0]).meaning();
    let due = "write many form 0, m 2, t 3, v 4, 1 number, 1 byte of cells";
    assert_eq!(meaning, due);
}
