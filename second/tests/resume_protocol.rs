//! The call that resumes a write, as bytes and as a line.

#[path = "common/answering.rs"]
mod answering;

use answering::{answered, answered_within, line_of};
use second::layout::{OldShape, Shape};
use second::protocol::{Call, Limits, ResumeCall};

fn small() -> Shape {
    OldShape { m: 2, t: 3, v: 4 }.in_form_0()
}

fn of_20() -> Shape {
    OldShape { m: 2, t: 2, v: 20 }.in_form_0()
}

fn resume_call(shape: &Shape, number: u64, cells: &[u8]) -> Call {
    Call::Resume(ResumeCall {
        shape: shape.clone(),
        number,
        cells: cells.to_vec(),
    })
}

fn resume_line(shape: &Shape, number: u64, cells: &[u8]) -> String {
    line_of(resume_call(shape, number, cells))
}

#[test]
fn lines() {
    assert_eq!(resume_line(&small(), 2, &[0x04]), "resume 0 2 2 1 2 1c\n");
    assert_eq!(resume_line(&small(), 2, &[0x0f]), "resume 0 3 1 0 4f\n");
    let line = resume_line(&of_20(), 0, &[0x02, 0x80]);
    assert_eq!(line, "resume 0 2 3 2 3 4 07c0\n");
    assert_eq!(resume_line(&small(), 2, &[0xff]), "resume 5 ff\n");
    assert_eq!(resume_line(&small(), 4, &[0xff]), "resume 6 ff\n");
    assert_eq!(resume_line(&small(), 2, &[0x4f]), "resume 17 4f\n");
    assert_eq!(resume_line(&small(), 2, &[]), "resume 3\n");
    let beyond = Shape { t: 1, ..small() };
    assert_eq!(resume_line(&beyond, 2, &[0xff]), "resume 1 ff\n");
    let falling = Shape::of_ranges(2, &[20, 4, 2]);
    assert_eq!(resume_line(&falling, 1, &[0x1b]), "resume 0 3 3 2 1 2 bf\n");
    assert_eq!(resume_line(&falling, 99, &[0x0e]), "resume 17 0e\n");
}

#[test]
fn the_number_stands_behind_the_shape() {
    let bytes = resume_call(&small(), 7, &[9, 8]).to_bytes();
    assert_eq!(bytes[0], 15);
    let (numbers, string) = bytes[1..].split_at(8 * 6);
    let low_bytes: Vec<u8> = numbers.iter().copied().step_by(8).collect();
    assert_eq!(low_bytes, [0, 2, 3, 1, 4, 7]);
    assert_eq!(string, [2, 0, 0, 0, 0, 0, 0, 0, 9, 8]);
}

#[test]
fn a_call_cut_off_anywhere_is_said_so() {
    for cells in [&[][..], &[0x0f]] {
        let bytes = resume_call(&small(), 2, cells).to_bytes();
        for length in 1..bytes.len() {
            assert_eq!(answered(&bytes[..length]), "cut off\n");
        }
        assert!(answered(&bytes).starts_with("resume "));
    }
}

#[test]
fn calls_that_are_too_long() {
    for limits in [Limits::USUAL, Limits::LARGE] {
        let most = limits.bytes as usize;
        let longest = resume_call(&small(), 2, &vec![0; most]).to_bytes();
        assert!(answered_within(limits, &longest).starts_with("resume 3 00"));
        let longer = resume_call(&small(), 2, &vec![0; most + 1]).to_bytes();
        assert_eq!(answered_within(limits, &longer), "too long\n");
        // Told as soon as the count is read.
        let up_to_count = &longer[..1 + 8 * 6 + 8];
        assert_eq!(answered_within(limits, up_to_count), "too long\n");
    }
    let ranges = vec![2; 65];
    let shape = Shape { ranges, ..small() };
    let bytes = resume_call(&shape, 2, &[]).to_bytes();
    assert_eq!(answered(&bytes[..1 + 8 * 4]), "too long\n");
}

#[test]
fn a_call_in_words() {
    let meaning = resume_call(&small(), 2, &[0]).meaning();
    let due = "resume form 0, m 2, t 3, v 4, number 2, 1 byte of cells";
    assert_eq!(meaning, due);
}
