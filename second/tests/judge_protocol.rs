//! The call that judges a field before and after, as bytes and as a line.

#[path = "common/answering.rs"]
mod answering;

use answering::{answered, answered_within, line_of};
use second::layout::{OldShape, Shape};
use second::protocol::{Call, JudgeCall, Limits};

fn small() -> Shape {
    OldShape { m: 2, t: 3, v: 4 }.in_form_0()
}

fn judge_call(shape: &Shape, before: &[u8], after: &[u8]) -> Call {
    Call::Judge(JudgeCall {
        shape: shape.clone(),
        before: before.to_vec(),
        after: after.to_vec(),
    })
}

fn judge_line(shape: &Shape, before: &[u8], after: &[u8]) -> String {
    line_of(judge_call(shape, before, after))
}

#[test]
fn lines() {
    assert_eq!(judge_line(&small(), &[0x03], &[0x0b]), "judge 0 1 1\n");
    assert_eq!(judge_line(&small(), &[0x00], &[0x00]), "judge 0 1 0\n");
    assert_eq!(judge_line(&small(), &[0x03], &[0x4f]), "judge 0 0\n");
    assert_eq!(judge_line(&small(), &[0x03], &[0x43]), "judge 16 2\n");
    assert_eq!(judge_line(&small(), &[0x0f], &[0x43]), "judge 15 2 2\n");
    assert_eq!(judge_line(&small(), &[], &[]), "judge 3\n");
    let form_1 = Shape { form: 1, ..small() };
    assert_eq!(judge_line(&form_1, &[0x00], &[0x00]), "judge 11\n");
    let of_20 = OldShape { m: 2, t: 2, v: 20 }.in_form_0();
    let line = judge_line(&of_20, &[0x00, 0x40], &[0xc1, 0x40]);
    assert_eq!(line, "judge 15 2 4\n");
    let beyond = Shape { t: 1, ..small() };
    assert_eq!(judge_line(&beyond, &[], &[]), "judge 1\n");
}

#[test]
fn each_string_has_its_own_count() {
    let bytes = judge_call(&small(), &[7, 8], &[9]).to_bytes();
    assert_eq!(bytes[0], 14);
    let (shape, strings) = bytes[1..].split_at(8 * 5);
    let low_bytes: Vec<u8> = shape.iter().copied().step_by(8).collect();
    assert_eq!(low_bytes, [0, 2, 3, 1, 4]);
    let count = |count: u64| count.to_le_bytes();
    let due = [&count(2)[..], &[7, 8], &count(1), &[9]].concat();
    assert_eq!(strings, due);
}

#[test]
fn a_call_cut_off_anywhere_is_said_so() {
    for (before, after) in [
        (&[][..], &[][..]),
        (&[0], &[0]),
        (&[0, 0], &[]),
        (&[], &[0]),
    ] {
        let bytes = judge_call(&small(), before, after).to_bytes();
        for length in 1..bytes.len() {
            assert_eq!(answered(&bytes[..length]), "cut off\n");
        }
        assert!(answered(&bytes).starts_with("judge "));
    }
}

/// "A call's byte strings together."
#[test]
fn both_strings_share_one_limit() {
    for limits in [Limits::USUAL, Limits::LARGE] {
        let most = limits.bytes as usize;
        for before in [0, 1, 5_000, most - 1, most] {
            let bytes_before = vec![0; before];
            let longest = judge_call(&small(), &bytes_before, &vec![0; most - before]).to_bytes();
            assert_eq!(answered_within(limits, &longest), "judge 3\n");
            let longer = vec![0; most - before + 1];
            let longer = judge_call(&small(), &bytes_before, &longer).to_bytes();
            assert_eq!(answered_within(limits, &longer), "too long\n");
            // Told as soon as the second count is read.
            let up_to_count = &longer[..1 + 8 * 5 + 8 + before + 8];
            assert_eq!(answered_within(limits, up_to_count), "too long\n");
        }
        let beyond = judge_call(&small(), &vec![0; most + 1], &[]).to_bytes();
        assert_eq!(answered_within(limits, &beyond), "too long\n");
        let up_to_count = &beyond[..1 + 8 * 5 + 8];
        assert_eq!(answered_within(limits, up_to_count), "too long\n");
    }
}

#[test]
fn a_call_in_words() {
    let meaning = judge_call(&small(), &[0], &[0, 0]).meaning();
    let due = "judge form 0, m 2, t 3, v 4, 1 byte before, 2 bytes after";
    assert_eq!(meaning, due);
}
