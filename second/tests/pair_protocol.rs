//! Calls on two fields as one, as bytes and as lines.

#[path = "common/answering.rs"]
mod answering;

use answering::{answered, answered_within, line_of};
use second::pairs::PairShape;
use second::protocol::{Call, Limits, PairCall};

const OF_20: PairShape = PairShape {
    form: 0,
    m: 2,
    t: [2, 2],
    v: [20, 20],
};

const READ: Option<u64> = None;

fn pair_call(pair: PairShape, number: Option<u64>, cells: [&[u8]; 2]) -> Call {
    Call::Pair(PairCall {
        pair,
        number,
        cells: cells.map(<[u8]>::to_vec),
    })
}

fn line(number: Option<u64>, first: &[u8], second: &[u8]) -> String {
    line_of(pair_call(OF_20, number, [first, second]))
}

#[test]
fn lines_of_reads() {
    assert_eq!(line(READ, &[0, 0], &[0, 0]), "pair 0 0 4\n");
    assert_eq!(line(READ, &[0x04, 0], &[0, 0]), "pair 0 7 3\n");
    assert_eq!(line(READ, &[0, 0], &[]), "pair 3\n");
    assert_eq!(line(READ, &[0, 0], &[0x02, 0x80]), "pair 16 1\n");
    assert_eq!(line(READ, &[0xff, 0xc0], &[]), "pair 15 2 0\n");
    let form_1 = PairShape { form: 1, ..OF_20 };
    let blank = pair_call(form_1, READ, [&[0, 0], &[0, 0]]);
    assert_eq!(line_of(blank), "pair 11\n");
    let unequal = PairShape {
        v: [20, 21],
        ..OF_20
    };
    assert_eq!(line_of(pair_call(unequal, READ, [&[], &[]])), "pair 18\n");
}

#[test]
fn lines_of_writes() {
    let told = line(Some(5), &[0x00, 0x40], &[0x00, 0x00]);
    assert_eq!(told, "pairwrite 0 0 2 4 c8c0 0000\n");
    let told = line(Some(0), &[0xc2, 0xc0], &[0x00, 0x00]);
    assert_eq!(told, "pairwrite 0 1 1 2 c2c0 0240\n");
    let told = line(Some(5), &[0xc1, 0xc0], &[0xc1, 0xc0]);
    assert_eq!(told, "pairwrite 5 c1c0 c1c0\n");
    let told = line(Some(20), &[0x02, 0x80], &[0x00]);
    assert_eq!(told, "pairwrite 6 0280 00\n");
    assert_eq!(line(Some(5), &[], &[0x00]), "pairwrite 3 00\n");
    assert_eq!(line(Some(5), &[0x00, 0x40], &[]), "pairwrite 3 0040\n");
    assert_eq!(line(Some(5), &[], &[]), "pairwrite 3\n");
    let told = line(Some(5), &[0x00, 0x40], &[0x02, 0x80]);
    assert_eq!(told, "pairwrite 16 1 0040 0280\n");
}

#[test]
fn the_numbers_in_their_order() {
    let pair = PairShape {
        form: 1,
        m: 2,
        t: [3, 5],
        v: [4, 6],
    };
    for (operation, number) in [(16, READ), (17, Some(7))] {
        let bytes = pair_call(pair, number, [&[9, 8], &[7]]).to_bytes();
        assert_eq!(bytes[0], operation);
        let count = 6 + usize::from(number.is_some());
        let (numbers, strings) = bytes[1..].split_at(8 * count);
        let low_bytes: Vec<u8> = numbers.iter().copied().step_by(8).collect();
        assert_eq!(low_bytes, [1, 2, 3, 4, 5, 6, 7][..count]);
        let due = [2, 0, 0, 0, 0, 0, 0, 0, 9, 8, 1, 0, 0, 0, 0, 0, 0, 0, 7];
        assert_eq!(strings, due);
    }
}

#[test]
fn a_call_cut_off_anywhere_is_said_so() {
    for number in [READ, Some(5)] {
        for cells in [[&[][..], &[]], [&[0, 0], &[0, 0]], [&[0], &[]]] {
            let bytes = pair_call(OF_20, number, cells).to_bytes();
            for length in 1..bytes.len() {
                assert_eq!(answered(&bytes[..length]), "cut off\n");
            }
            assert!(answered(&bytes).starts_with("pair"));
        }
    }
}

#[test]
fn both_strings_share_one_limit() {
    let limits = Limits::USUAL;
    let most = limits.bytes as usize;
    for number in [READ, Some(5)] {
        for first in [0, 2, most] {
            let cells = vec![0; first];
            let longest = pair_call(OF_20, number, [&cells, &vec![0; most - first]]);
            let answer = answered_within(limits, &longest.to_bytes());
            assert!(answer.starts_with("pair"), "{}", first);
            let longer = pair_call(OF_20, number, [&cells, &vec![0; most - first + 1]]);
            assert_eq!(answered_within(limits, &longer.to_bytes()), "too long\n");
        }
        let longer = pair_call(OF_20, number, [&vec![0; most + 1], &[]]);
        assert_eq!(answered_within(limits, &longer.to_bytes()), "too long\n");
    }
}

#[test]
fn calls_in_words() {
    let pair = PairShape { t: [2, 3], ..OF_20 };
    let cells: [&[u8]; 2] = [&[0, 0], &[0]];
    let given = "form 0, m 2, t 2, v 20, 2 bytes, t 3, v 20, 1 byte";
    let meaning = pair_call(pair, READ, cells).meaning();
    assert_eq!(meaning, format!("pair read {}", given));
    let meaning = pair_call(pair, Some(5), cells).meaning();
    assert_eq!(meaning, format!("pair write {}, number 5", given));
}
