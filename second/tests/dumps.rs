//! Numbers, records, export and the walk.

use second::dump::{self, Ending};
use second::field::Reading;
use second::layout::{Layouts, OldShape};
use second::refusal::Refusal;

const SHAPE: OldShape = OldShape { m: 2, t: 3, v: 4 };
const LARGEST: u64 = (1 << 63) - 1;

fn outcomes(dump: &[u8]) -> (Vec<Result<Reading, Refusal>>, Ending) {
    let walk = dump::walk(dump, &mut Layouts::default());
    let outcomes = walk.records.iter().map(|record| record.outcome);
    (outcomes.collect(), walk.ending)
}

#[test]
fn numbers_come_back_at_every_length() {
    for bits in 0..63 {
        for number in [(1 << bits) - 1, 1 << bits, (1 << bits) + 1] {
            let mut bytes = dump::number_bytes(number);
            assert!(bytes.len() <= 9);
            bytes.extend([0xff, 0x00]);
            let found = dump::number_in_front(&bytes);
            assert_eq!(found, Some((number, &[0xff, 0x00][..])));
        }
    }
    let longest = dump::number_bytes(LARGEST);
    assert_eq!(
        longest,
        [0xff, 0xff, 0xff, 0xff, 0xff, 0xff, 0xff, 0xff, 0x7f]
    );
    assert_eq!(dump::number_in_front(&longest), Some((LARGEST, &[][..])));
}

#[test]
fn strings_of_three_bytes_stand_for_one_number_each_or_for_none() {
    let mut found = Vec::new();
    for bytes in (0..1_u32 << 24).map(|bytes| bytes.to_be_bytes()) {
        if let Some((number, [])) = dump::number_in_front(&bytes[1..]) {
            assert_eq!(dump::number_bytes(number), &bytes[1..]);
            found.push(number);
        }
    }
    found.sort_unstable();
    let due: Vec<u64> = (1 << 14..1 << 21).collect();
    assert!(found == due);
}

#[test]
fn malformed_numbers() {
    let ten_bytes = [0x80, 0x80, 0x80, 0x80, 0x80, 0x80, 0x80, 0x80, 0x80, 0x01];
    let nine_not_shortest = [0x81, 0x80, 0x80, 0x80, 0x80, 0x80, 0x80, 0x80, 0x00];
    assert_eq!(dump::number_in_front(&ten_bytes), None);
    assert_eq!(dump::number_in_front(&ten_bytes[..9]), None);
    assert_eq!(dump::number_in_front(&nine_not_shortest), None);
    assert_eq!(dump::number_in_front(&[]), None);
    assert_eq!(dump::number_in_front(&[0x80]), None);
    assert_eq!(dump::number_in_front(&[0x80, 0x00]), None);
    assert_eq!(dump::number_in_front(&[0x00, 0x80]), Some((0, &[0x80][..])));
}

#[test]
fn a_number_of_any_kind_may_be_malformed() {
    for place in 0..5 {
        for odd in [&[0x80, 0x00][..], &[0x80; 10], &[0xff; 9]] {
            let mut dump = dump::record_bytes(7, SHAPE, &[0x4f]);
            let offset = dump.len();
            for number in 0..5 {
                dump.extend(if number == place { odd } else { &[0x02][..] });
            }
            dump.extend([0, 0]);
            let (outcomes, ending) = outcomes(&dump);
            assert_eq!(outcomes.len(), 1);
            assert_eq!(ending, Ending::Malformed { offset });
        }
    }
}

#[test]
fn a_cut_off_dump_stops_at_the_first_byte_of_its_last_record() {
    let first = dump::record_bytes(300, SHAPE, &[0x03]);
    let second = dump::record_bytes(
        LARGEST,
        OldShape {
            v: 1 << 56,
            ..SHAPE
        },
        &[0; 3],
    );
    let dump = [first.clone(), second].concat();
    for length in 0..=dump.len() {
        let (outcomes, ending) = outcomes(&dump[..length]);
        let (records, due) = match length {
            0 => (0, Ending::EndOfDump),
            _ if length < first.len() => (0, Ending::Malformed { offset: 0 }),
            _ if length == first.len() => (1, Ending::EndOfDump),
            _ if length == dump.len() => (2, Ending::EndOfDump),
            _ => (
                1,
                Ending::Malformed {
                    offset: first.len(),
                },
            ),
        };
        assert_eq!((outcomes.len(), ending), (records, due));
    }
}

#[test]
fn the_walk_goes_on_after_refusals_1_3_15_and_16() {
    let bad_shape = OldShape {
        m: LARGEST,
        ..SHAPE
    };
    let dump = [
        dump::record_bytes(1, bad_shape, &[0]),
        dump::record_bytes(2, SHAPE, &[0, 0]),
        dump::record_bytes(3, SHAPE, &[]),
        dump::record_bytes(4, SHAPE, &[0x0f]),
        dump::record_bytes(5, SHAPE, &[0x43]),
        dump::record_bytes(6, SHAPE, &[0x23]),
    ];
    let read = Reading {
        generation: 2,
        number: 3,
        left: 1,
    };
    let due = vec![
        Err(Refusal::OutOfBounds),
        Err(Refusal::WrongBytes),
        Err(Refusal::WrongBytes),
        Err(Refusal::Miscounted {
            generation: 2,
            unerased: 2,
        }),
        Err(Refusal::Beyond { generation: 2 }),
        Ok(read),
    ];
    assert_eq!(outcomes(&dump.concat()), (due, Ending::EndOfDump));
}

#[test]
fn the_largest_n_is_more_than_any_dump_has() {
    let mut dump = vec![1, 2, 3, 4];
    dump.extend(dump::number_bytes(LARGEST));
    dump.extend([0; 20]);
    assert_eq!(outcomes(&dump).1, Ending::Malformed { offset: 0 });
}

#[test]
fn a_dump_of_full_size_is_walked_and_a_longer_one_refused() {
    let cells = vec![0; 65_536 - 7];
    let mut dump = dump::record_bytes(1, SHAPE, &cells);
    assert_eq!(dump.len(), 65_536);
    let (read, ending) = outcomes(&dump);
    assert_eq!(read, vec![Err(Refusal::WrongBytes)]);
    assert_eq!(ending, Ending::EndOfDump);
    dump.push(0);
    assert_eq!(outcomes(&dump), (Vec::new(), Ending::TooLong));
    assert_eq!(outcomes(&[0x80; 65_537]), (Vec::new(), Ending::TooLong));
}

#[test]
fn a_record_tells_where_its_cells_are() {
    let cells = [0xc1, 0xc0];
    let shape = OldShape { m: 2, t: 2, v: 20 };
    let dump = [
        dump::record_bytes(300, shape, &cells),
        dump::record_bytes(9, SHAPE, &[0x4f]),
    ];
    let dump = dump.concat();
    let walk = dump::walk(&dump, &mut Layouts::default());
    let found = |index: usize| (walk.records[index].start, walk.records[index].cells);
    assert_eq!(found(0), (6, &cells[..]));
    assert_eq!(found(1), (13, &[0x4f][..]));
    assert_eq!(walk.records[0].serial, 300);
    assert_eq!(walk.records[0].shape, shape);
}

fn export(
    serial: u64,
    shape: OldShape,
    cells: &[u8],
    length: usize,
) -> (Result<usize, Refusal>, Vec<u8>) {
    let mut output = vec![0xa5; length];
    let answer = dump::export(serial, shape, cells, &mut output, &mut Layouts::default());
    (answer, output)
}

#[test]
fn export_fills_the_front_of_its_output() {
    let record = [0xac, 0x02, 2, 3, 4, 1, 0xff];
    for more in 0..4 {
        let (answer, output) = export(300, SHAPE, &[0xff], record.len() + more);
        assert_eq!(answer, Ok(record.len()));
        assert_eq!(output[..record.len()], record);
        assert_eq!(output[record.len()..], vec![0xa5; more]);
    }
    for length in 0..record.len() {
        let refused = export(300, SHAPE, &[0xff], length);
        assert_eq!(refused, (Err(Refusal::OutputTooShort), vec![0xa5; length]));
    }
}

#[test]
fn export_refuses_in_the_order_10_1_3_9() {
    let bad_shape = OldShape { t: 17, ..SHAPE };
    let refusal = |serial: u64, shape: OldShape, cells: &[u8]| export(serial, shape, cells, 0).0;
    let first = refusal(LARGEST + 1, bad_shape, &[]);
    assert_eq!(first, Err(Refusal::SerialOutOfBounds));
    assert_eq!(refusal(LARGEST, bad_shape, &[]), Err(Refusal::OutOfBounds));
    assert_eq!(refusal(LARGEST, SHAPE, &[]), Err(Refusal::WrongBytes));
    assert_eq!(refusal(LARGEST, SHAPE, &[0]), Err(Refusal::OutputTooShort));
    let accepted = export(LARGEST, SHAPE, &[0], 14).0;
    assert_eq!(accepted, Ok(14));
}
