//! What the made streams are sure to hold.

#[path = "common/streams.rs"]
mod streams;

use second::answers;
use second::dump::{self, Ending};
use second::field;
use second::layout::{Layouts, OldShape, Shape};
use second::protocol::{Call, Limits};
use second::stream::write_stream;
use std::collections::HashSet;
use std::sync::Arc;

const CALLS: usize = 40_000;
const ROUND: usize = 20_000;

fn calls(seed: u64) -> Arc<Vec<Call>> {
    streams::calls(seed, Limits::USUAL)
}

fn bytes(seed: u64) -> Vec<u8> {
    let mut stream = Vec::new();
    write_stream(seed, 500, Limits::USUAL, &mut stream).expect("the stream is in memory");
    stream
}

#[test]
fn a_seed_makes_the_same_stream_again_and_another_makes_another() {
    assert_eq!(bytes(5), bytes(5));
    assert_ne!(bytes(5), bytes(6));
}

#[test]
fn calls_are_small_but_for_the_last_ones() {
    let lengths = |calls: &[Call]| calls.iter().map(|call| call.to_bytes().len()).collect();
    for round in calls(1).chunks(ROUND) {
        check_lengths(lengths(round));
    }
}

fn check_lengths(mut lengths: Vec<usize>) {
    let large = lengths.split_off(ROUND - 6);
    // Ten calls on new dumps, as tests/new_streams.rs has them.
    let of_new_dumps = lengths.split_off(ROUND - 16);
    assert!(of_new_dumps.iter().all(|length| *length > 30_000));
    // Two imports and two exports of HEX, the longer one first, and two walks.
    assert_eq!(large[1..4], [17 + 65_537, 17 + 65_537, 17 + 65_536]);
    assert_eq!(large[4..], [9 + 65_536, 9 + 65_537]);
    assert!((60_000..17 + 65_537).contains(&large[0]));
    assert!(lengths.iter().all(|length| *length < 16_000));
    assert!(lengths.iter().sum::<usize>() / lengths.len() < 180);
}

/// The first words of every line: the operation and its refusal, and for an
/// accepted read or write the generation too. The calls of the requests from
/// document 02's §3 on are held to their own tests.
fn kinds(seed: u64) -> HashSet<String> {
    let mut layouts = Layouts::default();
    let mut kinds = HashSet::new();
    let has_tests_of_its_own = |call: &Call| {
        matches!(
            call,
            Call::NewDump(_) | Call::Many(_) | Call::Judge(_) | Call::Resume(_) | Call::Pair(_)
        )
    };
    let is_told_here = |call: &&Call| !has_tests_of_its_own(call);
    for call in calls(seed).iter().filter(is_told_here) {
        let answer = answers::answer(call, &mut layouts);
        for line in answer.lines() {
            let words: Vec<&str> = line.split(' ').collect();
            kinds.insert(match words[..] {
                ["read", "0", generation, ..] => format!("read 0 {}", generation),
                ["write", "0", generation, ..] => format!("write 0 {}", generation),
                ["record", _, _, _, _, _, _, outcome, ..] => format!("record {}", outcome),
                [operation, refusal, ..] => format!("{} {}", operation, refusal),
                _ => line.to_string(),
            });
        }
    }
    kinds
}

/// But for the accepted reads and writes, which tell their generation.
const KINDS: [&str; 37] = [
    "layout 0",
    "layout 1",
    "layout 2",
    "read 1",
    "read 3",
    "read 11",
    "read 15",
    "read 16",
    "write 1",
    "write 3",
    "write 5",
    "write 6",
    "write 15",
    "write 16",
    "export 0",
    "export 1",
    "export 3",
    "export 9",
    "export 10",
    "record 0",
    "record 1",
    "record 3",
    "record 15",
    "record 16",
    "end",
    "stop 7",
    "stop 8",
    "hex 0",
    "hex 8",
    "hex 9",
    "unhex 0",
    "unhex 9",
    "unhex 20",
    "unhex 21",
    "unhex 22",
    "unhex 23",
    "unhex 24",
];

#[test]
fn every_kind_of_answer_is_met() {
    let mut due: Vec<String> = KINDS.map(String::from).to_vec();
    due.extend((1..=16).map(|generation| format!("read 0 {}", generation)));
    due.extend((1..=16).map(|generation| format!("write 0 {}", generation)));
    let met = kinds(2);
    let missing: Vec<&String> = due.iter().filter(|kind| !met.contains(*kind)).collect();
    assert!(missing.is_empty(), "not met: {:?}", missing);
    assert_eq!(met.len(), due.len());
}

#[test]
fn chains_go_from_blank_cells_to_the_end_and_past_it() {
    let mut layouts = Layouts::default();
    let mut refused_past_the_end = 0;
    let mut left_by_the_last = Vec::new();
    let mut length = 0;
    for call in calls(1).iter() {
        if let Call::Write {
            shape,
            number,
            cells,
        } = call
        {
            let follows = *cells == left_by_the_last;
            length = if follows { length + 1 } else { 1 };
            match field::write(shape, *number, cells, &mut layouts) {
                Ok(written) => left_by_the_last = written.cells,
                Err(refusal) => {
                    let is_past_end = refusal.number() == 5 && length > shape.t;
                    refused_past_the_end += usize::from(is_past_end);
                    left_by_the_last = cells.clone();
                }
            }
        }
    }
    assert!(refused_past_the_end > 100);
}

/// The shape of a call in a form of one range.
fn shape_of(call: &Call) -> Option<OldShape> {
    let shape = match call {
        Call::Layout { shape, .. } | Call::Read { shape, .. } | Call::Write { shape, .. } => shape,
        Call::Export { shape, .. } => return Some(*shape),
        Call::Many(call) => &call.shape,
        Call::Judge(call) => &call.shape,
        Call::Resume(call) => &call.shape,
        Call::Walk { .. } | Call::HexExport { .. } | Call::HexImport { .. } => return None,
        Call::NewDump(_) | Call::Pair(_) => return None,
    };
    let Shape { form, m, t, .. } = *shape;
    match (form, &shape.ranges[..]) {
        (0 | 1, [v]) => Some(OldShape { m, t, v: *v }),
        _ => None,
    }
}

/// Each with the other two numbers within their bounds, so that it alone
/// decides.
#[test]
fn every_boundary_of_m_t_and_v_is_met() {
    let both = [1, 2].map(calls);
    let calls = both.iter().flat_map(|calls| calls.iter());
    let shapes: Vec<OldShape> = calls.filter_map(shape_of).collect();
    let (m_bounds, t_bounds, v_bounds) = (2..=4, 2..=16, 2..=1 << 56);
    for m in [0, 1, 2, 4, 5, (1 << 32) + 2, u64::MAX] {
        let others = |shape: &OldShape| t_bounds.contains(&shape.t) && v_bounds.contains(&shape.v);
        assert!(shapes.iter().any(|shape| shape.m == m && others(shape)));
    }
    for t in [0, 1, 2, 15, 16, 17, (1 << 32) + 2, u64::MAX] {
        let others = |shape: &OldShape| m_bounds.contains(&shape.m) && v_bounds.contains(&shape.v);
        assert!(shapes.iter().any(|shape| shape.t == t && others(shape)));
    }
    let most: u64 = 1 << 56;
    for v in [
        0,
        1,
        2,
        most - 1,
        most,
        most + 1,
        (1 << 63) - 1,
        1 << 63,
        u64::MAX,
    ] {
        let others = |shape: &OldShape| m_bounds.contains(&shape.m) && t_bounds.contains(&shape.t);
        assert!(shapes.iter().any(|shape| shape.v == v && others(shape)));
    }
}

#[test]
fn every_boundary_of_g_is_met() {
    let mut layouts = Layouts::default();
    let mut offers = HashSet::new();
    let mut above_the_first_count = HashSet::new();
    let mut ranges_where_the_list_changes = 0;
    for call in calls(2).iter() {
        let one_range = shape_of(call).map(|shape| shape.v);
        if let (Call::Layout { shape, offered }, Some(v)) = (call, one_range) {
            offers.insert(*offered);
            let mut list = |v: u64| {
                let ranges = vec![v];
                let shape = Shape { ranges, ..*shape };
                layouts.grant(&shape, 256)
            };
            if let (Ok(layout), Ok(next)) = (list(v), list(v.saturating_add(1))) {
                above_the_first_count.insert(offered.wrapping_sub(layout.groups() as u64));
                ranges_where_the_list_changes += usize::from(layout.counts() != next.counts());
            }
        }
    }
    assert!([0, 255, 256, 257, u64::MAX]
        .iter()
        .all(|g| offers.contains(g)));
    let around = [u64::MAX, 0, 1];
    assert!(around
        .iter()
        .all(|above| above_the_first_count.contains(above)));
    assert!(ranges_where_the_list_changes > 100);
}

#[test]
fn exports_and_left_over_bits_at_their_edges() {
    let mut layouts = Layouts::default();
    let mut met = HashSet::new();
    for call in calls(1).iter() {
        let answer = answers::answer(call, &mut layouts);
        match call {
            Call::Export {
                serial,
                shape,
                output_length,
                cells,
            } => {
                let record = dump::record_bytes(*serial, *shape, cells).len() as u64;
                let longer = output_length.wrapping_sub(record);
                if answer.starts_with("export 0") || answer.starts_with("export 9") {
                    met.insert(format!("output longer by {}", longer as i64));
                }
                let first_words = answer.split(' ').take(2).collect::<Vec<&str>>();
                met.insert(format!("serial {} {}", serial, first_words.join(" ")));
            }
            Call::Read { shape, cells } if answer == "read 3\n" => {
                let layout = layouts.grant(shape, 256).expect("refusal 3 comes after 2");
                let has_left_over_bit = cells.len() == (layout.wits() + 7) / 8;
                met.insert(format!("left-over bit {}", has_left_over_bit));
            }
            _ => {}
        }
    }
    let due = [
        "output longer by -1",
        "output longer by 0",
        "output longer by 1",
        "serial 9223372036854775807 export 0",
        "serial 9223372036854775808 export 10",
        "serial 18446744073709551615 export 10",
        "left-over bit true",
        "left-over bit false",
    ];
    assert!(due.iter().all(|edge| met.contains(*edge)));
}

/// Which number of a malformed record is at fault and how, or n where there are
/// fewer bytes after it.
fn fault_of_record(record: &[u8]) -> String {
    let mut bytes = record;
    let mut count = 0;
    for place in 0..5 {
        match dump::number_in_front(bytes) {
            Some((number, after)) => {
                bytes = after;
                count = number;
            }
            None => {
                let goes_on = bytes.iter().take_while(|byte| **byte & 0x80 != 0).count();
                return match goes_on {
                    9.. => format!("number {} over nine", place),
                    _ if goes_on == bytes.len() => format!("number {} cut off", place),
                    _ => format!("number {} not shortest in {}", place, goes_on + 1),
                };
            }
        }
    }
    let is_largest = count == (1 << 63) - 1;
    format!("fewer than n bytes, n the largest {}", is_largest)
}

#[test]
fn records_are_malformed_in_every_way() {
    let mut met = HashSet::new();
    for call in calls(1).iter().chain(calls(2).iter()) {
        if let Call::Walk { dump } = call {
            let ending = dump::walk(dump, &mut Layouts::default()).ending;
            if let Ending::Malformed { offset } = ending {
                met.insert(fault_of_record(&dump[offset..]));
            }
        }
    }
    for place in 0..5 {
        assert!(met.contains(&format!("number {} cut off", place)));
        assert!(met.contains(&format!("number {} over nine", place)));
        assert!(met.contains(&format!("number {} not shortest in 9", place)));
    }
    for length in 2..=9 {
        let ending = format!("not shortest in {}", length);
        assert!(met.iter().any(|fault| fault.ends_with(&ending)));
    }
    assert!(met.contains("fewer than n bytes, n the largest true"));
    assert!(met.contains("fewer than n bytes, n the largest false"));
}

#[test]
fn dumps_of_full_size_are_walked_nearly_to_their_end() {
    for seed in 1..3 {
        let full_size = &calls(seed)[CALLS - 2];
        let answer = answers::answer(full_size, &mut Layouts::default());
        let last_record = answer.lines().rev().nth(1).expect("a record and an ending");
        let words: Vec<&str> = last_record.split(' ').collect();
        let start: usize = words[5].parse().expect("where the cells begin");
        assert!(start > 65_000, "{}", last_record);
    }
}
