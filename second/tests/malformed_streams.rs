//! How the new dumps of made streams are malformed.

#[path = "common/new_dump_calls.rs"]
mod new_dump_calls;

use new_dump_calls::new_dump_calls;
use second::dump::{self, Ending};
use second::layout::Layouts;
use second::newdump;
use second::protocol::NewDumpCall;
use std::collections::HashSet;

fn assert_met(met: &HashSet<String>, due: &[&str]) {
    let missing: Vec<_> = due.iter().filter(|kind| !met.contains(**kind)).collect();
    assert!(missing.is_empty(), "not met: {:?}", missing);
}

/// How a number that is none is at fault.
fn fault_of_number(bytes: &[u8]) -> &'static str {
    let goes_on = bytes.iter().take_while(|byte| **byte & 0x80 != 0).count();
    match goes_on {
        9.. => "over nine",
        _ if goes_on == bytes.len() => "cut off",
        _ => "not shortest",
    }
}

/// Takes as many numbers, or tells which one is at fault and how.
fn numbers_in_front(count: usize, bytes: &[u8]) -> Result<(Vec<u64>, &[u8]), String> {
    let mut rest = bytes;
    let mut numbers = Vec::new();
    for place in 0..count {
        match dump::number_in_front(rest) {
            Some((number, after)) => {
                numbers.push(number);
                rest = after;
            }
            None => return Err(format!("number {} {}", place, fault_of_number(rest))),
        }
    }
    Ok((numbers, rest))
}

fn fault_of_list(dump: &[u8]) -> String {
    let (count, behind) = match numbers_in_front(1, dump) {
        Ok((numbers, behind)) => (numbers[0], behind),
        Err(fault) => return format!("count: {}", fault),
    };
    if count > 64 {
        return format!("count {}", count.min(128));
    }
    let mut rest = behind;
    for _ in 0..count {
        match layout_in_front(rest) {
            Ok(after) => rest = after,
            Err(fault) => return fault,
        }
    }
    panic!("the list is whole")
}

/// What follows a layout. Its range is a number as form, m and t are, but in form 2.
fn layout_in_front(bytes: &[u8]) -> Result<&[u8], String> {
    let in_layout = |fault: String| format!("layout: {}", fault);
    let (numbers, ranges) = numbers_in_front(3, bytes).map_err(in_layout)?;
    let behind = match (numbers[0], numbers[2]) {
        (2, t @ 2..=16) => {
            let last = format!("number {} ", t - 1);
            let in_ranges = |fault: String| format!("ranges: {}", fault.replace(&last, "last "));
            numbers_in_front(t as usize, ranges).map_err(in_ranges)
        }
        (2, t) => Err(format!("form 2 with t {}", t)),
        _ => numbers_in_front(4, bytes).map_err(in_layout),
    };
    behind.map(|(_, rest)| rest)
}

fn fault_of_record(record: &[u8], count: u64) -> String {
    match numbers_in_front(3, record) {
        Err(fault) => format!("record: {}", fault),
        Ok((numbers, _)) if numbers[1] == count => "record: layout behind the last".to_string(),
        Ok((numbers, _)) if numbers[1] > count => "record: layout beyond".to_string(),
        Ok(_) => "record: cells cut off".to_string(),
    }
}

#[test]
fn new_dumps_are_malformed_in_every_way() {
    let mut met = HashSet::new();
    for call in new_dump_calls(0).into_iter().chain(new_dump_calls(1)) {
        let dump = match call {
            NewDumpCall::Walk { dump } => dump,
            _ => continue,
        };
        let walk = newdump::walk(&dump, &mut Layouts::default());
        met.insert(match walk.ending {
            Ending::Malformed { offset: 0 } => fault_of_list(&dump),
            Ending::Malformed { offset } => {
                fault_of_record(&dump[offset..], walk.listed.len() as u64)
            }
            _ => continue,
        });
    }
    for fault in ["cut off", "over nine", "not shortest"] {
        assert_met(&met, &[&format!("count: number 0 {}", fault)]);
        for place in 0..4 {
            assert_met(&met, &[&format!("layout: number {} {}", place, fault)]);
        }
        for place in 0..3 {
            assert_met(&met, &[&format!("record: number {} {}", place, fault)]);
        }
        for place in ["number 0", "number 1", "last"] {
            assert_met(&met, &[&format!("ranges: {} {}", place, fault)]);
        }
    }
    for t in [0_u64, 1, 17, 258, (1 << 32) + 3, (1 << 63) - 1] {
        assert_met(&met, &[&format!("form 2 with t {}", t)]);
    }
    let due = [
        "count 65",
        "count 66",
        "count 127",
        "count 128",
        "record: layout behind the last",
        "record: layout beyond",
        "record: cells cut off",
    ];
    assert_met(&met, &due);
}
