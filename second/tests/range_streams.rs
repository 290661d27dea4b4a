//! What the made streams are sure to hold of form 2 and of ranges that are miscounted.

#[path = "common/streams.rs"]
mod streams;

use second::answers;
use second::dump::Ending;
use second::field;
use second::layout::{Layout, Layouts, Shape};
use second::newdump;
use second::protocol::{Call, Limits, NewDumpCall};
use second::refusal::Refusal;
use std::collections::HashMap;

const OFTEN: usize = 5;
const LARGEST_RANGE: u64 = 1 << 56;

/// How often each kind is met, in the streams of two seeds together.
fn counted(
    kinds_of: impl Fn(&Call, &mut Layouts) -> Option<Vec<String>>,
) -> HashMap<String, usize> {
    let mut layouts = Layouts::default();
    let mut met = HashMap::new();
    let both = [0, 1].map(|seed| streams::calls(seed, Limits::USUAL));
    for call in both.iter().flat_map(|calls| calls.iter()) {
        let kinds = kinds_of(call, &mut layouts);
        for kind in kinds.unwrap_or_default() {
            *met.entry(kind).or_default() += 1;
        }
    }
    met
}

fn assert_met_often(met: &HashMap<String, usize>, due: &[&str]) {
    let is_rare = |kind: &&&str| met.get(**kind).map_or(true, |count| *count < OFTEN);
    let rare: Vec<_> = due.iter().filter(is_rare).collect();
    assert!(rare.is_empty(), "rare: {:?} in {:?}", rare, met);
}

fn shape_of(call: &Call) -> Option<(&'static str, &Shape)> {
    match call {
        Call::Layout { shape, .. } => Some(("layout", shape)),
        Call::Read { shape, .. } => Some(("read", shape)),
        Call::Write { shape, .. } => Some(("write", shape)),
        Call::Many(call) => Some(("many", &call.shape)),
        Call::Judge(call) => Some(("judge", &call.shape)),
        Call::NewDump(NewDumpCall::ExportLayout { shape, .. }) => Some(("listed", shape)),
        Call::NewDump(NewDumpCall::ExportRecord { exported, .. }) => {
            Some(("export", &exported.shape))
        }
        _ => None,
    }
}

fn refusal_of(call: &Call, layouts: &mut Layouts) -> String {
    let answer = answers::answer(call, layouts);
    let number = answer.split_whitespace().nth(1);
    number.expect("an answer has a number").to_string()
}

fn order_of(ranges: &[u64]) -> &'static str {
    let falls = ranges.windows(2).all(|pair| pair[0] >= pair[1]);
    let rises = ranges.windows(2).all(|pair| pair[0] <= pair[1]);
    match (falls, rises) {
        (true, true) => "equal",
        (true, false) => "falling",
        (false, true) => "rising",
        (false, false) => "up and down",
    }
}

/// What a granted list is known by.
fn kinds_of_layout(layout: &Layout) -> Vec<String> {
    let steps: Vec<usize> = layout
        .counts()
        .windows(2)
        .map(|pair| pair[0] - pair[1])
        .collect();
    let kinds = [
        (
            "a step grows",
            steps.windows(2).any(|pair| pair[0] > pair[1]),
        ),
        ("first step of 20 or more", steps[0] >= 20),
        ("longest step", steps[1..].contains(&35)),
    ];
    let met = kinds.iter().filter(|(_, is_met)| *is_met);
    met.map(|(kind, _)| kind.to_string()).collect()
}

/// Which of the numbers alone keeps a shape of form 2 from a layout.
fn fault_of(shape: &Shape) -> Option<String> {
    let is_range = |range: &u64| (2..=LARGEST_RANGE).contains(range);
    let faulty: Vec<&u64> = shape.ranges.iter().filter(|v| !is_range(v)).collect();
    let m_is_faulty = !(2..=4).contains(&shape.m);
    let t_is_faulty = !(2..=16).contains(&shape.t);
    match (m_is_faulty, t_is_faulty, &faulty[..]) {
        (true, false, []) => Some("m alone".to_string()),
        (false, true, []) if shape.t == shape.ranges.len() as u64 => {
            Some(format!("t {} alone", shape.t))
        }
        (false, false, [range]) if shape.t == shape.ranges.len() as u64 => match range {
            0 | 1 => Some(format!("range {} alone", range)),
            _ if **range == LARGEST_RANGE + 1 => Some("longest range and 1 alone".to_string()),
            _ => Some("longer range alone".to_string()),
        },
        _ => None,
    }
}

fn kinds_of_shape(call: &Call, layouts: &mut Layouts) -> Option<Vec<String>> {
    let (operation, shape) = shape_of(call).filter(|(_, shape)| shape.form == 2)?;
    let mut kinds = vec![format!("{} {}", operation, refusal_of(call, layouts))];
    match layouts.grant(shape, 256) {
        Ok(layout) => {
            kinds.push(format!("{} {}", operation, order_of(&shape.ranges)));
            kinds.push(format!("{} of {}", operation, shape.t));
            kinds.extend(kinds_of_layout(&layout));
        }
        Err(_) => kinds.extend(fault_of(shape)),
    }
    Some(kinds)
}

const KINDS_OF_ANSWERS: [&str; 26] = [
    "layout 0",
    "layout 1",
    "layout 2",
    "read 0",
    "read 1",
    "read 3",
    "read 11",
    "read 15",
    "read 16",
    "write 0",
    "write 1",
    "write 3",
    "write 5",
    "write 6",
    "write 15",
    "write 16",
    "many 0",
    "many 1",
    "many 14",
    "listed 0",
    "listed 1",
    "listed 9",
    "export 0",
    "export 1",
    "export 9",
    "export 10",
];

const KINDS_OF_SHAPES: [&str; 11] = [
    "a step grows",
    "first step of 20 or more",
    "longest step",
    "m alone",
    "t 0 alone",
    "t 1 alone",
    "t 17 alone",
    "range 0 alone",
    "range 1 alone",
    "longest range and 1 alone",
    "longer range alone",
];

#[test]
fn shapes_of_form_2_in_every_call() {
    let met = counted(kinds_of_shape);
    assert_met_often(&met, &KINDS_OF_ANSWERS);
    assert_met_often(&met, &KINDS_OF_SHAPES);
    for operation in [
        "layout", "read", "write", "many", "judge", "listed", "export",
    ] {
        for order in ["equal", "falling", "rising", "up and down"] {
            assert_met_often(&met, &[&format!("{} {}", operation, order)]);
        }
    }
    for t in 2..=16 {
        assert_met_often(&met, &[&format!("write of {}", t)]);
    }
}

/// The same call with as many ranges as its form has. The stream makes its cells by them.
fn with_ranges_due(call: &Call) -> Option<Call> {
    let mut call = call.clone();
    let shape = match &mut call {
        Call::Layout { shape, .. } | Call::Read { shape, .. } | Call::Write { shape, .. } => shape,
        _ => return None,
    };
    let due = match (shape.form, shape.t) {
        (0 | 1, _) => 1,
        (2, 2..=16) => shape.t as usize,
        _ => return None,
    };
    let last = shape.ranges.last().copied().unwrap_or(2);
    shape.ranges.resize(due, last);
    Some(call)
}

/// How many ranges a call has that would be accepted with another count of them.
fn miscounted(call: &Call, layouts: &mut Layouts) -> Option<Vec<String>> {
    let (operation, shape) = shape_of(call)?;
    let accepted = with_ranges_due(call).filter(|accepted| accepted != call)?;
    if refusal_of(&accepted, layouts) != "0" {
        return None;
    }
    let count = shape.ranges.len();
    let mut kinds = vec![format!("form {}: {}", shape.form, count)];
    if count as u64 == shape.t {
        kinds.push(format!("form {}: t", shape.form));
    }
    let due = shape.ranges_due() as usize;
    if count + 1 == due {
        kinds.push(format!("{} form {}: one fewer", operation, shape.form));
    } else if count == due + 1 {
        kinds.push(format!("{} form {}: one more", operation, shape.form));
    }
    Some(kinds)
}

#[test]
fn ranges_are_miscounted_in_every_form() {
    let met = counted(miscounted);
    for form in [0, 1, 2] {
        for count in [0, 16, 17, 64] {
            assert_met_often(&met, &[&format!("form {}: {}", form, count)]);
        }
        for operation in ["layout", "read", "write"] {
            for fault in ["one fewer", "one more"] {
                let kind = format!("{} form {}: {}", operation, form, fault);
                assert_met_often(&met, &[&kind]);
            }
        }
    }
    assert_met_often(&met, &["form 0: t", "form 1: t", "form 2: 1"]);
}

/// The range that decides of a number, where one does.
fn range_due(layout: &Layout, read: Result<field::Reading, Refusal>) -> Option<u64> {
    match read {
        Err(Refusal::Blank) => Some(layout.range(1)),
        Ok(reading) if reading.left > 0 => Some(layout.range(reading.generation + 1)),
        _ => None,
    }
}

/// What a write of form 2 is about, and its refusal.
fn kinds_of_write(call: &Call, layouts: &mut Layouts) -> Option<Vec<String>> {
    let (shape, number, cells) = match call {
        Call::Write {
            shape,
            number,
            cells,
        } if shape.form == 2 => (shape, *number, cells),
        _ => return None,
    };
    let layout = layouts.grant(shape, 256).ok()?;
    let refusal = refusal_of(call, layouts);
    let read = field::read(shape, cells, layouts);
    let passed = shape
        .ranges
        .iter()
        .filter(|range| number >= **range)
        .count();
    let beside = match range_due(&layout, read) {
        Some(range) if number == range => "at its range",
        Some(range) if number == range - 1 => "last in range",
        _ if passed == 0 => "below all",
        _ if passed == shape.ranges.len() => "above all",
        _ => "between",
    };
    let state = match read {
        Err(Refusal::Blank) => "blank ",
        Ok(reading) if reading.left == 0 => "spent ",
        _ => "",
    };
    Some(vec![format!("{}{}: {}", state, beside, refusal)])
}

const KINDS_OF_WRITES: [&str; 21] = [
    "blank last in range: 0",
    "blank below all: 0",
    "blank between: 0",
    "blank between: 6",
    "blank at its range: 6",
    "blank above all: 6",
    "last in range: 0",
    "below all: 0",
    "between: 0",
    "between: 6",
    "at its range: 6",
    "above all: 6",
    "spent below all: 5",
    "spent between: 5",
    "spent above all: 5",
    "below all: 15",
    "between: 15",
    "above all: 15",
    "below all: 16",
    "between: 16",
    "above all: 16",
];

#[test]
fn numbers_beside_the_range_that_decides_and_beside_others() {
    let met = counted(kinds_of_write);
    assert_met_often(&met, &KINDS_OF_WRITES);
}

/// How records of form 2 are read, and of a move to old whether form 2 alone keeps the dump
/// where it is.
fn kinds_of_dump(call: &Call, layouts: &mut Layouts) -> Option<Vec<String>> {
    let (operation, dump) = match call {
        Call::NewDump(NewDumpCall::Walk { dump }) => ("walk", dump),
        Call::NewDump(NewDumpCall::MoveToOld { dump, .. }) => ("old", dump),
        _ => return None,
    };
    let walk = newdump::walk(dump, layouts);
    let has_others = walk
        .listed
        .iter()
        .any(|layout| ![0, 2].contains(&layout.form));
    let of_form_2 = walk.records.iter().filter(|record| record.layout.form == 2);
    let outcomes = of_form_2.map(|record| record.outcome);
    if operation == "walk" {
        let refusal = |outcome: Result<_, Refusal>| outcome.map_or_else(Refusal::number, |_| 0);
        return Some(
            outcomes
                .map(|outcome| format!("record {}", refusal(outcome)))
                .collect(),
        );
    }
    let is_listed = walk.listed.iter().any(|layout| layout.form == 2);
    if has_others || !is_listed || walk.ending != Ending::EndOfDump {
        return None;
    }
    let used = outcomes.count() > 0;
    let refusal = refusal_of(call, layouts);
    Some(vec![format!("old {}, used {}", refusal, used)])
}

const KINDS_OF_DUMPS: [&str; 8] = [
    "record 0",
    "record 1",
    "record 3",
    "record 11",
    "record 15",
    "record 16",
    "old 12, used true",
    "old 12, used false",
];

#[test]
fn form_2_in_walks_and_moves() {
    let met = counted(kinds_of_dump);
    assert_met_often(&met, &KINDS_OF_DUMPS);
    assert_eq!(met.len(), KINDS_OF_DUMPS.len());
}
