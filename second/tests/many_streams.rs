//! What the calls of many numbers in made streams are sure to hold.

#[path = "common/many_calls.rs"]
mod many_calls;

use many_calls::many_calls;
use second::cells;
use second::layout::{Layouts, Shape};
use second::many::{self, ManyWritten};
use second::protocol::ManyCall;
use second::refusal::Refusal;
use std::collections::HashMap;

const OFTEN: usize = 10;

fn write(call: &ManyCall, layouts: &mut Layouts) -> Result<ManyWritten, Refusal> {
    many::write_many(&call.shape, &call.numbers, &call.cells, layouts)
}

/// How often each kind is met, in the streams of two seeds together.
fn counted<K: IntoIterator<Item = String>>(
    kinds_of: impl Fn(&ManyCall, &mut Layouts) -> K,
) -> HashMap<String, usize> {
    let mut layouts = Layouts::default();
    let mut met = HashMap::new();
    for call in [0, 1].into_iter().flat_map(many_calls) {
        for kind in kinds_of(&call, &mut layouts) {
            *met.entry(kind).or_insert(0) += 1;
        }
    }
    met
}

fn assert_met_often(met: &HashMap<String, usize>, due: &[&str]) {
    let is_rare = |kind: &&&str| met.get(**kind).map_or(true, |count| *count < OFTEN);
    let rare: Vec<_> = due.iter().filter(is_rare).collect();
    assert!(rare.is_empty(), "rare: {:?} in {:?}", rare, met);
}

/// How the call is answered. A stop is told by where it is.
fn kind_of_answer(call: &ManyCall, layouts: &mut Layouts) -> String {
    let many = match write(call, layouts) {
        Ok(many) => many,
        Err(refusal) => return format!("{} before any write", refusal.number()),
    };
    let place = match many.fields.len() {
        0 => "first",
        count if count + 1 == call.numbers.len() => "last",
        _ => "middle",
    };
    match (many.stop, many.fields.len()) {
        (Some(refusal), _) => format!("{} at the {} field", refusal.number(), place),
        (None, 0) => "nothing to write".to_string(),
        (None, 1) => "1 written".to_string(),
        (None, count @ (63 | 64)) => format!("{} written", count),
        (None, _) => "some written".to_string(),
    }
}

const ANSWERS: [&str; 23] = [
    "14 before any write",
    "1 before any write",
    "3 before any write",
    "3 at the first field",
    "3 at the middle field",
    "3 at the last field",
    "5 at the first field",
    "5 at the middle field",
    "5 at the last field",
    "6 at the first field",
    "6 at the middle field",
    "6 at the last field",
    "15 at the first field",
    "15 at the middle field",
    "15 at the last field",
    "16 at the first field",
    "16 at the middle field",
    "16 at the last field",
    "nothing to write",
    "1 written",
    "some written",
    "63 written",
    "64 written",
];

#[test]
fn every_kind_of_answer_is_met_often() {
    let met = counted(|call, layouts| [kind_of_answer(call, layouts)]);
    assert_met_often(&met, &ANSWERS);
    assert_eq!(met.len(), ANSWERS.len());
}

/// What a call that is refused before any write is about, and what else is wrong where
/// the order decides.
fn kind_of_refused(call: &ManyCall, layouts: &mut Layouts) -> Option<String> {
    let kind = match write(call, layouts).err()? {
        Refusal::TooManyNumbers => return Some(kind_of_too_many(call, layouts)),
        Refusal::OutOfBounds => {
            let is_whole = |shape: &Shape, layouts: &mut Layouts| {
                fields_of(call, shape, layouts) == Some(call.numbers.len())
            };
            match call.shape.form {
                _ if is_whole(&in_form_1(&call.shape), layouts) => "form alone",
                2 if is_whole(&with_t_ranges(&call.shape), layouts) => "ranges alone",
                _ => "shape",
            }
        }
        _ if call.numbers.is_empty() => "3 of no numbers",
        _ => match fields_of(call, &call.shape, layouts) {
            Some(_) => "3 of whole fields",
            None => "3 of parts of a field",
        },
    };
    Some(kind.to_string())
}

fn in_form_1(shape: &Shape) -> Shape {
    Shape {
        form: 1,
        ..shape.clone()
    }
}

/// As the stream makes fields for too few or too many ranges.
fn with_t_ranges(shape: &Shape) -> Shape {
    let mut ranges = shape.ranges.clone();
    let last = ranges.last().copied().unwrap_or(2);
    ranges.resize(shape.t.min(16) as usize, last);
    Shape {
        ranges,
        ..shape.clone()
    }
}

/// How many whole fields of a shape the cells are.
fn fields_of(call: &ManyCall, shape: &Shape, layouts: &mut Layouts) -> Option<usize> {
    let bytes = cells::byte_count(&layouts.grant(shape, 256).ok()?);
    match call.cells.len() % bytes {
        0 => Some(call.cells.len() / bytes),
        _ => None,
    }
}

fn kind_of_too_many(call: &ManyCall, layouts: &mut Layouts) -> String {
    if layouts.grant(&call.shape, 256).is_err() {
        return "14 and 1".to_string();
    }
    let count = call.numbers.len();
    match fields_of(call, &call.shape, layouts) {
        Some(fields) if fields == count => format!("14 of {}", count),
        _ => "14 and a wrong length".to_string(),
    }
}

const BEFORE_ANY_WRITE: [&str; 11] = [
    "14 and 1",
    "14 and a wrong length",
    "14 of 65",
    "14 of 66",
    "14 of 128",
    "form alone",
    "ranges alone",
    "shape",
    "3 of no numbers",
    "3 of whole fields",
    "3 of parts of a field",
];

#[test]
fn calls_are_refused_before_any_write_in_every_way() {
    let met = counted(kind_of_refused);
    assert_met_often(&met, &BEFORE_ANY_WRITE);
}

/// The form of each field written with its generation or that no wit was turned, and of
/// the refused one whether its number is in range, by how many of the ranges in form 2.
fn kinds_of_fields(call: &ManyCall, layouts: &mut Layouts) -> Vec<String> {
    let many = match write(call, layouts) {
        Ok(many) => many,
        Err(_) => return Vec::new(),
    };
    let form = call.shape.form;
    let fields = many.fields.iter();
    let written = fields.map(|field| match field.turned {
        0 => format!("form {} turns none", form),
        _ => format!("form {} at {}", form, field.generation),
    });
    let stop = many.stop.map(|refusal| {
        let number = call.numbers[many.fields.len()];
        let ranges = &call.shape.ranges;
        let passed = ranges.iter().filter(|range| number >= **range).count();
        let place = match passed {
            0 => "in range",
            _ if passed == ranges.len() => "out of range",
            _ => "out of some ranges",
        };
        let form = if form == 2 { "form 2 " } else { "" };
        format!("{}{}: {}", form, place, refusal.number())
    });
    written.chain(stop).collect()
}

#[test]
fn fields_of_all_forms_at_every_generation() {
    let met = counted(kinds_of_fields);
    for form in [0, 1, 2] {
        for generation in 1..=16 {
            let kind = format!("form {} at {}", form, generation);
            assert_met_often(&met, &[&kind]);
        }
    }
    let others = [
        "form 0 turns none",
        "out of range: 3",
        "out of range: 6",
        "in range: 3",
        "in range: 5",
        "in range: 15",
        "in range: 16",
    ];
    assert_met_often(&met, &others);
    for refusal in [3, 5, 6, 15, 16] {
        let kind = format!("form 2 out of range: {}", refusal);
        assert_met_often(&met, &[&kind]);
    }
    assert_met_often(&met, &["form 2 out of some ranges: 6"]);
    for never in [
        "form 1 turns none",
        "form 2 turns none",
        "form 2 in range: 6",
    ] {
        assert!(!met.contains_key(never));
    }
}
