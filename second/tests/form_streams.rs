//! What the made streams are sure to hold of forms 1 and 2 beside form 0, and of forms that
//! are none.

#[path = "common/streams.rs"]
mod streams;

use second::answers;
use second::cells;
use second::field;
use second::layout::{Layouts, OldShape, Shape};
use second::protocol::{Call, Limits};
use std::collections::{HashMap, HashSet};
use std::mem;
use std::sync::Arc;

fn calls(seed: u64) -> Arc<Vec<Call>> {
    streams::calls(seed, Limits::USUAL)
}

/// Shapes that are laid out with all groups offered, and in which forms. Form 2 counts with
/// equal ranges.
fn forms_laid_out(calls: &[Call]) -> HashMap<OldShape, HashSet<u64>> {
    let mut forms: HashMap<OldShape, HashSet<u64>> = HashMap::new();
    for call in calls {
        if let Call::Layout {
            shape,
            offered: 256,
        } = call
        {
            let Shape { form, m, t, .. } = *shape;
            let mut ranges = shape.ranges.clone();
            ranges.dedup();
            if let [v] = ranges[..] {
                forms.entry(OldShape { m, t, v }).or_default().insert(form);
            }
        }
    }
    forms
}

fn forms_differ(shape: &OldShape, layouts: &mut Layouts) -> bool {
    let mut counts = |form: u64| {
        let layout = layouts.grant(&shape.in_form(form), 256);
        layout.map(|layout| layout.counts().to_vec())
    };
    counts(0) != counts(1)
}

#[test]
fn every_range_where_the_lists_differ_is_laid_out_with_its_neighbours() {
    for seed in 0..2 {
        let forms = forms_laid_out(&calls(seed));
        let mut layouts = Layouts::default();
        let shapes = forms.keys();
        let differing: HashSet<&OldShape> = shapes
            .filter(|shape| forms_differ(shape, &mut layouts))
            .collect();
        for shape in &differing {
            for v in [shape.v - 1, shape.v, shape.v + 1] {
                let in_forms = &forms[&OldShape { v, ..**shape }];
                assert!(in_forms.contains(&0) && in_forms.contains(&1));
            }
            assert!(forms[*shape].contains(&2));
        }
        let with_m_2 = differing.iter().filter(|shape| shape.m == 2);
        assert_eq!(with_m_2.count(), 153);
        let pairs = differing.iter().map(|shape| (shape.m, shape.t));
        assert_eq!(pairs.collect::<HashSet<(u64, u64)>>().len(), 3 * 15);
    }
}

/// Chains of a form from blank cells whose write behind t accepted ones is refused.
fn whole_chains(form: u64, calls: &[Call]) -> usize {
    let mut layouts = Layouts::default();
    let (mut chains, mut accepted) = (0, 0);
    let mut left_by_the_last = Vec::new();
    for call in calls {
        let (shape, number, cells) = match call {
            Call::Write {
                shape,
                number,
                cells,
            } if shape.form == form => (shape, *number, cells),
            _ => continue,
        };
        let is_blank = cells.iter().all(|byte| *byte == 0);
        if is_blank || *cells != left_by_the_last {
            accepted = 0;
        }
        let answer = field::write(shape, number, cells, &mut layouts);
        let refusal = answer.as_ref().err().map(|refusal| refusal.number());
        chains += usize::from(refusal == Some(5) && accepted == shape.t);
        accepted += u64::from(answer.is_ok());
        left_by_the_last = answer.map_or_else(|_| cells.clone(), |written| written.cells);
    }
    chains
}

#[test]
fn chains_of_forms_1_and_2_go_to_the_end_and_past_it() {
    for seed in 0..2 {
        let calls = calls(seed);
        for form in [1, 2] {
            let chains = whole_chains(form, &calls);
            assert!(chains > 100, "only {} of form {}", chains, form);
        }
    }
}

/// Whether all bits are 0 but for some behind the last wit.
fn is_blank_but_for_left_over_bits(shape: &Shape, bytes: &[u8], layouts: &mut Layouts) -> bool {
    let layout = layouts.grant(shape, 256).expect("the shape is in bounds");
    let left_over = 8 * cells::byte_count(&layout) - layout.wits();
    match bytes.split_last() {
        Some((last, others)) if bytes.len() == cells::byte_count(&layout) => {
            *last != 0 && last >> left_over == 0 && others.iter().all(|byte| *byte == 0)
        }
        _ => false,
    }
}

/// What a read or write of form 1 is about, and its refusal.
fn kind_in_form_1(call: &Call, layouts: &mut Layouts) -> Option<String> {
    let answer = answers::answer(call, layouts);
    let refusal = answer.split_whitespace().nth(1)?.to_string();
    let (operation, shape, cells, above) = match call {
        Call::Read { shape, cells } => ("read", shape, cells, ""),
        Call::Write {
            shape,
            number,
            cells,
        } => {
            let above = match number.checked_sub(*shape.ranges.first()?) {
                None => " in range",
                Some(0) => " v",
                Some(_) => " above v",
            };
            ("write", shape, cells, above)
        }
        _ => return None,
    };
    if shape.form != 1 || refusal == "1" {
        return None;
    }
    let state = match cells.iter().all(|byte| *byte == 0) {
        true if refusal != "3" => " blank",
        false if is_blank_but_for_left_over_bits(shape, cells, layouts) => " left over",
        _ => "",
    };
    Some(format!("{}{}{}: {}", operation, state, above, refusal))
}

const KINDS_IN_FORM_1: [&str; 14] = [
    "read blank: 11",
    "read left over: 3",
    "read: 0",
    "read: 3",
    "read: 15",
    "read: 16",
    "write blank in range: 0",
    "write blank v: 6",
    "write blank above v: 6",
    "write left over in range: 3",
    "write in range: 5",
    "write in range: 15",
    "write in range: 16",
    "write v: 6",
];

#[test]
fn blank_and_damaged_cells_of_form_1_are_read_and_written() {
    for seed in 0..2 {
        let mut layouts = Layouts::default();
        let calls = calls(seed);
        let kinds = calls
            .iter()
            .filter_map(|call| kind_in_form_1(call, &mut layouts));
        let met: HashSet<String> = kinds.collect();
        let missing: Vec<&&str> = KINDS_IN_FORM_1
            .iter()
            .filter(|kind| !met.contains(**kind))
            .collect();
        assert!(missing.is_empty(), "not met: {:?}", missing);
        assert!(!met
            .iter()
            .any(|kind| kind.starts_with("write") && kind.ends_with(": 11")));
    }
}

/// The operation and the form of a call that would be accepted in form 1 or, with more than
/// one range, in form 2, which is told too.
fn form_that_decides(call: &Call, layouts: &mut Layouts) -> Option<(u8, u64, u64)> {
    let mut call = call.clone();
    let (form, accepted) = match &mut call {
        Call::Layout { shape, .. } | Call::Read { shape, .. } | Call::Write { shape, .. } => {
            let accepted = if shape.ranges.len() > 1 { 2 } else { 1 };
            (mem::replace(&mut shape.form, accepted), accepted)
        }
        _ => return None,
    };
    let answer = answers::answer(&call, layouts);
    match answer.split_whitespace().nth(1) {
        Some("0") => Some((call.to_bytes()[0], form, accepted)),
        _ => None,
    }
}

#[test]
fn forms_above_2_alone_decide() {
    let mut layouts = Layouts::default();
    let both = [0, 1].map(calls);
    let deciding = both
        .iter()
        .flat_map(|calls| calls.iter())
        .filter_map(|call| form_that_decides(call, &mut layouts));
    let met: HashSet<(u8, u64, u64)> = deciding.collect();
    for form in [3, 4, 255, 258, 1 << 32, (1 << 32) + 2, u64::MAX] {
        for operation in 1..=3 {
            for accepted in [1, 2] {
                let due = (operation, form, accepted);
                assert!(met.contains(&due), "{:?}", due);
            }
        }
    }
}
