//! What the calls that resume a write in made streams are sure to hold.

#[path = "common/streams.rs"]
mod streams;

use second::cells;
use second::field;
use second::layout::{Layouts, Shape};
use second::protocol::{Call, Limits, ResumeCall};
use second::refusal::Refusal;
use second::resuming::{self, Resumed};
use std::collections::HashMap;

const OFTEN: usize = 5;

/// How often each kind is met, in the streams of two seeds together.
fn counted(
    kind_of: impl Fn(&ResumeCall, &mut Layouts) -> Option<String>,
) -> HashMap<String, usize> {
    let mut layouts = Layouts::default();
    let mut met = HashMap::new();
    for seed in [0, 1] {
        for call in streams::calls(seed, Limits::USUAL).iter() {
            if let Call::Resume(call) = call {
                if let Some(kind) = kind_of(call, &mut layouts) {
                    *met.entry(kind).or_insert(0) += 1;
                }
            }
        }
    }
    met
}

fn assert_met_often(met: &HashMap<String, usize>, due: &str) {
    let count = met.get(due).copied().unwrap_or(0);
    assert!(count >= OFTEN, "{}: {} in {:?}", due, count, met);
}

fn resume(call: &ResumeCall, layouts: &mut Layouts) -> Result<Resumed, Refusal> {
    resuming::resume(&call.shape, call.number, &call.cells, layouts)
}

/// What a read of the cells says.
fn state(call: &ResumeCall, layouts: &mut Layouts) -> String {
    let is_blank = call.cells.iter().all(|byte| *byte == 0);
    match field::read(&call.shape, &call.cells, layouts) {
        Ok(_) | Err(Refusal::Blank) if is_blank => "blank".to_string(),
        Ok(reading) if reading.left == 0 => "spent".to_string(),
        Ok(_) => "readable".to_string(),
        Err(refusal) => refusal.number().to_string(),
    }
}

fn is_above_all_ranges(shape: &Shape, number: u64) -> bool {
    shape.ranges.iter().all(|range| number >= *range)
}

fn kind_of_refused(call: &ResumeCall, layouts: &mut Layouts) -> Option<String> {
    let refusal = resume(call, layouts).err()?;
    let state = state(call, layouts);
    let number = match is_above_all_ranges(&call.shape, call.number) {
        true => ", number above",
        false => "",
    };
    let told = format!("{} on {}{}", refusal.number(), state, number);
    Some(format!("form {}: {}", call.shape.form, told))
}

#[test]
fn every_refusal_in_every_form() {
    let met = counted(kind_of_refused);
    for form in [0, 1] {
        for state in ["3", "blank", "readable", "spent", "15", "16"] {
            let refusal = if state == "3" { 3 } else { 6 };
            assert_met_often(
                &met,
                &format!("form {}: {} on {}, number above", form, refusal, state),
            );
        }
    }
    for form in [0, 1, 2] {
        assert_met_often(&met, &format!("form {}: 1 on 1", form));
        assert_met_often(&met, &format!("form {}: 3 on 3", form));
        for state in ["blank", "readable", "spent"] {
            assert_met_often(&met, &format!("form {}: 17 on {}", form, state));
        }
        for state in ["15", "16"] {
            assert_met_often(&met, &format!("form {}: 5 on {}", form, state));
        }
    }
    let by_the_order_of_form_2 = [
        "17 on blank",
        "17 on readable",
        "17 on spent",
        "5 on 15",
        "6 on 15",
        "6 on 16",
    ];
    for kind in by_the_order_of_form_2 {
        assert_met_often(&met, &format!("form 2: {}, number above", kind));
    }
    // In range of another generation than the one found.
    assert_met_often(&met, "form 2: 6 on 15");
    assert_met_often(&met, "form 2: 6 on 16");
}

/// The form, why there is no reading, how many groups are listed, and an extreme number.
fn kind_of_resumed(call: &ResumeCall, layouts: &mut Layouts) -> Option<String> {
    let resumed = resume(call, layouts).ok()?;
    let listed = match resumed.erased.len() {
        0 => "none",
        1 => "one",
        _ => "several",
    };
    let range = match &call.shape.ranges[..] {
        [v] => *v,
        ranges => ranges[resumed.written.generation - 1],
    };
    let edge = match call.number {
        0 => ", number 0",
        number if number == range - 1 => ", number last",
        _ => "",
    };
    let state = state(call, layouts);
    Some(format!(
        "form {}: {} {}{}",
        call.shape.form, state, listed, edge
    ))
}

#[test]
fn resumed_writes_of_every_form() {
    let met = counted(kind_of_resumed);
    for form in [0, 1, 2] {
        for listed in ["none", "one", "several"] {
            assert_met_often(&met, &format!("form {}: 15 {}", form, listed));
        }
        assert_met_often(&met, &format!("form {}: 16 several", form));
        for edge in ["0", "last"] {
            assert_met_often(&met, &format!("form {}: 15 several, number {}", form, edge));
        }
    }
}

#[test]
fn resumed_writes_of_every_generation_from_2_on() {
    let met = counted(|call, layouts| {
        let resumed = resume(call, layouts).ok()?;
        Some(resumed.written.generation.to_string())
    });
    for generation in 2..=16 {
        assert_met_often(&met, &generation.to_string());
    }
    assert!(!met.contains_key("1"));
}

/// By how many the zero groups are more than the count of a generation, where that decides.
#[test]
fn zero_groups_on_both_sides_of_every_count() {
    let met = counted(|call, layouts| {
        let layout = layouts.grant(&call.shape, 256).ok()?;
        let groups = cells::groups_of(&layout, &call.cells).ok()?;
        let zeros = groups.iter().filter(|group| **group == 0).count();
        let last = *layout.counts().last()?;
        let found = match resume(call, layouts) {
            Ok(resumed) => resumed.written.generation,
            Err(Refusal::LastGenerationUsed) if zeros + 1 == last => {
                return Some("one short of the last".to_string())
            }
            Err(_) => return None,
        };
        let is_last = if found == layout.generations() {
            "last"
        } else {
            "other"
        };
        match zeros - layout.count(found) {
            0 => Some(format!("exactly the {}", is_last)),
            _ if zeros + 1 == layout.count(found - 1) => {
                Some(format!("one short of the one before the {}", is_last))
            }
            _ => None,
        }
    });
    for kind in [
        "exactly the last",
        "exactly the other",
        "one short of the last",
        "one short of the one before the last",
        "one short of the one before the other",
    ] {
        assert_met_often(&met, kind);
    }
}
