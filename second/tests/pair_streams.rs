//! What the calls on two fields as one in made streams are sure to hold.

#[path = "common/streams.rs"]
mod streams;

use second::field;
use second::layout::Layouts;
use second::pairs;
use second::protocol::{Call, Limits, PairCall};
use second::refusal::Refusal;
use std::collections::HashMap;

const OFTEN: usize = 5;

/// How often each kind is met, in the streams of two seeds together.
fn counted(kind_of: impl Fn(&PairCall, &mut Layouts) -> Option<String>) -> HashMap<String, usize> {
    let mut layouts = Layouts::default();
    let mut met = HashMap::new();
    for seed in [0, 1] {
        for call in streams::calls(seed, Limits::USUAL).iter() {
            if let Call::Pair(call) = call {
                if let Some(kind) = kind_of(call, &mut layouts) {
                    *met.entry(kind).or_insert(0) += 1;
                }
            }
        }
    }
    met
}

fn assert_met_often(met: &HashMap<String, usize>, due: &str) {
    let count = met.get(due).copied().unwrap_or(0);
    assert!(count >= OFTEN, "{}: {} in {:?}", due, count, met);
}

fn operation(call: &PairCall) -> &'static str {
    match call.number {
        None => "read",
        Some(_) => "write",
    }
}

/// The refusal of a call, if it has one.
fn refusal_of(call: &PairCall, layouts: &mut Layouts) -> Option<Refusal> {
    match call.number {
        None => pairs::read(&call.pair, call.lent(), layouts).err(),
        Some(number) => pairs::write(&call.pair, number, call.lent(), layouts).err(),
    }
}

/// What one of the fields is by itself.
fn state(call: &PairCall, side: usize, layouts: &mut Layouts) -> String {
    let cells = &call.cells[side];
    let is_blank = cells.iter().all(|byte| *byte == 0);
    match field::read(&call.pair.shape(side), cells, layouts) {
        Ok(_) | Err(Refusal::Blank) if is_blank => "blank".to_string(),
        Ok(reading) if reading.left == 0 => "spent".to_string(),
        Ok(_) => "used".to_string(),
        Err(refusal) => refusal.number().to_string(),
    }
}

fn kind_of_states(call: &PairCall, layouts: &mut Layouts) -> Option<String> {
    let refusal = refusal_of(call, layouts).map_or(0, Refusal::number);
    let [first, second] = [0, 1].map(|side| state(call, side, layouts));
    Some(format!(
        "{} {}: {} {}",
        operation(call),
        refusal,
        first,
        second
    ))
}

#[test]
fn every_state_of_the_one_beside_every_state_of_the_other() {
    let met = counted(kind_of_states);
    for first in ["blank", "used", "spent"] {
        for second in ["blank", "used", "spent"] {
            let refusal = if (first, second) == ("spent", "spent") {
                5
            } else {
                0
            };
            assert_met_often(&met, &format!("write {}: {} {}", refusal, first, second));
            assert_met_often(&met, &format!("read 0: {} {}", first, second));
        }
        for second in ["1", "3", "15", "16"] {
            assert_met_often(&met, &format!("write {}: {} {}", second, first, second));
        }
    }
    for first in ["used", "spent"] {
        for second in ["1", "3", "15", "16"] {
            assert_met_often(&met, &format!("read {}: {} {}", second, first, second));
        }
    }
    for first in ["1", "3", "15", "16"] {
        for operation in ["read", "write"] {
            for second in ["blank", "used"] {
                assert_met_often(
                    &met,
                    &format!("{} {}: {} {}", operation, first, first, second),
                );
            }
        }
    }
}

#[test]
fn a_first_field_that_is_refused_decides_over_the_second() {
    let met = counted(|call, layouts| {
        let refusal = refusal_of(call, layouts)?;
        let [first, second] = [0, 1].map(|side| state(call, side, layouts));
        let are_both_refused = [&first, &second]
            .iter()
            .all(|state| state.parse::<u8>().is_ok());
        match are_both_refused && first != second {
            true => Some(format!("{} over {}", refusal.number(), second)),
            false => None,
        }
    });
    for kind in [
        "3 over 15",
        "3 over 16",
        "15 over 3",
        "16 over 3",
        "15 over 1",
        "3 over 1",
    ] {
        assert_met_often(&met, kind);
    }
}

#[test]
fn unequal_ranges_and_numbers_out_of_range() {
    let met = counted(|call, layouts| {
        let refusal = refusal_of(call, layouts)?.number();
        let first = state(call, 0, layouts);
        let second = state(call, 1, layouts);
        Some(match refusal {
            18 => format!("18 of a {}, first {}", operation(call), first),
            6 => format!("6 first {}, second {}", first, second),
            _ => format!("{} of form {}", refusal, call.pair.form.min(3)),
        })
    });
    for operation in ["read", "write"] {
        for first in ["used", "spent", "1", "3"] {
            assert_met_often(&met, &format!("18 of a {}, first {}", operation, first));
        }
    }
    for first in ["used", "blank", "spent", "15", "16"] {
        assert_met_often(&met, &format!("6 first {}, second blank", first));
        assert_met_often(&met, &format!("6 first {}, second used", first));
    }
    for second in ["1", "3", "15", "16", "spent"] {
        assert_met_often(&met, &format!("6 first spent, second {}", second));
    }
    for kind in [
        "1 of form 0",
        "1 of form 1",
        "1 of form 2",
        "1 of form 3",
        "11 of form 1",
    ] {
        assert_met_often(&met, kind);
    }
}

/// Which field is written by how much of the range, and whether the sum goes round.
#[test]
fn sums_on_both_sides_of_the_range() {
    let met = counted(|call, layouts| {
        let number = call.number?;
        let told = pairs::write(&call.pair, number, call.lent(), layouts).ok()?;
        let mut after = call.cells.clone();
        after[told.field] = told.written.cells;
        let share = field::read(&call.pair.shape(told.field), &after[told.field], layouts);
        let goes_round = match share {
            Ok(share) => share.number > number,
            Err(_) => false,
        };
        let like = if call.pair.t[0] == call.pair.t[1] {
            "equal t"
        } else {
            "unequal t"
        };
        Some(format!(
            "form {} field {}, round {}, {}",
            call.pair.form, told.field, goes_round, like
        ))
    });
    for form in [0, 1] {
        for field in [0, 1] {
            for round in [true, false] {
                for like in ["equal t", "unequal t"] {
                    let kind = format!("form {} field {}, round {}, {}", form, field, round, like);
                    assert_met_often(&met, &kind);
                }
            }
        }
    }
}

/// From blank to past the last write of the second field.
#[test]
fn chains_go_through_both_fields() {
    let mut layouts = Layouts::default();
    let (mut length, mut through_both) = (0, 0);
    let mut left_by_the_last = [Vec::new(), Vec::new()];
    for call in streams::calls(1, Limits::USUAL).iter() {
        let (call, number) = match call {
            Call::Pair(call) => match call.number {
                Some(number) => (call, number),
                None => continue,
            },
            _ => continue,
        };
        length = if call.cells == left_by_the_last {
            length + 1
        } else {
            1
        };
        left_by_the_last = call.cells.clone();
        match pairs::write(&call.pair, number, call.lent(), &mut layouts) {
            Ok(told) => left_by_the_last[told.field] = told.written.cells,
            Err(Refusal::LastGenerationUsed) if length > call.pair.t[0] + call.pair.t[1] => {
                through_both += 1;
            }
            Err(_) => {}
        }
    }
    assert!(through_both >= OFTEN, "{}", through_both);
}
