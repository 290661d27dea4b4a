//! What the calls that judge a field in made streams are sure to hold.

#[path = "common/judge_calls.rs"]
mod judge_calls;

use judge_calls::judge_calls;
use second::cells;
use second::field;
use second::judging::{self, Judged};
use second::layout::{Layout, Layouts};
use second::protocol::JudgeCall;
use second::refusal::Refusal;
use std::collections::HashMap;

const OFTEN: usize = 5;

/// How often each kind is met, in the streams of two seeds together.
fn counted(kind_of: impl Fn(&JudgeCall, &mut Layouts) -> Option<String>) -> HashMap<String, usize> {
    let mut layouts = Layouts::default();
    let mut met = HashMap::new();
    for call in [0, 1].into_iter().flat_map(judge_calls) {
        if let Some(kind) = kind_of(&call, &mut layouts) {
            *met.entry(kind).or_insert(0) += 1;
        }
    }
    met
}

fn assert_met_often(met: &HashMap<String, usize>, due: &[&str]) {
    let is_rare = |kind: &&&str| met.get(**kind).map_or(true, |count| *count < OFTEN);
    let rare: Vec<_> = due.iter().filter(is_rare).collect();
    assert!(rare.is_empty(), "rare: {:?} in {:?}", rare, met);
}

fn judge(call: &JudgeCall, layouts: &mut Layouts) -> Result<Judged, Refusal> {
    judging::judge(&call.shape, &call.before, &call.after, layouts)
}

fn is_blank(cells: &[u8]) -> bool {
    cells.iter().all(|byte| *byte == 0)
}

/// The generation that is due on the before cells, or why they are refused.
fn due_on(call: &JudgeCall, layouts: &mut Layouts) -> Result<usize, Refusal> {
    match field::read(&call.shape, &call.before, layouts) {
        Ok(_) | Err(Refusal::Blank) if is_blank(&call.before) => Ok(1),
        Ok(reading) => Ok(reading.generation + 1),
        Err(refusal) => Err(refusal),
    }
}

/// Whose refusal it is, and what else is wrong where the order decides.
fn kind_of_refused(call: &JudgeCall, layouts: &mut Layouts) -> Option<String> {
    let refusal = judge(call, layouts).err()?;
    if refusal == Refusal::OutOfBounds {
        return Some("1".to_string());
    }
    let of_after = field::read(&call.shape, &call.after, layouts).err();
    Some(match (due_on(call, layouts), of_after) {
        (Err(before), None) => format!("before {}", before.number()),
        (Err(before), Some(after)) => {
            format!("before {} and after {}", before.number(), after.number())
        }
        (Ok(due), Some(after)) if due as u64 > call.shape.t => {
            format!("after {} on spent cells", after.number())
        }
        (Ok(1), Some(after)) => format!("after {} on blank cells", after.number()),
        (Ok(_), Some(after)) => format!("after {}", after.number()),
        (Ok(_), None) => panic!("neither field is refused"),
    })
}

#[test]
fn both_fields_are_refused_in_every_way() {
    let met = counted(kind_of_refused);
    assert_met_often(&met, &["1"]);
    for before in [3, 15, 16] {
        assert_met_often(&met, &[&format!("before {}", before)]);
    }
    for after in [3, 11, 15, 16] {
        assert_met_often(&met, &[&format!("after {}", after)]);
        assert_met_often(&met, &[&format!("after {} on blank cells", after)]);
        assert_met_often(&met, &[&format!("after {} on spent cells", after)]);
    }
    let other_decides = [
        "before 15 and after 3",
        "before 16 and after 3",
        "before 3 and after 15",
    ];
    assert_met_often(&met, &other_decides);
    assert!(met.keys().all(|kind| !kind.starts_with("before 11")));
}

/// Which of the zero groups before are erased after, from generation 2 on.
fn spare_groups(layout: &Layout, call: &JudgeCall) -> Vec<bool> {
    let groups = |cells: &[u8]| cells::groups_of(layout, cells).expect("it is not refused");
    let (before, after) = (groups(&call.before), groups(&call.after));
    let zero = before
        .iter()
        .zip(&after)
        .filter(|(before, _)| **before == 0);
    zero.map(|(_, after)| *after == layout.erased()).collect()
}

fn is_leftmost(spare: &[bool]) -> bool {
    let first = spare.iter().take_while(|is_spare| **is_spare).count();
    !spare[first..].contains(&true)
}

/// The form and the generation of a right write, and how its spare groups lie.
fn kind_of_right(call: &JudgeCall, layouts: &mut Layouts) -> Option<String> {
    let number = match judge(call, layouts) {
        Ok(Judged::Yes { number }) => number,
        _ => return None,
    };
    let layout = layouts.grant(&call.shape, 256).ok()?;
    let due = due_on(call, layouts).ok()?;
    let kind = match due {
        1 if is_blank(&call.after) => "stays blank",
        1 => "first",
        _ => match spare_groups(&layout, call) {
            spare if !spare.contains(&true) => "none spare",
            spare if is_leftmost(&spare) => "leftmost spare",
            _ => "others spare",
        },
    };
    let edge = match number {
        0 => ", number 0",
        _ if number == layout.range(due) - 1 => ", number last",
        _ => "",
    };
    Some(format!("form {}: {}{}", call.shape.form, kind, edge))
}

#[test]
fn right_writes_of_every_form_by_every_kind_of_choice() {
    let met = counted(kind_of_right);
    for form in [0, 1, 2] {
        for kind in ["first", "none spare", "leftmost spare", "others spare"] {
            for edge in ["", ", number last"] {
                assert_met_often(&met, &[&format!("form {}: {}{}", form, kind, edge)]);
            }
        }
        assert_met_often(&met, &[&format!("form {}: others spare, number 0", form)]);
    }
    assert_met_often(
        &met,
        &["form 0: stays blank, number 0", "form 1: first, number 0"],
    );
    assert!(!met.contains_key("form 1: stays blank, number 0"));
    assert!(!met.contains_key("form 2: stays blank, number 0"));
}

#[test]
fn right_writes_of_every_generation() {
    let met = counted(|call, layouts| match judge(call, layouts) {
        Ok(Judged::Yes { .. }) => Some(due_on(call, layouts).ok()?.to_string()),
        _ => None,
    });
    for generation in 1..=16 {
        assert_met_often(&met, &[&generation.to_string()]);
    }
}

/// What is wrong with a pair of fields that read.
fn kind_of_wrong(call: &JudgeCall, layouts: &mut Layouts) -> Option<String> {
    if judge(call, layouts) != Ok(Judged::No) {
        return None;
    }
    let due = due_on(call, layouts).ok()?;
    let read = field::read(&call.shape, &call.after, layouts)
        .ok()?
        .generation;
    let fell = (call.before.iter().zip(&call.after)).any(|(before, after)| before & !after != 0);
    let kind = match read {
        _ if due as u64 > call.shape.t => "spent",
        _ if read > due => "skipped",
        _ if read < due && call.before == call.after => "as it was",
        _ if read < due => "back",
        _ if fell => "a 1 became 0",
        _ => "a group is not erased",
    };
    Some(kind.to_string())
}

#[test]
fn wrong_writes_of_every_kind() {
    let met = counted(kind_of_wrong);
    let kinds = [
        "spent",
        "skipped",
        "as it was",
        "back",
        "a 1 became 0",
        "a group is not erased",
    ];
    assert_met_often(&met, &kinds);
}
