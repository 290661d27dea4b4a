//! What the calls on new dumps of made streams are sure to hold.

#[path = "common/new_dump_calls.rs"]
mod new_dump_calls;

use new_dump_calls::{new_dump_calls, streams};
use second::answers;
use second::dump::{self, Ending};
use second::layout::Layouts;
use second::newdump;
use second::protocol::{Call, Limits, NewDumpCall};
use std::collections::HashSet;

/// Of full size, for old dumps and HEX texts, behind those for new dumps.
const CALLS_BEHIND: usize = 6;
const LARGE_CALLS_BEHIND: usize = 13;

fn answer(call: &NewDumpCall, layouts: &mut Layouts) -> String {
    answers::answer(&Call::NewDump(call.clone()), layouts)
}

fn assert_met(met: &HashSet<String>, due: &[&str]) {
    let missing: Vec<_> = due.iter().filter(|kind| !met.contains(**kind)).collect();
    assert!(missing.is_empty(), "not met: {:?}", missing);
}

/// The operation and its refusal, for a record the refusal alone.
fn kind_of(line: &str) -> String {
    let words: Vec<&str> = line.split(' ').collect();
    match words[..] {
        ["record", _, _, "2", _, t, ..] => {
            let ranges: usize = t.parse().expect("t is a number");
            format!("record {}", words[8 + ranges])
        }
        ["record", _, _, _, _, _, _, _, _, outcome, ..] => format!("record {}", outcome),
        ["stop", "7", "0"] => "stop at the list".to_string(),
        [operation, refusal, ..] => format!("{} {}", operation, refusal),
        _ => line.to_string(),
    }
}

const KINDS: [&str; 28] = [
    "record 0",
    "record 1",
    "record 3",
    "record 11",
    "record 15",
    "record 16",
    "end",
    "stop at the list",
    "stop 7",
    "stop 8",
    "new 0",
    "new 7",
    "new 8",
    "new 9",
    "new 13",
    "old 0",
    "old 7",
    "old 8",
    "old 9",
    "old 12",
    "listed 0",
    "listed 1",
    "listed 9",
    "export 0",
    "export 1",
    "export 3",
    "export 9",
    "export 10",
];

#[test]
fn every_kind_of_answer_is_met_often() {
    for seed in 0..2 {
        let mut layouts = Layouts::default();
        let mut met = Vec::new();
        for call in new_dump_calls(seed) {
            met.extend(answer(&call, &mut layouts).lines().map(kind_of));
        }
        for kind in KINDS {
            let count = met.iter().filter(|other| *other == kind).count();
            let least = if kind.ends_with(" 8") { 1 } else { 15 };
            assert!(count >= least, "{}: {}", kind, count);
        }
        assert!(met.iter().all(|kind| KINDS.contains(&kind.as_str())));
    }
}

/// How many layouts a list has, which of them are used, and their forms.
fn kinds_of_list(walk: &newdump::Walk) -> Vec<String> {
    let count = walk.listed.len();
    let uses = |number: usize| walk.records.iter().any(|record| record.number == number);
    let is_again = |number: &usize| walk.listed[..*number].contains(&walk.listed[*number]);
    let again = (0..count).find(is_again);
    let last_used = count > 0 && uses(count - 1);
    let mut kinds = vec![
        format!("{} layouts, last used {}", count, last_used),
        format!("again used {:?}", again.map(uses)),
        format!("unused {}", !(0..count).all(uses)),
    ];
    let forms = walk.listed.iter().map(|layout| layout.form);
    kinds.extend(forms.map(|form| format!("form {}", form)));
    kinds
}

#[test]
fn lists_of_every_kind_are_walked_to_their_end() {
    let mut met = HashSet::new();
    for call in new_dump_calls(0) {
        if let NewDumpCall::Walk { dump } = call {
            let walk = newdump::walk(&dump, &mut Layouts::default());
            if walk.ending == Ending::EndOfDump {
                met.extend(kinds_of_list(&walk));
            }
        }
    }
    let due = [
        "0 layouts, last used false",
        "1 layouts, last used true",
        "63 layouts, last used true",
        "64 layouts, last used true",
        "64 layouts, last used false",
        "again used Some(true)",
        "again used Some(false)",
        "unused true",
        "unused false",
        "form 0",
        "form 1",
        "form 2",
        "form 255",
        "form 9223372036854775807",
    ];
    assert_met(&met, &due);
}

/// What a move or an export makes, and the room for it.
fn made_and_room(call: &NewDumpCall) -> Option<(&'static str, usize, u64)> {
    let moved = |word, moved: Option<Vec<u8>>, room| Some((word, moved?.len(), room));
    match call {
        NewDumpCall::MoveToNew {
            output_length,
            dump,
        } => moved("new", newdump::moved_to_new(dump).ok(), *output_length),
        NewDumpCall::MoveToOld {
            output_length,
            dump,
        } => moved("old", newdump::moved_to_old(dump).ok(), *output_length),
        NewDumpCall::ExportLayout {
            shape,
            output_length,
        } => {
            let listed = newdump::listed_bytes(shape);
            Some(("listed", listed.len(), *output_length))
        }
        NewDumpCall::ExportRecord {
            exported,
            output_length,
            cells,
        } => {
            let record = newdump::record_bytes(exported.serial, exported.number, cells);
            Some(("export", record.len(), *output_length))
        }
        NewDumpCall::Walk { .. } => None,
    }
}

#[test]
fn outputs_at_their_edges() {
    let mut met = HashSet::new();
    let mut layouts = Layouts::default();
    for call in new_dump_calls(0) {
        let (word, made, room) = match made_and_room(&call) {
            Some(parts) => parts,
            None => continue,
        };
        let answer = answer(&call, &mut layouts);
        let refusal = answer
            .split_whitespace()
            .nth(1)
            .expect("an answer has a number");
        let longer = room as i64 - made as i64;
        met.insert(format!("{} {} by {}", word, refusal, longer));
        if room == 0 {
            met.insert(format!("{} {} into none", word, refusal));
        }
    }
    for word in ["new", "old", "listed", "export"] {
        let due = ["9 by -1", "0 by 0", "0 by 1", "9 into none"];
        for edge in due {
            assert_met(&met, &[&format!("{} {}", word, edge)]);
        }
    }
    assert_met(&met, &["old 0 into none"]);
}

#[test]
fn moves_of_63_to_66_layouts() {
    let mut met = HashSet::new();
    for call in new_dump_calls(1) {
        if let NewDumpCall::MoveToNew { dump, .. } = call {
            let records = dump::walk(&dump, &mut Layouts::default()).records;
            let mut shapes = Vec::new();
            for record in &records {
                if !shapes.contains(&record.shape) {
                    shapes.push(record.shape);
                }
            }
            let refused = newdump::moved_to_new(&dump).err();
            let refusal = refused.map_or(0, |refusal| refusal.number());
            met.insert(format!("{} layouts: {}", shapes.len(), refusal));
            let again = records.len() > shapes.len();
            met.insert(format!("{} again {}", shapes.len(), again));
        }
    }
    let due = [
        "0 layouts: 0",
        "1 layouts: 0",
        "2 again true",
        "63 layouts: 0",
        "64 layouts: 0",
        "64 layouts: 7",
        "64 again true",
        "65 layouts: 7",
        "65 layouts: 13",
        "66 layouts: 13",
    ];
    assert_met(&met, &due);
}

#[test]
fn forms_that_cannot_move_back_are_used_and_unused() {
    let mut met = HashSet::new();
    for call in new_dump_calls(1) {
        if let NewDumpCall::MoveToOld { dump, .. } = call {
            let walk = newdump::walk(&dump, &mut Layouts::default());
            if walk.ending == Ending::EndOfDump {
                let used = walk.records.iter().any(|record| record.layout.form != 0);
                let listed = walk.listed.iter().any(|layout| layout.form != 0);
                met.insert(format!("listed {}, used {}", listed, used));
            }
        }
    }
    let due = [
        "listed false, used false",
        "listed true, used false",
        "listed true, used true",
    ];
    assert_met(&met, &due);
}

/// The answers to the calls of full size, without the output's bytes, and of a walk
/// its ending.
fn full_size_answers(limits: Limits, count: usize, behind: usize) -> Vec<String> {
    let calls = streams::calls(1, limits);
    let end = calls.len() - behind;
    let answers = calls[end - count..end]
        .iter()
        .map(|call| answers::answer(call, &mut Layouts::default()));
    let kind = |answer: String| match answer.split(' ').collect::<Vec<_>>()[..] {
        [word @ ("new" | "old"), "0", length, ..] => format!("{} 0 {}", word, length.trim()),
        [word @ ("new" | "old"), refusal, ..] => format!("{} {}", word, refusal.trim()),
        _ => answer
            .lines()
            .last()
            .map(|ending| ending.chars().take(9).collect())
            .expect("a walk has an ending"),
    };
    answers.map(kind).collect()
}

/// What ends with a whole record or, at times, with one cut off.
fn assert_whole_or_cut(answer: &str, whole: &str, cut: &str) {
    assert!(answer.starts_with(whole) || answer == cut, "{}", answer);
}

#[test]
fn calls_of_full_size() {
    let mut usual = full_size_answers(Limits::USUAL, 10, CALLS_BEHIND);
    assert_whole_or_cut(&usual.remove(8), "end", "stop 7 65");
    assert_whole_or_cut(&usual.remove(1), "new 13", "new 7");
    assert_whole_or_cut(&usual.remove(0), "new 9", "new 7");
    let due = [
        "old 8", "new 8", "old 8", "old 9", "new 8", "new 9", "stop 8",
    ];
    assert_eq!(usual, due);
    let mut large = full_size_answers(Limits::LARGE, 12, LARGE_CALLS_BEHIND);
    assert_whole_or_cut(&large.remove(10), "end", "stop 7 65");
    assert_whole_or_cut(&large.remove(3), "new 13", "new 7");
    assert_whole_or_cut(&large.remove(2), "new 0 ", "new 7");
    let due = [
        "old 9",
        "new 9",
        "old 8",
        "new 8",
        "old 8",
        "old 0 65536",
        "new 8",
        "new 0 65536",
        "stop 8",
    ];
    assert_eq!(large, due);
}
