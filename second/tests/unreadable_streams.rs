//! What the made streams are sure to hold of cells that are refused with 15 or 16.

#[path = "common/streams.rs"]
mod streams;

use second::dump;
use second::field;
use second::judging;
use second::layout::{Layouts, Shape};
use second::many;
use second::newdump;
use second::protocol::{Call, Limits, NewDumpCall};
use second::refusal::Refusal;
use std::collections::HashMap;
use std::sync::Arc;

const OFTEN: usize = 10;
const OPERATIONS: [&str; 6] = ["read", "write", "record", "new record", "stop", "judge"];

fn calls(seed: u64) -> Arc<Vec<Call>> {
    streams::calls(seed, Limits::USUAL)
}

/// A field that is refused, and by what operation.
type Refused = (&'static str, Shape, Refusal);

/// The fields of a call that are refused for themselves.
fn refused_fields(call: &Call, layouts: &mut Layouts) -> Vec<Refused> {
    match call {
        Call::Read { shape, cells } => {
            let refusal = field::read(shape, cells, layouts).err();
            refusal.map(|refusal| ("read", shape.clone(), refusal))
        }
        Call::Write {
            shape,
            number,
            cells,
        } => {
            let refusal = field::write(shape, *number, cells, layouts).err();
            refusal.map(|refusal| ("write", shape.clone(), refusal))
        }
        Call::Many(call) => {
            let many = many::write_many(&call.shape, &call.numbers, &call.cells, layouts);
            let refusal = many.ok().and_then(|many| many.stop);
            refusal.map(|refusal| ("stop", call.shape.clone(), refusal))
        }
        Call::Judge(call) => {
            let judged = judging::judge(&call.shape, &call.before, &call.after, layouts);
            let refusal = judged.err();
            refusal.map(|refusal| ("judge", call.shape.clone(), refusal))
        }
        Call::Walk { dump } => return refused_records(dump, layouts),
        Call::NewDump(NewDumpCall::Walk { dump }) => return refused_new_records(dump, layouts),
        _ => None,
    }
    .into_iter()
    .collect()
}

fn refused_records(dump: &[u8], layouts: &mut Layouts) -> Vec<Refused> {
    let records = dump::walk(dump, layouts).records.into_iter();
    let refused = records.filter_map(|record| {
        let shape = record.shape.in_form_0();
        Some(("record", shape, record.outcome.err()?))
    });
    refused.collect()
}

fn refused_new_records(dump: &[u8], layouts: &mut Layouts) -> Vec<Refused> {
    let records = newdump::walk(dump, layouts).records.into_iter();
    let refused = records.filter_map(|record| {
        let refusal = record.outcome.err()?;
        Some(("new record", record.layout, refusal))
    });
    refused.collect()
}

/// Which generation is told, and of 15 how many groups are unerased beside its count.
fn kind_of(shape: &Shape, refusal: Refusal, layouts: &mut Layouts) -> Option<String> {
    let layout = layouts.grant(shape, 256).ok()?;
    let of_layout = |generation: usize| match generation {
        1 => "first",
        _ if generation == layout.generations() => "last",
        _ => "middle",
    };
    match refusal {
        Refusal::Miscounted {
            generation,
            unerased,
        } => {
            let beside = match unerased {
                0 => "none",
                _ if unerased < layout.count(generation) => "fewer",
                _ => "more",
            };
            Some(format!("15 {} {}", of_layout(generation), beside))
        }
        Refusal::Beyond { generation } => Some(format!("16 {}", of_layout(generation))),
        _ => None,
    }
}

const KINDS: [&str; 8] = [
    "15 middle fewer",
    "15 middle more",
    "15 last none",
    "15 last fewer",
    "15 last more",
    "16 first",
    "16 middle",
    "16 last",
];

#[test]
fn every_kind_is_met_often_by_every_operation() {
    for seed in 0..2 {
        let mut layouts = Layouts::default();
        let mut met: HashMap<(&str, String), usize> = HashMap::new();
        for call in calls(seed).iter() {
            for (operation, shape, refusal) in refused_fields(call, &mut layouts) {
                if let Some(kind) = kind_of(&shape, refusal, &mut layouts) {
                    *met.entry((operation, kind)).or_default() += 1;
                }
            }
        }
        for operation in OPERATIONS {
            for kind in KINDS {
                let count = met.remove(&(operation, kind.to_string())).unwrap_or(0);
                assert!(count >= OFTEN, "{} {}: {}", operation, kind, count);
            }
        }
        assert!(met.is_empty(), "{:?}", met);
    }
}

#[test]
fn every_generation_is_told_often() {
    let mut layouts = Layouts::default();
    let mut met: HashMap<(u8, usize), usize> = HashMap::new();
    for call in calls(0).iter().chain(calls(1).iter()) {
        for (_, _, refusal) in refused_fields(call, &mut layouts) {
            if let Some(told) = refusal.carried().first() {
                *met.entry((refusal.number(), *told)).or_default() += 1;
            }
        }
    }
    let due = (2..=16).map(|generation| (15, generation));
    for told in due.chain((1..=16).map(|generation| (16, generation))) {
        let count = met.remove(&told).unwrap_or(0);
        assert!(count >= OFTEN, "{:?}: {}", told, count);
    }
    assert!(met.is_empty(), "{:?}", met);
}

/// A number out of range on cells that would be refused with 15 or 16.
#[test]
fn writes_are_often_refused_with_6_before_15_and_16() {
    let mut layouts = Layouts::default();
    let mut met: HashMap<u8, usize> = HashMap::new();
    for call in calls(1).iter() {
        if let Call::Write {
            shape,
            number,
            cells,
        } = call
        {
            let refusal = field::write(shape, *number, cells, &mut layouts).err();
            let of_read = field::read(shape, cells, &mut layouts).err();
            if let (Some(Refusal::NumberOutOfRange), Some(unreadable)) = (refusal, of_read) {
                *met.entry(unreadable.number()).or_default() += 1;
            }
        }
    }
    for unreadable in [15, 16] {
        let count = met.get(&unreadable).copied().unwrap_or(0);
        assert!(count >= OFTEN, "{}: {}", unreadable, count);
    }
}
