//! The lines that answer the calls on new dumps.

use super::{ending_line, line, outcome_fields, stored_line};
use crate::layout::Layouts;
use crate::newdump::{self, Record};
use crate::protocol::NewDumpCall;

pub fn answer(call: &NewDumpCall, layouts: &mut Layouts) -> String {
    match call {
        NewDumpCall::Walk { dump } => walk_lines(dump, layouts),
        NewDumpCall::MoveToNew {
            output_length,
            dump,
        } => stored_line("new", *output_length, |output| {
            newdump::move_to_new(dump, output)
        }),
        NewDumpCall::MoveToOld {
            output_length,
            dump,
        } => stored_line("old", *output_length, |output| {
            newdump::move_to_old(dump, output)
        }),
        NewDumpCall::ExportLayout {
            shape,
            output_length,
        } => stored_line("listed", *output_length, |output| {
            newdump::export_layout(shape, output, layouts)
        }),
        NewDumpCall::ExportRecord {
            exported,
            output_length,
            cells,
        } => stored_line("export", *output_length, |output| {
            newdump::export_record(exported, cells, output, layouts)
        }),
    }
}

fn walk_lines(dump: &[u8], layouts: &mut Layouts) -> String {
    let walk = newdump::walk(dump, layouts);
    let mut lines: String = walk.records.iter().map(record_line).collect();
    lines += &ending_line(walk.ending);
    lines
}

/// "The layout's number, then its numbers as listed".
fn record_line(record: &Record) -> String {
    let mut numbers = vec![record.serial, record.number as u64];
    numbers.extend(newdump::listed_numbers(&record.layout));
    numbers.extend([record.start, record.cells.len()].map(|place| place as u64));
    let mut fields = vec!["record".to_string()];
    fields.extend(numbers.iter().map(u64::to_string));
    fields.push(outcome_fields(record.outcome));
    line(&fields)
}
