//! The lines that answer a call.

mod judging;
mod many;
mod new_dump;
mod pairs;
mod resuming;

use crate::dump::{self, Ending, Record};
use crate::field;
use crate::hex;
use crate::layout::{Layouts, OldShape, Shape};
use crate::protocol::{self, Call, Limits, Step};
use crate::refusal::Refusal;
use crate::values;
use std::io::{self, Read, Write};

/// What a lent output is filled with beforehand.
const OUTPUT_FILL: u8 = 0xa5;

/// Prints the answers to a whole stream.
pub fn answer_stream(
    stream: &mut impl Read,
    limits: Limits,
    printed: &mut impl Write,
) -> io::Result<()> {
    let mut layouts = Layouts::default();
    loop {
        match protocol::next_step(stream, limits)? {
            Step::Call(call) => printed.write_all(answer(&call, &mut layouts).as_bytes())?,
            Step::Broken(broken) => return writeln!(printed, "{}", broken.line()),
            Step::End => return Ok(()),
        }
    }
}

/// The call's line or lines, each with its line feed.
pub fn answer(call: &Call, layouts: &mut Layouts) -> String {
    match call {
        Call::Layout { shape, offered } => layout_line(shape, *offered, layouts),
        Call::Read { shape, cells } => {
            let outcome = field::read(shape, cells, layouts);
            line(&["read".to_string(), outcome_fields(outcome)])
        }
        Call::Write {
            shape,
            number,
            cells,
        } => write_line(shape, *number, cells, layouts),
        Call::Export {
            serial,
            shape,
            output_length,
            cells,
        } => stored_line("export", *output_length, |output| {
            dump::export(*serial, *shape, cells, output, layouts)
        }),
        Call::Walk { dump } => walk_lines(dump, layouts),
        Call::HexExport {
            output_length,
            bytes,
        } => stored_line("hex", *output_length, |output| hex::export(bytes, output)),
        Call::HexImport {
            output_length,
            text,
        } => stored_line("unhex", *output_length, |output| hex::import(text, output)),
        Call::NewDump(call) => new_dump::answer(call, layouts),
        Call::Many(call) => many::answer(call, layouts),
        Call::Judge(call) => judging::answer(call, layouts),
        Call::Resume(call) => resuming::answer(call, layouts),
        Call::Pair(call) => pairs::answer(call, layouts),
    }
}

/// Fields are joined by single spaces; an empty one, such as the hex of no
/// bytes, is left out.
fn line(fields: &[String]) -> String {
    let present = fields.iter().filter(|field| !field.is_empty());
    let words: Vec<&str> = present.map(String::as_str).collect();
    words.join(" ") + "\n"
}

/// The number, and at once what the refusal carries.
fn refused(refusal: Refusal) -> String {
    let mut words = vec![refusal.number().to_string()];
    words.extend(refusal.carried().iter().map(usize::to_string));
    words.join(" ")
}

fn in_hex(bytes: &[u8]) -> String {
    bytes.iter().map(|byte| format!("{:02x}", byte)).collect()
}

fn layout_line(shape: &Shape, offered: u64, layouts: &mut Layouts) -> String {
    match layouts.grant(shape, offered) {
        Ok(layout) => line(&["layout 0".to_string(), values::list(&layout)]),
        Err(refusal) => line(&["layout".to_string(), refused(refusal)]),
    }
}

fn write_line(shape: &Shape, number: u64, cells: &[u8], layouts: &mut Layouts) -> String {
    match field::write(shape, number, cells, layouts) {
        Ok(written) => line(&[
            format!("write 0 {} {}", written.generation, written.turned),
            in_hex(&written.cells),
        ]),
        Err(refusal) => line(&["write".to_string(), refused(refusal), in_hex(cells)]),
    }
}

/// The line of a call that stores something at the front of a lent output and
/// answers its length.
fn stored_line(
    operation: &str,
    output_length: u64,
    call: impl FnOnce(&mut [u8]) -> Result<usize, Refusal>,
) -> String {
    let mut output = vec![OUTPUT_FILL; output_length as usize];
    let answer = match call(&mut output) {
        Ok(length) => format!("0 {}", length),
        Err(refusal) => refused(refusal),
    };
    line(&[operation.to_string(), answer, in_hex(&output)])
}

fn walk_lines(dump: &[u8], layouts: &mut Layouts) -> String {
    let walk = dump::walk(dump, layouts);
    let mut lines: String = walk.records.iter().map(record_line).collect();
    lines += &ending_line(walk.ending);
    lines
}

fn ending_line(ending: Ending) -> String {
    match ending.refusal() {
        Some(refusal) => line(&["stop".to_string(), refused(refusal)]),
        None => "end\n".to_string(),
    }
}

fn record_line(record: &Record) -> String {
    let OldShape { m, t, v } = record.shape;
    let given = format!("record {} {} {} {}", record.serial, m, t, v);
    let where_cells_are = format!("{} {}", record.start, record.cells.len());
    line(&[given, where_cells_are, outcome_fields(record.outcome)])
}

fn outcome_fields(outcome: Result<field::Reading, Refusal>) -> String {
    match outcome {
        Ok(reading) => format!(
            "0 {} {} {}",
            reading.generation, reading.number, reading.left
        ),
        Err(refusal) => refused(refusal),
    }
}
