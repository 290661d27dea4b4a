//! The lines that answer calls on two fields as one.

use super::{in_hex, line, refused};
use crate::layout::Layouts;
use crate::pairs;
use crate::protocol::PairCall;

pub fn answer(call: &PairCall, layouts: &mut Layouts) -> String {
    match call.number {
        None => read_line(call, layouts),
        Some(number) => write_line(call, number, layouts),
    }
}

fn read_line(call: &PairCall, layouts: &mut Layouts) -> String {
    let told = match pairs::read(&call.pair, call.lent(), layouts) {
        Ok(reading) => format!("0 {} {}", reading.number, reading.left),
        Err(refusal) => refused(refusal),
    };
    line(&["pair".to_string(), told])
}

fn write_line(call: &PairCall, number: u64, layouts: &mut Layouts) -> String {
    let mut after = call.cells.clone();
    let told = match pairs::write(&call.pair, number, call.lent(), layouts) {
        Ok(pairs::PairWritten { field, written }) => {
            after[field] = written.cells;
            format!("0 {} {} {}", field, written.generation, written.turned)
        }
        Err(refusal) => refused(refusal),
    };
    let [first, second] = after.map(|cells| in_hex(&cells));
    line(&["pairwrite".to_string(), told, first, second])
}
