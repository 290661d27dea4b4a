//! What `fieldlist` prints.

use crate::dump::{self, Ending};
use crate::field::Reading;
use crate::layout::Layouts;
use crate::newdump;
use crate::refusal::Refusal;

pub fn fieldlist(dump: &[u8], layouts: &mut Layouts) -> String {
    let walk = dump::walk(dump, layouts);
    let records = walk.records.iter();
    let lines = records.map(|record| line(record.serial, record.outcome));
    listing(lines, walk.ending)
}

/// The same lines for a new dump. A broken layout list stops it before any record.
pub fn fieldlist_new(dump: &[u8], layouts: &mut Layouts) -> String {
    let walk = newdump::walk(dump, layouts);
    let records = walk.records.iter();
    let lines = records.map(|record| line(record.serial, record.outcome));
    listing(lines, walk.ending)
}

/// "One line per record", then "`stopped 7 at OFFSET`" where the walk was
/// stopped; "the last line is `records N`, N counting whole records. At refusal
/// 8 the only line is `refused 8`."
fn listing(records: impl Iterator<Item = String>, ending: Ending) -> String {
    let mut lines: Vec<String> = records.collect();
    let count = lines.len();
    match ending {
        Ending::TooLong => return format!("refused {}\n", Refusal::TooManyBytes.number()),
        Ending::Malformed { offset } => {
            let refusal = Refusal::MalformedRecord { offset };
            lines.push(format!("stopped {} at {}", refusal.number(), offset));
        }
        Ending::EndOfDump => {}
    }
    lines.push(format!("records {}", count));
    lines.join("\n") + "\n"
}

/// A refusal is told by its number alone.
fn line(serial: u64, outcome: Result<Reading, Refusal>) -> String {
    match outcome {
        Ok(reading) => format!(
            "{} {} {} {}",
            serial, reading.generation, reading.number, reading.left
        ),
        Err(refusal) => format!("{} refused {}", serial, refusal.number()),
    }
}
