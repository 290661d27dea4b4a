//! The calls that have to do with new dumps, operations 8 to 12.

use super::call::{counted, lent, numbers_of, of_cells, words, Parts};
use super::{counted_bytes, number, number_up_to, shape, Broken, Failure, Limits};
use crate::layout::Shape;
use crate::newdump::Exported;
use std::io::Read;

#[derive(Clone, Debug, PartialEq, Eq)]
pub enum NewDumpCall {
    Walk {
        dump: Vec<u8>,
    },
    MoveToNew {
        output_length: u64,
        dump: Vec<u8>,
    },
    MoveToOld {
        output_length: u64,
        dump: Vec<u8>,
    },
    ExportLayout {
        shape: Shape,
        output_length: u64,
    },
    ExportRecord {
        exported: Exported,
        output_length: u64,
        cells: Vec<u8>,
    },
}

pub(super) fn call_after(
    operation: u8,
    stream: &mut impl Read,
    limits: Limits,
) -> Result<NewDumpCall, Failure> {
    match operation {
        8 => Ok(NewDumpCall::Walk {
            dump: counted_bytes(limits, stream)?,
        }),
        9 => Ok(NewDumpCall::MoveToNew {
            output_length: number_up_to(limits.output, stream)?,
            dump: counted_bytes(limits, stream)?,
        }),
        10 => Ok(NewDumpCall::MoveToOld {
            output_length: number_up_to(limits.output, stream)?,
            dump: counted_bytes(limits, stream)?,
        }),
        11 => Ok(NewDumpCall::ExportLayout {
            shape: shape(stream)?,
            output_length: number_up_to(limits.output, stream)?,
        }),
        12 => Ok(NewDumpCall::ExportRecord {
            exported: exported(stream)?,
            output_length: number_up_to(limits.output, stream)?,
            cells: counted_bytes(limits, stream)?,
        }),
        _ => Err(Failure::Broken(Broken::NoSuchCall)),
    }
}

fn exported(stream: &mut impl Read) -> Result<Exported, Failure> {
    Ok(Exported {
        serial: number(stream)?,
        number: number(stream)?,
        shape: shape(stream)?,
    })
}

impl NewDumpCall {
    pub fn parts(&self) -> Parts<'_> {
        match self {
            NewDumpCall::Walk { dump } => (8, Vec::new(), vec![dump]),
            NewDumpCall::MoveToNew {
                output_length,
                dump,
            } => (9, vec![*output_length], vec![dump]),
            NewDumpCall::MoveToOld {
                output_length,
                dump,
            } => (10, vec![*output_length], vec![dump]),
            NewDumpCall::ExportLayout {
                shape,
                output_length,
            } => {
                let numbers = [&numbers_of(shape)[..], &[*output_length]];
                (11, numbers.concat(), vec![])
            }
            NewDumpCall::ExportRecord {
                exported,
                output_length,
                cells,
            } => {
                let shape = numbers_of(&exported.shape);
                let numbers = [&[exported.serial, exported.number], &shape[..]];
                let numbers = [&numbers.concat()[..], &[*output_length]];
                (12, numbers.concat(), vec![cells])
            }
        }
    }

    pub fn meaning(&self) -> String {
        match self {
            NewDumpCall::Walk { dump } => format!("walk a new dump of {}", counted(dump)),
            NewDumpCall::MoveToNew {
                output_length,
                dump,
            } => format!("move {} to new, {}", counted(dump), lent(*output_length)),
            NewDumpCall::MoveToOld {
                output_length,
                dump,
            } => format!("move {} to old, {}", counted(dump), lent(*output_length)),
            NewDumpCall::ExportLayout {
                shape,
                output_length,
            } => format!("export layout {}, {}", words(shape), lent(*output_length)),
            NewDumpCall::ExportRecord {
                exported,
                output_length,
                cells,
            } => format!(
                "export record {}, layout {}, {}, {}, {}",
                exported.serial,
                exported.number,
                words(&exported.shape),
                lent(*output_length),
                of_cells(cells)
            ),
        }
    }
}
