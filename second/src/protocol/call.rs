//! The calls, their one form in a stream, and their meaning in words.

use super::{JudgeCall, ManyCall, NewDumpCall, PairCall, ResumeCall};
use crate::layout::{OldShape, Shape};

#[derive(Clone, Debug, PartialEq, Eq)]
pub enum Call {
    Layout {
        shape: Shape,
        offered: u64,
    },
    Read {
        shape: Shape,
        cells: Vec<u8>,
    },
    Write {
        shape: Shape,
        number: u64,
        cells: Vec<u8>,
    },
    Export {
        serial: u64,
        shape: OldShape,
        output_length: u64,
        cells: Vec<u8>,
    },
    Walk {
        dump: Vec<u8>,
    },
    HexExport {
        output_length: u64,
        bytes: Vec<u8>,
    },
    HexImport {
        output_length: u64,
        text: Vec<u8>,
    },
    NewDump(NewDumpCall),
    Many(ManyCall),
    Judge(JudgeCall),
    Resume(ResumeCall),
    Pair(PairCall),
}

/// A call as a stream holds it: its operation, its numbers, and its byte strings.
pub type Parts<'call> = (u8, Vec<u64>, Vec<&'call [u8]>);

impl Call {
    /// The call as the stream holds it; there is one such form only.
    pub fn to_bytes(&self) -> Vec<u8> {
        let (operation, numbers, lent) = self.parts();
        let mut bytes = vec![operation];
        bytes.extend(numbers.iter().flat_map(|number| number.to_le_bytes()));
        for string in lent {
            bytes.extend((string.len() as u64).to_le_bytes());
            bytes.extend(string);
        }
        bytes
    }

    fn parts(&self) -> Parts<'_> {
        match self {
            Call::Layout { shape, offered } => {
                (1, [&numbers_of(shape)[..], &[*offered]].concat(), vec![])
            }
            Call::Read { shape, cells } => (2, numbers_of(shape), vec![cells]),
            Call::Write {
                shape,
                number,
                cells,
            } => (
                3,
                [&numbers_of(shape)[..], &[*number]].concat(),
                vec![cells],
            ),
            Call::Export {
                serial,
                shape,
                output_length,
                cells,
            } => (
                4,
                vec![*serial, shape.m, shape.t, shape.v, *output_length],
                vec![cells],
            ),
            Call::Walk { dump } => (5, Vec::new(), vec![dump]),
            Call::HexExport {
                output_length,
                bytes,
            } => (6, vec![*output_length], vec![bytes]),
            Call::HexImport {
                output_length,
                text,
            } => (7, vec![*output_length], vec![text]),
            Call::NewDump(call) => call.parts(),
            Call::Many(call) => call.parts(),
            Call::Judge(call) => call.parts(),
            Call::Resume(call) => call.parts(),
            Call::Pair(call) => call.parts(),
        }
    }

    /// The call in words, for a person who looks into a difference.
    pub fn meaning(&self) -> String {
        match self {
            Call::Layout { shape, offered } => format!("layout {}, g {}", words(shape), offered),
            Call::Read { shape, cells } => format!("read {}, {}", words(shape), of_cells(cells)),
            Call::Write {
                shape,
                number,
                cells,
            } => {
                let given = format!("{}, number {}", words(shape), number);
                format!("write {}, {}", given, of_cells(cells))
            }
            Call::Export {
                serial,
                shape,
                output_length,
                cells,
            } => {
                let given = format!("serial {}, {}", serial, old_words(shape));
                format!(
                    "export {}, {}, {}",
                    given,
                    lent(*output_length),
                    of_cells(cells)
                )
            }
            Call::Walk { dump } => format!("walk a dump of {}", counted(dump)),
            Call::HexExport {
                output_length,
                bytes,
            } => format!("HEX export {}, {}", counted(bytes), lent(*output_length)),
            Call::HexImport {
                output_length,
                text,
            } => format!("HEX import {}, {}", counted(text), lent(*output_length)),
            Call::NewDump(call) => call.meaning(),
            Call::Many(call) => call.meaning(),
            Call::Judge(call) => call.meaning(),
            Call::Resume(call) => call.meaning(),
            Call::Pair(call) => call.meaning(),
        }
    }
}

pub fn lent(output_length: u64) -> String {
    format!("output length {}", output_length)
}

pub fn of_cells(cells: &[u8]) -> String {
    format!("{} of cells", counted(cells))
}

/// In the order in which the stream has them, the ranges behind their count.
pub fn numbers_of(shape: &Shape) -> Vec<u64> {
    let count = shape.ranges.len() as u64;
    [&[shape.form, shape.m, shape.t, count], &shape.ranges[..]].concat()
}

pub fn words(shape: &Shape) -> String {
    let ranges: Vec<String> = shape.ranges.iter().map(u64::to_string).collect();
    let ranges = match ranges.is_empty() {
        true => "none".to_string(),
        false => ranges.join(" "),
    };
    let Shape { form, m, t, .. } = shape;
    format!("form {}, m {}, t {}, v {}", form, m, t, ranges)
}

fn old_words(shape: &OldShape) -> String {
    format!("m {}, t {}, v {}", shape.m, shape.t, shape.v)
}

pub fn counted(bytes: &[u8]) -> String {
    match bytes.len() {
        1 => "1 byte".to_string(),
        count => format!("{} bytes", count),
    }
}
