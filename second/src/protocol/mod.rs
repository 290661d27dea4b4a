//! Calls as a stream of bytes: one byte says which call it is, its numbers follow
//! as eight bytes each from the low one up, and cells, a dump or a text as one
//! number more, which counts them, and the bytes themselves. Where a call has as many
//! numbers as it likes, their count stands in front of them.

mod call;
mod judging;
mod many;
mod new_dump;
mod pairs;
mod resuming;

use crate::layout::{OldShape, Shape};
pub use call::Call;
pub use judging::JudgeCall;
pub use many::ManyCall;
pub use new_dump::NewDumpCall;
pub use pairs::PairCall;
pub use resuming::ResumeCall;
use std::io::{self, ErrorKind, Read};

/// More than a shape may have, so that such a shape can be asked for and refused.
const MOST_RANGES: u64 = 64;

/// How much a call may hold: of bytes all its strings together.
#[derive(Clone, Copy, Debug, PartialEq, Eq)]
pub struct Limits {
    pub bytes: u64,
    pub output: u64,
}

impl Limits {
    /// A dump one byte too long to be walked fits.
    pub const USUAL: Limits = Limits {
        bytes: 65_537,
        output: 1_024,
    };

    /// A HEX text of 65,536 bytes fits, as text and as output.
    pub const LARGE: Limits = Limits {
        bytes: 262_144,
        output: 262_144,
    };

    /// What a command of `second` is told, behind its name, to keep to them.
    pub fn option(self) -> &'static str {
        match self {
            Limits::LARGE => " --large",
            _ => "",
        }
    }
}

/// Why a stream can't be followed any further.
#[derive(Clone, Copy, Debug, PartialEq, Eq)]
pub enum Broken {
    CutOff,
    NoSuchCall,
    TooLong,
}

impl Broken {
    pub fn line(self) -> &'static str {
        match self {
            Broken::CutOff => "cut off",
            Broken::NoSuchCall => "no such call",
            Broken::TooLong => "too long",
        }
    }
}

#[derive(Clone, Debug, PartialEq, Eq)]
pub enum Step {
    Call(Call),
    Broken(Broken),
    End,
}

/// The next call of a stream. Each number is tested as soon as it is read, so a
/// call that is both too long and cut off later is too long.
pub fn next_step(stream: &mut impl Read, limits: Limits) -> io::Result<Step> {
    let mut operation = [0];
    match filled(stream, &mut operation) {
        Ok(()) => {}
        Err(Failure::Broken(_)) => return Ok(Step::End),
        Err(Failure::Input(error)) => return Err(error),
    }
    match call_after(operation[0], stream, limits) {
        Ok(call) => Ok(Step::Call(call)),
        Err(Failure::Broken(broken)) => Ok(Step::Broken(broken)),
        Err(Failure::Input(error)) => Err(error),
    }
}

/// What keeps a call from being read: the stream's bytes, or the input itself.
enum Failure {
    Broken(Broken),
    Input(io::Error),
}

fn filled(stream: &mut impl Read, bytes: &mut [u8]) -> Result<(), Failure> {
    stream
        .read_exact(bytes)
        .map_err(|error| match error.kind() {
            ErrorKind::UnexpectedEof => Failure::Broken(Broken::CutOff),
            _ => Failure::Input(error),
        })
}

fn call_after(operation: u8, stream: &mut impl Read, limits: Limits) -> Result<Call, Failure> {
    match operation {
        1 => Ok(Call::Layout {
            shape: shape(stream)?,
            offered: number(stream)?,
        }),
        2 => Ok(Call::Read {
            shape: shape(stream)?,
            cells: counted_bytes(limits, stream)?,
        }),
        3 => Ok(Call::Write {
            shape: shape(stream)?,
            number: number(stream)?,
            cells: counted_bytes(limits, stream)?,
        }),
        4 => Ok(Call::Export {
            serial: number(stream)?,
            shape: old_shape(stream)?,
            output_length: number_up_to(limits.output, stream)?,
            cells: counted_bytes(limits, stream)?,
        }),
        5 => Ok(Call::Walk {
            dump: counted_bytes(limits, stream)?,
        }),
        6 => Ok(Call::HexExport {
            output_length: number_up_to(limits.output, stream)?,
            bytes: counted_bytes(limits, stream)?,
        }),
        7 => Ok(Call::HexImport {
            output_length: number_up_to(limits.output, stream)?,
            text: counted_bytes(limits, stream)?,
        }),
        8..=12 => Ok(Call::NewDump(new_dump::call_after(
            operation, stream, limits,
        )?)),
        13 => Ok(Call::Many(many::call_after(stream, limits)?)),
        14 => Ok(Call::Judge(judging::call_after(stream, limits)?)),
        15 => Ok(Call::Resume(resuming::call_after(stream, limits)?)),
        16 => Ok(Call::Pair(pairs::read_after(stream, limits)?)),
        17 => Ok(Call::Pair(pairs::write_after(stream, limits)?)),
        _ => Err(Failure::Broken(Broken::NoSuchCall)),
    }
}

fn number(stream: &mut impl Read) -> Result<u64, Failure> {
    let mut bytes = [0; 8];
    filled(stream, &mut bytes)?;
    Ok(u64::from_le_bytes(bytes))
}

fn number_up_to(most: u64, stream: &mut impl Read) -> Result<u64, Failure> {
    let number = number(stream)?;
    if number > most {
        return Err(Failure::Broken(Broken::TooLong));
    }
    Ok(number)
}

fn counted_numbers(most: u64, stream: &mut impl Read) -> Result<Vec<u64>, Failure> {
    let count = number_up_to(most, stream)?;
    (0..count).map(|_| number(stream)).collect()
}

fn shape(stream: &mut impl Read) -> Result<Shape, Failure> {
    Ok(Shape {
        form: number(stream)?,
        m: number(stream)?,
        t: number(stream)?,
        ranges: counted_numbers(MOST_RANGES, stream)?,
    })
}

fn old_shape(stream: &mut impl Read) -> Result<OldShape, Failure> {
    Ok(OldShape {
        m: number(stream)?,
        t: number(stream)?,
        v: number(stream)?,
    })
}

fn counted_bytes(limits: Limits, stream: &mut impl Read) -> Result<Vec<u8>, Failure> {
    let count = number_up_to(limits.bytes, stream)?;
    let mut bytes = vec![0; count as usize];
    filled(stream, &mut bytes)?;
    Ok(bytes)
}

/// The limit is that of both together.
fn two_strings(limits: Limits, stream: &mut impl Read) -> Result<[Vec<u8>; 2], Failure> {
    let first = counted_bytes(limits, stream)?;
    let left = Limits {
        bytes: limits.bytes - first.len() as u64,
        ..limits
    };
    let second = counted_bytes(left, stream)?;
    Ok([first, second])
}
