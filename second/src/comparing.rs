//! Holds another program's answers to a stream against the ones given here.

use crate::answers;
use crate::layout::Layouts;
use crate::protocol::{self, Limits, Step};
use std::io;

/// Above this a call is shown by its place in the stream.
const LONGEST_REPLAY: usize = 4_096;

#[derive(Clone, Debug, PartialEq, Eq)]
pub enum Comparison {
    Agree { calls: u64 },
    Differ { report: String },
}

/// A stream of calls that hold no more than the limits. Its name is how it can be
/// reached for a replay.
pub struct Stream<'given> {
    pub name: &'given str,
    pub bytes: &'given [u8],
    pub limits: Limits,
}

/// A call of the stream, or what stands in its place at the stream's end.
struct Compared<'stream> {
    number: u64,
    meaning: String,
    offset: usize,
    bytes: &'stream [u8],
}

pub fn compare(stream: &Stream, answers: &[u8]) -> io::Result<Comparison> {
    let mut layouts = Layouts::default();
    let mut rest = stream.bytes;
    let mut there = answers;
    let mut calls = 0;
    loop {
        let before = rest;
        let step = protocol::next_step(&mut rest, stream.limits)?;
        let (meaning, here) = match &step {
            Step::Call(call) => (call.meaning(), answers::answer(call, &mut layouts)),
            Step::Broken(broken) => ("no whole call".to_string(), format!("{}\n", broken.line())),
            Step::End => ("the end of the stream".to_string(), String::new()),
        };
        let is_last = !matches!(step, Step::Call(_));
        if !there.starts_with(here.as_bytes()) || (is_last && there.len() > here.len()) {
            let compared = Compared {
                number: calls + 1,
                meaning,
                offset: stream.bytes.len() - before.len(),
                bytes: &before[..before.len() - rest.len()],
            };
            let report = report(&compared, here.as_bytes(), there, stream);
            return Ok(Comparison::Differ { report });
        }
        if is_last {
            return Ok(Comparison::Agree { calls });
        }
        there = &there[here.len()..];
        calls += 1;
    }
}

fn report(compared: &Compared, here: &[u8], there: &[u8], stream: &Stream) -> String {
    let agreeing = lines_of(here)
        .zip(lines_of(there))
        .take_while(|(ours, theirs)| ours == theirs)
        .count();
    format!(
        "call {}: {}\nline {} of its answer\nhere: {}\nthere: {}\nreplay: {}\n",
        compared.number,
        compared.meaning,
        agreeing + 1,
        shown(lines_of(here).nth(agreeing)),
        shown(lines_of(there).nth(agreeing)),
        replay(compared, stream)
    )
}

/// Lines with their line feed, so that a missing last one is a difference.
fn lines_of(text: &[u8]) -> impl Iterator<Item = &[u8]> {
    text.split_inclusive(|byte| *byte == b'\n')
}

fn shown(line: Option<&[u8]>) -> String {
    match line {
        None => "no line".to_string(),
        Some(line) => match line.strip_suffix(b"\n") {
            Some(line) => String::from_utf8_lossy(line).into_owned(),
            None => format!("{} (no line feed)", String::from_utf8_lossy(line)),
        },
    }
}

fn replay(compared: &Compared, stream: &Stream) -> String {
    let answering = format!("second answers{}", stream.limits.option());
    if compared.bytes.len() > LONGEST_REPLAY {
        // The bytes of `tail -c +N` are numbered from 1.
        return format!(
            "tail -c +{} {} | head -c {} | {}",
            compared.offset + 1,
            stream.name,
            compared.bytes.len(),
            answering
        );
    }
    let escapes = compared.bytes.iter().map(|byte| format!("\\x{:02x}", byte));
    format!("printf '{}' | {}", escapes.collect::<String>(), answering)
}
