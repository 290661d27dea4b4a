//! Answers to calls in memory.

use second::answers;
use second::layout::Layouts;
use second::protocol::{Call, Limits};

pub fn answered(stream: &[u8]) -> String {
    answered_within(Limits::USUAL, stream)
}

pub fn answered_within(limits: Limits, stream: &[u8]) -> String {
    let mut printed = Vec::new();
    answers::answer_stream(&mut &stream[..], limits, &mut printed).expect("both are in memory");
    String::from_utf8(printed).expect("answers are plain text")
}

pub fn line_of(call: Call) -> String {
    answers::answer(&call, &mut Layouts::default())
}
