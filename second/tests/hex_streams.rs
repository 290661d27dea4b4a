//! What the HEX calls of made streams are sure to hold.

#[path = "common/streams.rs"]
mod streams;

use second::answers;
use second::hex;
use second::layout::Layouts;
use second::protocol::{Call, Limits};
use std::collections::HashSet;
use streams::calls;

const CALLS: usize = 40_000;
const END: &[u8] = b":00000001FF\n";

/// Texts of the usual calls of a stream.
fn texts(seed: u64) -> Vec<Vec<u8>> {
    let text_of = |call: &Call| match call {
        Call::HexImport { text, .. } if text.len() < 60_000 => Some(text.clone()),
        _ => None,
    };
    let calls = calls(seed, Limits::USUAL);
    calls.iter().filter_map(text_of).collect()
}

fn assert_met(met: &HashSet<String>, due: &[&str]) {
    let missing: Vec<_> = due.iter().filter(|kind| !met.contains(**kind)).collect();
    assert!(missing.is_empty(), "not met: {:?}", missing);
}

fn lines_of(text: &[u8]) -> impl Iterator<Item = &[u8]> {
    text.split_inclusive(|character| *character == b'\n')
}

#[test]
fn outputs_at_their_edges() {
    let mut met = HashSet::new();
    let both = [1, 2].map(|seed| calls(seed, Limits::USUAL));
    for call in both.iter().flat_map(|calls| calls.iter()) {
        let (what, due, output_length) = match call {
            Call::HexExport {
                output_length,
                bytes,
            } => ("hex", Some(hex::text_of(bytes).len()), *output_length),
            Call::HexImport {
                output_length,
                text,
            } => (
                "unhex",
                hex::bytes_of(text).ok().map(|bytes| bytes.len()),
                *output_length,
            ),
            _ => continue,
        };
        if let Some(due) = due {
            met.insert(format!("{} {}", what, output_length as i64 - due as i64));
            met.insert(format!("{} {} into {}", what, due, output_length));
        }
    }
    let due = [
        "hex -1",
        "hex 0",
        "hex 1",
        "hex 12 into 0",
        "hex 12 into 12",
        "unhex -1",
        "unhex 0",
        "unhex 1",
        "unhex 0 into 0",
        "unhex 1 into 0",
        "unhex 16 into 16",
    ];
    assert_met(&met, &due);
}

#[test]
fn good_texts_of_every_kind() {
    let mut met = HashSet::new();
    for text in texts(2).iter().filter(|text| hex::bytes_of(text).is_ok()) {
        let has = |wanted: fn(&[u8]) -> bool| lines_of(text).any(wanted);
        let is_returned = |line: &[u8]| line.ends_with(b"\r\n");
        let ends = (has(is_returned), has(|line| !line.ends_with(b"\r\n")));
        met.insert(format!("CR LF and LF {:?}", ends));
        let has_lower = |line: &[u8]| line.iter().any(u8::is_ascii_lowercase);
        let has_upper = |line: &[u8]| line.iter().any(u8::is_ascii_uppercase);
        let mixed = lines_of(text).any(|line| has_lower(line) && has_upper(line));
        met.insert(format!("both cases in a line {}", mixed));
        for line in lines_of(text) {
            met.insert(format!("count {}", String::from_utf8_lossy(&line[1..3])));
            met.insert(format!("start {}", String::from_utf8_lossy(&line[1..9])));
        }
    }
    let due = [
        "CR LF and LF (true, false)",
        "CR LF and LF (false, true)",
        "CR LF and LF (true, true)",
        "both cases in a line true",
        "both cases in a line false",
        "count FF",
        "count ff",
        "count 01",
        "start 00000000",
        "start 00FFFF00",
        "start 00000100",
    ];
    assert_met(&met, &due);
}

/// The first line that can't stand behind the ones before it, or is the end with
/// text after it; the count of bytes before it; and the text after it.
fn faulty_line(text: &[u8]) -> (usize, &[u8], &[u8]) {
    let mut start = 0;
    let mut bytes = 0;
    for line in lines_of(text) {
        let end = start + line.len();
        match hex::bytes_of(&[&text[..end], END].concat()) {
            Ok(imported) => bytes = imported.len(),
            Err(_) => return (bytes, line, &text[end..]),
        }
        start = end;
    }
    (bytes, &[], &[])
}

/// A refused text's fault, as it is written; the shape is right but for 20.
fn fault(text: &[u8], refusal: u8) -> String {
    let (before, line, after) = faulty_line(text);
    let line_text = String::from_utf8_lossy(line).to_uppercase();
    let part = |from: usize, to: usize| usize::from_str_radix(&line_text[from..to], 16).unwrap();
    match refusal {
        20 => format!("20 {}", shape_fault(&line_text)),
        21 => format!("21 type {}", part(7, 9)),
        22 if part(3, 7) > before => "22 gap".to_string(),
        22 => "22 overlap".to_string(),
        23 => format!("23 in an empty text {}", text.is_empty()),
        _ if part(7, 9) == 1 => format!("24 behind the end {:?}", String::from_utf8_lossy(after)),
        _ => format!("24 type {}, text goes on {}", part(7, 9), !after.is_empty()),
    }
}

fn shape_fault(line: &str) -> String {
    let sum_of = |digits: &str| {
        let pair = |place: usize| u32::from_str_radix(&digits[place..place + 2], 16).ok();
        let pairs: Option<Vec<u32>> = (0..digits.len() / 2).map(|place| pair(2 * place)).collect();
        pairs.map(|pairs| pairs.iter().sum::<u32>() % 256)
    };
    match line {
        "\n" | "\r\n" => "empty line".to_string(),
        _ if line.ends_with("FF") => "no line feed".to_string(),
        _ if line.ends_with("FF\r") => "lone CR".to_string(),
        _ if line.ends_with("\r\r\n") => "two CRs".to_string(),
        _ if line.trim_end_matches(&['\r', '\n'][..]).contains(' ') => "blank".to_string(),
        _ if line.is_ascii() && line.len() > 11 && &line[7..9] == "01" => {
            let sum = sum_of(line[1..].trim_end());
            format!("end {}, sum right {}", &line[1..7], sum == Some(0))
        }
        _ => "other".to_string(),
    }
}

#[test]
fn faults_of_every_kind() {
    let mut met = HashSet::new();
    for text in (3..5).flat_map(texts) {
        if let Err(refusal) = hex::bytes_of(&text) {
            met.insert(fault(&text, refusal.number()));
        }
    }
    for kind in 2..=5 {
        let goes_on = |on: bool| format!("24 type {}, text goes on {}", kind, on);
        let due = [format!("21 type {}", kind), goes_on(true), goes_on(false)];
        assert!(due.iter().all(|fault| met.contains(fault)), "{:?}", due);
    }
    let due = [
        "20 empty line",
        "20 no line feed",
        "20 lone CR",
        "20 two CRs",
        "20 blank",
        "20 other",
        "20 end 000001, sum right true",
        "20 end 000001, sum right false",
        "20 end 010000, sum right true",
        "20 end 010000, sum right false",
        "20 end 01FFFF, sum right true",
        "20 end 01FFFF, sum right false",
        "21 type 0",
        "21 type 1",
        "22 gap",
        "22 overlap",
        "23 in an empty text true",
        "23 in an empty text false",
        "24 behind the end \"\\n\"",
        "24 behind the end \"\\r\"",
        "24 behind the end \"\\r\\n\"",
        "24 behind the end \":00000001FF\\n\"",
        "24 behind the end \"no line at all\"",
    ];
    assert_met(&met, &due);
}

/// The answers to the last calls of a stream, without the output's bytes.
fn last_answers(seed: u64, limits: Limits, count: usize) -> Vec<String> {
    let calls = calls(seed, limits);
    let hex_calls = &calls[CALLS - count..CALLS - 2];
    let hex_calls = hex_calls.iter();
    let answers = hex_calls.map(|call| answers::answer(call, &mut Layouts::default()));
    let without_output = |answer: String| match answer.split(' ').collect::<Vec<_>>()[..] {
        [call, "0", length, ..] => format!("{} 0 {}", call, length),
        [call, refusal, ..] => format!("{} {}", call, refusal.trim()),
        _ => answer,
    };
    answers.map(without_output).collect()
}

#[test]
fn calls_of_full_size() {
    for seed in [1, 2] {
        let usual = last_answers(seed, Limits::USUAL, 6);
        assert_eq!(usual, ["unhex 9", "unhex 0 1000", "hex 8", "hex 9"]);
        let large = last_answers(seed, Limits::LARGE, 13);
        let due = [
            "unhex 22",
            "unhex 0 65536",
            "unhex 22",
            "unhex 22",
            "unhex 9",
            "unhex 0 65536",
            "hex 9",
            "unhex 0 65536",
            "unhex 0 1000",
            "hex 8",
            "hex 0 180236",
        ];
        assert_eq!(large, due);
    }
}

#[test]
fn the_longest_texts_fill_a_call() {
    for limits in [Limits::USUAL, Limits::LARGE] {
        match &calls(1, limits)[CALLS - 5] {
            Call::HexImport { text, .. } => assert_eq!(text.len() as u64, limits.bytes),
            _ => panic!("an import is due"),
        }
    }
}
