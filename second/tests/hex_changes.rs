//! Good HEX texts with one character changed, taken out or put in. The answer that
//! is due follows from what the character is for, without a second parser.

use second::hex;

/// Data, no data at an address of its own, data, the end.
const LINES: [&str; 4] = [
    ":02000000aB4F04",
    ":0012cE0020",
    ":010002000cF1",
    ":00000001Ff",
];
const BYTES: [u8; 3] = [0xab, 0x4f, 0x0c];
const END: usize = 3;

type Answer = Result<Vec<u8>, u8>;

#[derive(Clone, Copy, Debug, PartialEq, Eq)]
enum Role {
    Colon,
    Count,
    Address,
    FirstOfType,
    SecondOfType,
    DataOrSum,
    Return,
    Feed,
}

/// A character, the line it is in and what it is for there.
#[derive(Clone, Copy, Debug)]
struct Part {
    character: u8,
    line: usize,
    role: Role,
}

fn parts(line_end: &str) -> Vec<Part> {
    let mut parts = Vec::new();
    for (line, text) in LINES.iter().enumerate() {
        for (place, character) in text.bytes().chain(line_end.bytes()).enumerate() {
            let role = match (place, character) {
                (_, b'\r') => Role::Return,
                (_, b'\n') => Role::Feed,
                (0, _) => Role::Colon,
                (1..=2, _) => Role::Count,
                (3..=6, _) => Role::Address,
                (7, _) => Role::FirstOfType,
                (8, _) => Role::SecondOfType,
                _ => Role::DataOrSum,
            };
            parts.push(Part {
                character,
                line,
                role,
            });
        }
    }
    parts
}

fn characters(parts: &[Part]) -> Vec<u8> {
    parts.iter().map(|part| part.character).collect()
}

fn imported(text: &[u8]) -> Answer {
    hex::bytes_of(text).map_err(|refusal| refusal.number())
}

fn accepted() -> Answer {
    Ok(BYTES.to_vec())
}

/// A line feed too many makes an empty line, or is text after the end.
fn after_further_line_feed(line: usize) -> Answer {
    match line {
        END => Err(24),
        _ => Err(20),
    }
}

fn due_for_change(part: Part, to: u8) -> Answer {
    match part.role {
        Role::Return if to == b'\n' => after_further_line_feed(part.line),
        Role::Colon | Role::Return | Role::Feed => Err(20),
        _ if !to.is_ascii_hexdigit() => Err(20),
        _ if to.eq_ignore_ascii_case(&part.character) => accepted(),
        Role::Count => Err(20),
        Role::Address if part.line == END => Err(20),
        // Type 01, with data or with an address.
        Role::SecondOfType if part.line != END && to == b'1' => Err(20),
        // One digit can't change without the sum.
        _ => Err(21),
    }
}

#[test]
fn every_character_changed_to_every_other() {
    for line_end in ["\n", "\r\n"] {
        let parts = parts(line_end);
        assert_eq!(imported(&characters(&parts)), accepted());
        for (place, part) in parts.iter().enumerate() {
            for to in (0..=255).filter(|to| *to != part.character) {
                let mut text = characters(&parts);
                text[place] = to;
                let due = due_for_change(*part, to);
                assert_eq!(imported(&text), due, "{:?} to {}", part, to);
            }
        }
    }
}

#[test]
fn every_character_taken_out() {
    for line_end in ["\n", "\r\n"] {
        let parts = parts(line_end);
        for (place, part) in parts.iter().enumerate() {
            let mut text = characters(&parts);
            text.remove(place);
            let due = match part.role {
                Role::Return => accepted(),
                _ => Err(20),
            };
            assert_eq!(imported(&text), due, "{:?}", part);
        }
    }
}

fn due_for_further(before: Part, further: u8, has_return: bool) -> Answer {
    match (before.role, further) {
        (Role::Feed, b'\r') if !has_return => accepted(),
        (Role::Return | Role::Feed, b'\n') => after_further_line_feed(before.line),
        _ => Err(20),
    }
}

#[test]
fn every_character_put_in_everywhere() {
    for line_end in ["\n", "\r\n"] {
        let parts = parts(line_end);
        for further in 0..=255 {
            for (place, before) in parts.iter().enumerate() {
                let mut text = characters(&parts);
                text.insert(place, further);
                let due = due_for_further(*before, further, line_end.len() > 1);
                assert_eq!(imported(&text), due, "{} before {:?}", further, before);
            }
            let mut text = characters(&parts);
            text.push(further);
            assert_eq!(imported(&text), Err(24));
        }
    }
}

#[test]
fn every_text_cut_off() {
    for line_end in ["\n", "\r\n"] {
        let parts = parts(line_end);
        for (length, next) in parts.iter().enumerate() {
            let text = characters(&parts[..length]);
            let due = match next.role {
                Role::Colon => Err(23),
                _ => Err(20),
            };
            assert_eq!(imported(&text), due, "{} characters", length);
        }
    }
}
