//! Calls as bytes, their lines, and the comparison of two sets of answers.

#[path = "common/answering.rs"]
mod answering;

use answering::{answered, answered_within, line_of};
use second::comparing::{compare, Comparison, Stream};
use second::dump;
use second::layout::OldShape;
use second::protocol::{self, Call, Limits, Step};
use second::stream::Maker;

const OLD_SHAPE: OldShape = OldShape { m: 2, t: 3, v: 4 };

fn layout_call(v: u64, offered: u64) -> Call {
    let shape = OldShape { v, ..OLD_SHAPE }.in_form_0();
    Call::Layout { shape, offered }
}

fn write_call(number: u64, cells: &[u8]) -> Call {
    Call::Write {
        shape: OLD_SHAPE.in_form_0(),
        number,
        cells: cells.to_vec(),
    }
}

fn read_call(cells: &[u8]) -> Call {
    Call::Read {
        shape: OLD_SHAPE.in_form_0(),
        cells: cells.to_vec(),
    }
}

fn export_call(serial: u64, output_length: u64, cells: &[u8]) -> Call {
    Call::Export {
        serial,
        shape: OLD_SHAPE,
        output_length,
        cells: cells.to_vec(),
    }
}

fn walk_call(dump: &[u8]) -> Call {
    Call::Walk {
        dump: dump.to_vec(),
    }
}

fn hex_export_call(output_length: u64, bytes: &[u8]) -> Call {
    Call::HexExport {
        output_length,
        bytes: bytes.to_vec(),
    }
}

fn hex_import_call(output_length: u64, text: &[u8]) -> Call {
    Call::HexImport {
        output_length,
        text: text.to_vec(),
    }
}

#[test]
fn lines_of_layout_and_read() {
    assert_eq!(line_of(layout_call(4, 4)), "layout 0 4 3 2\n");
    assert_eq!(line_of(layout_call(4, 3)), "layout 2\n");
    assert_eq!(line_of(layout_call(1, 3)), "layout 1\n");
    assert_eq!(line_of(read_call(&[0x23])), "read 0 2 3 1\n");
    assert_eq!(line_of(read_call(&[0x0f])), "read 15 2 2\n");
    assert_eq!(line_of(read_call(&[0xff])), "read 15 3 0\n");
    assert_eq!(line_of(read_call(&[0x43])), "read 16 2\n");
    assert_eq!(line_of(read_call(&[])), "read 3\n");
}

#[test]
fn lines_of_forms() {
    let answer = |form: u64, mut call: Call| {
        if let Call::Layout { shape, .. } | Call::Read { shape, .. } | Call::Write { shape, .. } =
            &mut call
        {
            shape.form = form;
        }
        line_of(call)
    };
    assert_eq!(answer(1, layout_call(4, 4)), "layout 0 4 3 2\n");
    assert_eq!(answer(1, read_call(&[0x00])), "read 11\n");
    assert_eq!(answer(1, read_call(&[0x01])), "read 0 1 0 2\n");
    assert_eq!(answer(1, write_call(0, &[0x00])), "write 0 1 1 01\n");
    for form in [2, 3] {
        assert_eq!(answer(form, layout_call(4, 4)), "layout 1\n");
        assert_eq!(answer(form, read_call(&[0x01])), "read 1\n");
        assert_eq!(answer(form, write_call(0, &[0x00])), "write 1 00\n");
    }
}

#[test]
fn lines_of_write_and_export() {
    assert_eq!(line_of(write_call(3, &[0x00])), "write 0 1 2 03\n");
    assert_eq!(line_of(write_call(1, &[0x4f])), "write 5 4f\n");
    assert_eq!(line_of(write_call(4, &[0x4f])), "write 6 4f\n");
    assert_eq!(line_of(write_call(4, &[0x43])), "write 6 43\n");
    assert_eq!(line_of(write_call(3, &[0x0f])), "write 15 2 2 0f\n");
    assert_eq!(line_of(write_call(3, &[0x43])), "write 16 2 43\n");
    assert_eq!(line_of(write_call(3, &[])), "write 3\n");
    let stored = line_of(export_call(7, 8, &[0x4f]));
    assert_eq!(stored, "export 0 6 07020304014fa5a5\n");
    assert_eq!(line_of(export_call(7, 5, &[0x4f])), "export 9 a5a5a5a5a5\n");
    assert_eq!(line_of(export_call(7, 0, &[0x4f])), "export 9\n");
    assert_eq!(line_of(export_call(1 << 63, 1, &[])), "export 10 a5\n");
}

#[test]
fn lines_of_walks() {
    let record = dump::record_bytes(300, OLD_SHAPE, &[0x23]);
    let refused = dump::record_bytes(1, OLD_SHAPE, &[]);
    let dump = [record, refused, vec![0x80]].concat();
    let due = "record 300 2 3 4 6 1 0 2 3 1\nrecord 1 2 3 4 12 0 3\nstop 7 12\n";
    assert_eq!(line_of(walk_call(&dump)), due);
    let unreadable = [0x0f, 0x43].map(|cells| dump::record_bytes(1, OLD_SHAPE, &[cells]));
    let due = "record 1 2 3 4 5 1 15 2 2\nrecord 1 2 3 4 11 1 16 2\nend\n";
    assert_eq!(line_of(walk_call(&unreadable.concat())), due);
    assert_eq!(line_of(walk_call(&[])), "end\n");
    assert_eq!(line_of(walk_call(&[0; 65_537])), "stop 8\n");
}

#[test]
fn lines_of_hex_calls() {
    let text = "3a30303030303030314646";
    let stored = line_of(hex_export_call(14, &[]));
    assert_eq!(stored, format!("hex 0 12 {}0aa5a5\n", text));
    assert_eq!(line_of(hex_export_call(3, &[])), "hex 9 a5a5a5\n");
    assert_eq!(line_of(hex_export_call(0, &[0; 65_537])), "hex 8\n");
    let text = b":010000004FB0\n:00000001ff\r\n";
    assert_eq!(line_of(hex_import_call(3, text)), "unhex 0 1 4fa5a5\n");
    assert_eq!(line_of(hex_import_call(1, &text[..14])), "unhex 23 a5\n");
    assert_eq!(line_of(hex_import_call(0, text)), "unhex 9\n");
    let end = hex_import_call(0, b":00000001FF\n");
    assert_eq!(line_of(end), "unhex 0 0\n");
}

#[test]
fn made_calls_come_back_from_their_bytes() {
    let mut maker = Maker::new(3, Limits::USUAL);
    for _ in 0..2_000 {
        let call = maker.call();
        let bytes = call.to_bytes();
        let mut rest = &bytes[..];
        let step = protocol::next_step(&mut rest, Limits::USUAL).expect("the stream is in memory");
        assert_eq!(step, Step::Call(call));
        assert!(rest.is_empty());
    }
}

/// The low byte of each number of a call on no cells.
fn low_bytes(call: Call) -> Vec<u8> {
    let bytes = call.to_bytes();
    bytes[1..].iter().copied().step_by(8).collect()
}

#[test]
fn the_form_stands_before_m_and_in_an_export_there_is_none() {
    let shape = || OLD_SHAPE.in_form(1);
    let layout = Call::Layout {
        shape: shape(),
        offered: 9,
    };
    assert_eq!(low_bytes(layout), [1, 2, 3, 1, 4, 9]);
    let write = Call::Write {
        shape: shape(),
        number: 7,
        cells: Vec::new(),
    };
    assert_eq!(low_bytes(write), [1, 2, 3, 1, 4, 7, 0]);
    let read = Call::Read {
        shape: shape(),
        cells: Vec::new(),
    };
    assert_eq!(low_bytes(read), [1, 2, 3, 1, 4, 0]);
    assert_eq!(low_bytes(export_call(5, 6, &[])), [5, 2, 3, 4, 6, 0]);
}

#[test]
fn a_call_cut_off_anywhere_is_said_so() {
    let calls = [
        layout_call(4, 4),
        read_call(&[0x23]),
        write_call(3, &[0]),
        export_call(7, 8, &[0x4f]),
        walk_call(&[1, 2, 3]),
        hex_export_call(26, &[0x4f]),
        hex_import_call(1, b":00000001FF\n"),
    ];
    for call in calls {
        let bytes = call.to_bytes();
        for length in 1..bytes.len() {
            assert_eq!(answered(&bytes[..length]), "cut off\n");
        }
        let followed = [&bytes[..], &[1, 2]].concat();
        assert!(answered(&followed).ends_with("\ncut off\n"));
    }
    assert_eq!(answered(&[]), "");
}

#[test]
fn operations_that_are_none() {
    for operation in (0..=255).filter(|operation| !(1..=17).contains(operation)) {
        let stream = [&read_call(&[0x23]).to_bytes()[..], &[operation, 1, 2]].concat();
        assert_eq!(answered(&stream), "read 0 2 3 1\nno such call\n");
    }
}

#[test]
fn calls_that_are_too_long() {
    let longest = walk_call(&[0; 65_537]).to_bytes();
    assert_eq!(answered(&longest), "stop 8\n");
    let longer = walk_call(&[0; 65_538]).to_bytes();
    assert_eq!(answered(&longer), "too long\n");
    let longer = read_call(&[0; 65_538]).to_bytes();
    assert_eq!(answered(&longer), "too long\n");
    let lent = export_call(7, 1_024, &[0x4f]).to_bytes();
    assert!(answered(&lent).starts_with("export 0 6 "));
    let lent = export_call(7, 1_025, &[0x4f]).to_bytes();
    assert_eq!(answered(&lent), "too long\n");
    for lent in [hex_export_call(1_025, &[]), hex_import_call(1_025, &[])] {
        assert_eq!(answered(&lent.to_bytes()), "too long\n");
    }
}

#[test]
fn larger_limits() {
    let within = |call: Call| answered_within(Limits::LARGE, &call.to_bytes());
    let full = hex_export_call(180_236, &[0; 65_536]);
    assert_eq!(answered(&full.to_bytes()), "too long\n");
    assert!(within(full).starts_with("hex 0 180236 3a3130"));
    assert_eq!(within(hex_import_call(0, &[0; 262_144])), "unhex 20\n");
    assert_eq!(within(hex_import_call(0, &[0; 262_145])), "too long\n");
    let answer = within(hex_import_call(262_144, &[]));
    assert_eq!(answer, format!("unhex 23 {}\n", "a5".repeat(262_144)));
    assert_eq!(within(hex_import_call(262_145, &[])), "too long\n");
    assert_eq!(within(walk_call(&[0; 65_538])), "stop 8\n");
}

fn sample_stream() -> Vec<u8> {
    let dump = dump::record_bytes(300, OLD_SHAPE, &[0x23]);
    let calls = [
        layout_call(4, 4),
        write_call(3, &[0]),
        walk_call(&dump),
        walk_call(&[0x80; 5_000]),
    ];
    calls.iter().flat_map(|call| call.to_bytes()).collect()
}

fn report_of(stream: &[u8], answers: &str) -> String {
    let stream = Stream {
        name: "calls.bin",
        bytes: stream,
        limits: Limits::USUAL,
    };
    match compare(&stream, answers.as_bytes()).expect("all is in memory") {
        Comparison::Agree { calls } => format!("{} calls agree", calls),
        Comparison::Differ { report } => report,
    }
}

#[test]
fn equal_answers_agree() {
    let stream = sample_stream();
    assert_eq!(report_of(&stream, &answered(&stream)), "4 calls agree");
    assert_eq!(report_of(&[], ""), "0 calls agree");
    let cut_off = &stream[..stream.len() - 1];
    assert_eq!(report_of(cut_off, &answered(cut_off)), "3 calls agree");
}

#[test]
fn a_difference_is_reported_with_its_replay() {
    let stream = sample_stream();
    let other = answered(&stream).replace("write 0 1 2 03", "write 0 1 1 03");
    let report = report_of(&stream, &other);
    let lines: Vec<&str> = report.lines().collect();
    let meaning = "call 2: write form 0, m 2, t 3, v 4, number 3, 1 byte of cells";
    assert_eq!(lines[0], meaning);
    assert_eq!(lines[2], "here: write 0 1 2 03");
    assert_eq!(lines[3], "there: write 0 1 1 03");
    let opening = "replay: printf '";
    let closing = "' | second answers";
    assert!(lines[4].starts_with(opening) && lines[4].ends_with(closing));
    let escapes = &lines[4][opening.len()..lines[4].len() - closing.len()];
    let replayed: Vec<u8> = escapes
        .split("\\x")
        .skip(1)
        .map(|byte| u8::from_str_radix(byte, 16).expect("two hex digits"))
        .collect();
    assert_eq!(replayed, write_call(3, &[0]).to_bytes());
    assert_eq!(escapes.len(), 4 * replayed.len());
}

#[test]
fn a_later_line_of_a_walk_is_found() {
    let stream = sample_stream();
    let report = report_of(
        &stream,
        &answered(&stream).replacen("\nend\n", "\nstop 7 6\n", 1),
    );
    assert!(report.starts_with("call 3: walk a dump of 7 bytes\nline 2 of its answer\n"));
    assert!(report.contains("\nhere: end\nthere: stop 7 6\n"));
}

#[test]
fn a_long_call_is_replayed_from_the_stream() {
    let stream = sample_stream();
    let report = report_of(&stream, &answered(&stream).replace("stop 7 0", "end"));
    let length = 1 + 8 + 5_000;
    let offset = stream.len() - length + 1;
    let replay = format!(
        "tail -c +{} calls.bin | head -c {} | second answers",
        offset, length
    );
    assert!(report.contains(&replay));
}

#[test]
fn a_replay_goes_by_the_limits_of_the_comparison() {
    let bytes = hex_export_call(2_000, &[]).to_bytes();
    let stream = Stream {
        name: "calls.bin",
        bytes: &bytes,
        limits: Limits::LARGE,
    };
    match compare(&stream, b"hex 8\n").expect("all is in memory") {
        Comparison::Differ { report } => assert!(report.ends_with("' | second answers --large\n")),
        Comparison::Agree { .. } => panic!("the answers differ"),
    }
}

#[test]
fn missing_and_further_lines_are_differences() {
    let stream = sample_stream();
    let answers = answered(&stream);
    let without_last = answers.replace("stop 7 0\n", "");
    assert!(report_of(&stream, &without_last).contains("\nthere: no line\n"));
    let without_line_feed = &answers[..answers.len() - 1];
    let report = report_of(&stream, without_line_feed);
    assert!(report.contains("\nthere: stop 7 0 (no line feed)\n"));
    let report = report_of(&stream, &(answers + "end\n"));
    assert!(report.starts_with("call 5: the end of the stream\n"));
    assert!(report.contains("\nhere: no line\nthere: end\n"));
}
