//! The calls on new dumps as bytes and as lines, and what they export.

#[path = "common/answering.rs"]
mod answering;
#[path = "common/octets.rs"]
mod octets;

use answering::{answered, answered_within, line_of};
use octets::octets;
use second::layout::{Layouts, OldShape, Shape};
use second::newdump::{self, Exported};
use second::protocol::{Call, Limits, NewDumpCall};

const LARGEST: u64 = (1 << 63) - 1;

fn form_1() -> Shape {
    OldShape { m: 2, t: 3, v: 4 }.in_form(1)
}

fn walk_call(dump: &[u8]) -> Call {
    let dump = dump.to_vec();
    Call::NewDump(NewDumpCall::Walk { dump })
}

fn to_new_call(output_length: u64, dump: &[u8]) -> Call {
    Call::NewDump(NewDumpCall::MoveToNew {
        output_length,
        dump: dump.to_vec(),
    })
}

fn to_old_call(output_length: u64, dump: &[u8]) -> Call {
    Call::NewDump(NewDumpCall::MoveToOld {
        output_length,
        dump: dump.to_vec(),
    })
}

fn layout_call(shape: Shape, output_length: u64) -> Call {
    Call::NewDump(NewDumpCall::ExportLayout {
        shape,
        output_length,
    })
}

fn record_call(exported: Exported, output_length: u64, cells: &[u8]) -> Call {
    Call::NewDump(NewDumpCall::ExportRecord {
        exported,
        output_length,
        cells: cells.to_vec(),
    })
}

fn exported(serial: u64, number: u64, shape: Shape) -> Exported {
    Exported {
        serial,
        number,
        shape,
    }
}

#[test]
fn lines_of_walks() {
    let dump = octets("02 01 02 03 04 00 02 02 14 07 00 01 4F AC 02 01 02 00 40 08 00 01 00");
    let lines = "record 7 0 1 2 3 4 12 1 0 3 2 0\n\
                 record 300 1 0 2 2 20 17 2 0 1 1 1\n\
                 record 8 0 1 2 3 4 22 1 11\n";
    assert_eq!(line_of(walk_call(&dump)), format!("{}end\n", lines));
    let out_of_list = [&dump[..], &[9, 2, 0]].concat();
    let due = format!("{}stop 7 23\n", lines);
    assert_eq!(line_of(walk_call(&out_of_list)), due);
    let unreadable = octets("01 01 02 03 04 07 00 01 0F 08 00 01 08");
    let due = "record 7 0 1 2 3 4 8 1 15 2 2\nrecord 8 0 1 2 3 4 12 1 16 1\nend\n";
    assert_eq!(line_of(walk_call(&unreadable)), due);
    let beyond = octets("01 03 05 11 00 07 00 00");
    let due = "record 7 0 3 5 17 0 8 0 1\nend\n";
    assert_eq!(line_of(walk_call(&beyond)), due);
    assert_eq!(line_of(walk_call(&[])), "stop 7 0\n");
    assert_eq!(line_of(walk_call(&[0x41])), "stop 7 0\n");
    assert_eq!(line_of(walk_call(&[0])), "end\n");
    assert_eq!(line_of(walk_call(&[0; 65_537])), "stop 8\n");
}

#[test]
fn lines_of_moves() {
    let (old, new) = (
        octets("07 02 03 04 01 4F"),
        octets("01 00 02 03 04 07 00 01 4F"),
    );
    let stored = line_of(to_new_call(11, &old));
    assert_eq!(stored, "new 0 9 01000203040700014fa5a5\n");
    assert_eq!(line_of(to_new_call(2, &old)), "new 9 a5a5\n");
    assert_eq!(line_of(to_new_call(0, &old)), "new 9\n");
    assert_eq!(line_of(to_new_call(2, &old[..5])), "new 7 0 a5a5\n");
    assert_eq!(line_of(to_new_call(1, &[0; 65_537])), "new 8 a5\n");
    let stored = line_of(to_old_call(7, &new));
    assert_eq!(stored, "old 0 6 07020304014fa5\n");
    assert_eq!(line_of(to_old_call(1, &new)), "old 9 a5\n");
    assert_eq!(line_of(to_old_call(0, &[0])), "old 0 0\n");
    assert_eq!(line_of(to_old_call(0, &new[..8])), "old 7 5\n");
    assert_eq!(line_of(to_old_call(1, &[0x80])), "old 7 0 a5\n");
    let form_1 = octets("01 01 02 03 04");
    assert_eq!(line_of(to_old_call(1, &form_1)), "old 12 a5\n");
    let many: Vec<u8> = (2..67).flat_map(|v| [1, 2, 2, v, 0]).collect();
    assert_eq!(line_of(to_new_call(1, &many)), "new 13 a5\n");
}

#[test]
fn lines_of_exported_layouts() {
    assert_eq!(line_of(layout_call(form_1(), 4)), "listed 0 4 01020304\n");
    assert_eq!(line_of(layout_call(form_1(), 5)), "listed 0 4 01020304a5\n");
    assert_eq!(line_of(layout_call(form_1(), 3)), "listed 9 a5a5a5\n");
    assert_eq!(line_of(layout_call(form_1(), 0)), "listed 9\n");
    let widest = Shape {
        ranges: vec![1 << 56],
        ..form_1()
    };
    let stored = line_of(layout_call(widest, 12));
    assert_eq!(stored, "listed 0 12 010203808080808080808001\n");
    let with_ranges = |ranges: &[u64]| Shape {
        ranges: ranges.to_vec(),
        ..form_1()
    };
    let beyond = [
        Shape {
            form: 2,
            ..form_1()
        },
        Shape {
            form: 3,
            ..form_1()
        },
        Shape { m: 5, ..form_1() },
        Shape { t: 17, ..form_1() },
        with_ranges(&[(1 << 56) + 1]),
        with_ranges(&[4, 4, 4]),
        with_ranges(&[]),
    ];
    for shape in beyond {
        assert_eq!(line_of(layout_call(shape.clone(), 1)), "listed 1 a5\n");
        assert_eq!(line_of(layout_call(shape, 0)), "listed 1\n");
    }
}

#[test]
fn lines_of_exported_records() {
    let record = |serial: u64, number: u64, room: u64, cells: &[u8]| {
        line_of(record_call(exported(serial, number, form_1()), room, cells))
    };
    assert_eq!(record(300, 5, 6, &[0]), "export 0 5 ac02050100a5\n");
    assert_eq!(record(7, 63, 4, &[0x4f]), "export 0 4 073f014f\n");
    // Cells that have no reading are exported too.
    assert_eq!(record(7, 0, 4, &[0xff]), "export 0 4 070001ff\n");
    assert_eq!(record(7, 63, 3, &[0x4f]), "export 9 a5a5a5\n");
    assert_eq!(record(7, 64, 4, &[0x4f]), "export 1 a5a5a5a5\n");
    let last = record(LARGEST, 0, 12, &[0x4f]);
    assert_eq!(last, "export 0 12 ffffffffffffffff7f00014f\n");
}

#[test]
fn an_exported_record_is_refused_in_the_order_10_1_3_9() {
    let beyond = || Shape { t: 17, ..form_1() };
    let answer = |serial: u64, number: u64, shape: Shape, cells: &[u8]| {
        line_of(record_call(exported(serial, number, shape), 0, cells))
    };
    assert_eq!(answer(LARGEST + 1, 64, beyond(), &[]), "export 10\n");
    assert_eq!(answer(u64::MAX, 0, form_1(), &[0]), "export 10\n");
    for number in [64, 65, 127, 128, 256, 1 << 32, LARGEST, u64::MAX] {
        assert_eq!(answer(LARGEST, number, form_1(), &[]), "export 1\n");
    }
    assert_eq!(answer(LARGEST, 63, beyond(), &[]), "export 1\n");
    assert_eq!(answer(LARGEST, 63, form_1(), &[]), "export 3\n");
    assert_eq!(answer(LARGEST, 63, form_1(), &[0, 0]), "export 3\n");
    assert_eq!(answer(LARGEST, 63, form_1(), &[0]), "export 9\n");
}

/// "A count, that many exported layouts and exported records behind them."
#[test]
fn what_is_exported_is_walked() {
    let mut layouts = Layouts::default();
    let shapes = [
        form_1(),
        Shape {
            form: 0,
            ..form_1()
        },
        Shape::of_ranges(2, &[20, 4, 2]),
    ];
    let mut dump = vec![shapes.len() as u8];
    let mut output = [0; 100];
    for shape in &shapes {
        let length = newdump::export_layout(shape, &mut output, &mut layouts);
        dump.extend(&output[..length.expect("there is room")]);
    }
    let mut due = Vec::new();
    for cells in 0..=255 {
        for (number, shape) in (0..).zip(&shapes) {
            let serial = 100 * u64::from(cells);
            let exported = exported(serial, number, shape.clone());
            let length = newdump::export_record(&exported, &[cells], &mut output, &mut layouts);
            dump.extend(&output[..length.expect("there is room")]);
            let read = second::field::read(shape, &[cells], &mut layouts);
            due.push((serial, number as usize, vec![cells], read));
        }
    }
    let walk = newdump::walk(&dump, &mut layouts);
    assert_eq!(walk.ending, second::dump::Ending::EndOfDump);
    let found = walk.records.iter().map(|record| {
        let cells = record.cells.to_vec();
        (record.serial, record.number, cells, record.outcome)
    });
    assert!(found.eq(due));
}

#[test]
fn a_call_cut_off_anywhere_is_said_so() {
    let calls = [
        walk_call(&[0, 1]),
        to_new_call(5, &[1, 2, 3]),
        to_old_call(5, &[0]),
        layout_call(form_1(), 4),
        record_call(exported(7, 0, form_1()), 4, &[0x4f]),
    ];
    for (operation, call) in (8..).zip(calls) {
        let bytes = call.to_bytes();
        assert_eq!(bytes[0], operation);
        for length in 1..bytes.len() {
            assert_eq!(answered(&bytes[..length]), "cut off\n");
        }
        assert!(!answered(&bytes).contains("cut off"));
    }
}

#[test]
fn the_numbers_of_a_call_in_their_order() {
    let low_bytes = |call: Call| -> Vec<u8> {
        let bytes = call.to_bytes();
        bytes[1..].iter().copied().step_by(8).collect()
    };
    assert_eq!(low_bytes(layout_call(form_1(), 5)), [1, 2, 3, 1, 4, 5]);
    let record = record_call(exported(7, 8, form_1()), 9, &[]);
    assert_eq!(low_bytes(record), [7, 8, 1, 2, 3, 1, 4, 9, 0]);
    assert_eq!(low_bytes(to_new_call(6, &[])), [6, 0]);
    assert_eq!(low_bytes(to_old_call(6, &[])), [6, 0]);
    assert_eq!(low_bytes(walk_call(&[])), [0]);
}

#[test]
fn limits() {
    let outputs = |room: u64| {
        [
            to_new_call(room, &[]),
            to_old_call(room, &[0]),
            layout_call(form_1(), room),
            record_call(exported(7, 0, form_1()), room, &[0]),
        ]
    };
    for call in outputs(1_025) {
        assert_eq!(answered(&call.to_bytes()), "too long\n");
        // Told as soon as the number is read.
        let in_front = 1 + 8 * match call {
            Call::NewDump(NewDumpCall::ExportLayout { .. }) => 6,
            Call::NewDump(NewDumpCall::ExportRecord { .. }) => 8,
            _ => 1,
        };
        assert_eq!(answered(&call.to_bytes()[..in_front]), "too long\n");
    }
    for call in outputs(1_024) {
        assert_ne!(answered(&call.to_bytes()), "too long\n");
    }
    for call in outputs(262_145) {
        let answer = answered_within(Limits::LARGE, &call.to_bytes());
        assert_eq!(answer, "too long\n");
    }
    let long = walk_call(&[0; 65_538]).to_bytes();
    assert_eq!(answered(&long), "too long\n");
    assert_eq!(answered_within(Limits::LARGE, &long), "stop 8\n");
}

#[test]
fn calls_in_words() {
    let meaning = |call: Call| call.meaning();
    let walk = meaning(walk_call(&[0]));
    assert_eq!(walk, "walk a new dump of 1 byte");
    let to_new = meaning(to_new_call(5, &[0, 0]));
    assert_eq!(to_new, "move 2 bytes to new, output length 5");
    let to_old = meaning(to_old_call(5, &[]));
    assert_eq!(to_old, "move 0 bytes to old, output length 5");
    let layout = meaning(layout_call(form_1(), 4));
    let due = "export layout form 1, m 2, t 3, v 4, output length 4";
    assert_eq!(layout, due);
    let record = meaning(record_call(exported(7, 9, form_1()), 4, &[0]));
    let due = "export record 7, layout 9, form 1, m 2, t 3, v 4, output length 4, 1 byte of cells";
    assert_eq!(record, due);
}
