//! Why cells are unreadable: examples of 15 and 16, each with what it carries, as lines.

#[path = "common/octets.rs"]
mod octets;

use octets::octets;
use second::answers;
use second::layout::{Layouts, OldShape, Shape};
use second::listing::fieldlist;
use second::protocol::{Call, ManyCall};

fn small() -> Shape {
    OldShape { m: 2, t: 3, v: 4 }.in_form_0()
}

fn of_20() -> Shape {
    OldShape { m: 2, t: 2, v: 20 }.in_form_0()
}

fn line_of(call: Call) -> String {
    answers::answer(&call, &mut Layouts::default())
}

fn read_line(shape: &Shape, cells: &str) -> String {
    line_of(Call::Read {
        shape: shape.clone(),
        cells: octets(cells),
    })
}

fn write_line(shape: &Shape, cells: &str, number: u64) -> String {
    line_of(Call::Write {
        shape: shape.clone(),
        number,
        cells: octets(cells),
    })
}

#[test]
fn readings() {
    assert_eq!(read_line(&small(), "43"), "read 16 2\n");
    assert_eq!(read_line(&small(), "FF"), "read 15 3 0\n");
    assert_eq!(read_line(&small(), "F0"), "read 15 2 2\n");
    assert_eq!(read_line(&of_20(), "02 80"), "read 16 1\n");
}

#[test]
fn writes() {
    assert_eq!(write_line(&small(), "43", 4), "write 6 43\n");
    assert_eq!(write_line(&small(), "0F", 3), "write 15 2 2 0f\n");
    assert_eq!(write_line(&small(), "43", 3), "write 16 2 43\n");
}

#[test]
fn a_stop_of_many() {
    let call = |cells: &str| ManyCall {
        shape: small(),
        numbers: vec![1, 1, 1],
        cells: octets(cells),
    };
    let line = line_of(Call::Many(call("03 0F 00")));
    assert_eq!(line, "many 15 2 2 field 1 2 1 0b0f00\n");
    let line = line_of(Call::Many(call("03 43 00")));
    assert_eq!(line, "many 16 2 field 1 2 1 0b4300\n");
}

#[test]
fn records_of_a_walk() {
    let dump = octets("01 02 03 04 01 0F 02 02 03 04 01 43");
    let listed = fieldlist(&dump, &mut Layouts::default());
    assert_eq!(listed, "1 refused 15\n2 refused 16\nrecords 2\n");
    let lines = line_of(Call::Walk { dump });
    let due = "record 1 2 3 4 5 1 15 2 2\nrecord 2 2 3 4 11 1 16 2\nend\n";
    assert_eq!(lines, due);
}

/// Zero groups are unerased too, and in generation 1 all ones are data.
#[test]
fn what_counts_as_unerased() {
    assert_eq!(read_line(&small(), "55"), "read 15 3 4\n");
    assert_eq!(read_line(&small(), "54"), "read 15 3 4\n");
    assert_eq!(read_line(&small(), "50"), "read 15 2 4\n");
    assert_eq!(read_line(&small(), "F6"), "read 16 3\n");
    assert_eq!(read_line(&small(), "C0"), "read 16 1\n");
}
