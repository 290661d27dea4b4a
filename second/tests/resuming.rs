//! A write that is resumed: examples and the order of the refusals.

mod common;
#[path = "common/octets.rs"]
mod octets;

use common::{beyond, miscounted, read, reading, write, written};
use octets::octets;
use second::field::Written;
use second::layout::{Layouts, OldShape, Shape};
use second::refusal::Refusal;
use second::resuming::{self, Resumed};

fn small() -> Shape {
    OldShape { m: 2, t: 3, v: 4 }.in_form_0()
}

fn of_20() -> Shape {
    OldShape { m: 2, t: 2, v: 20 }.in_form_0()
}

fn falling() -> Shape {
    Shape::of_ranges(2, &[20, 4, 2])
}

fn resume(shape: &Shape, cells: &str, number: u64) -> Result<Resumed, Refusal> {
    resuming::resume(shape, number, &octets(cells), &mut Layouts::default())
}

fn resumed(told: (usize, &[usize], u64), cells: &str) -> Result<Resumed, Refusal> {
    let (generation, erased, turned) = told;
    Ok(Resumed {
        written: Written {
            generation,
            turned,
            cells: octets(cells),
        },
        erased: erased.to_vec(),
    })
}

const NOT_CUT_OFF: Result<Resumed, Refusal> = Err(Refusal::NotCutOff);
const TOO_FEW_ZEROS: Result<Resumed, Refusal> = Err(Refusal::LastGenerationUsed);
const OUT_OF_RANGE: Result<Resumed, Refusal> = Err(Refusal::NumberOutOfRange);
const WRONG_BYTES: Result<Resumed, Refusal> = Err(Refusal::WrongBytes);

/// A write of 19 on 00 40, cut off at several places.
#[test]
fn a_last_write_that_is_cut_off() {
    let cells = octets("E2 C0");
    assert_eq!(write(&of_20(), 19, &octets("00 40")), written(2, 5, &cells));
    assert_eq!(resume(&of_20(), "C0 C0", 19), resumed((2, &[], 2), "E2 C0"));
    // Cells that read may hold a wrong number, and nobody can tell.
    assert_eq!(read(&of_20(), &octets("E0 C0")), reading(2, 17, 0));
    assert_eq!(resume(&of_20(), "E0 C0", 19), NOT_CUT_OFF);
    assert_eq!(read(&of_20(), &octets("E2 80")), miscounted(2, 4));
    assert_eq!(resume(&of_20(), "E2 80", 19), TOO_FEW_ZEROS);
}

#[test]
fn the_first_generation_that_has_zero_groups_enough() {
    assert_eq!(resume(&small(), "04", 2), resumed((2, &[2], 2), "1C"));
    assert_eq!(resume(&small(), "0F", 2), resumed((3, &[], 1), "4F"));
    assert_eq!(resume(&small(), "FF", 2), TOO_FEW_ZEROS);
    // A plain write there instead.
    assert_eq!(write(&small(), 2, &octets("0F")), miscounted(2, 2));
    // 16 of generation 1 goes on at generation 2 too.
    assert_eq!(read(&of_20(), &octets("02 80")), beyond(1));
    assert_eq!(
        resume(&of_20(), "02 80", 0),
        resumed((2, &[3, 4], 3), "07 C0")
    );
}

#[test]
fn blank_cells_and_readings_are_not_cut_off() {
    for form in [0, 1] {
        let shape = Shape { form, ..small() };
        assert_eq!(resume(&shape, "00", 2), NOT_CUT_OFF);
    }
    assert_eq!(resume(&falling(), "00", 1), NOT_CUT_OFF);
    // Of every generation, the spent one too.
    for cells in ["03", "0B", "4F"] {
        assert_eq!(resume(&small(), cells, 2), NOT_CUT_OFF);
    }
}

#[test]
fn a_number_out_of_range_in_a_form_of_one_range_comes_first() {
    for cells in ["00", "03", "4F", "0F", "04", "FF"] {
        assert_eq!(resume(&small(), cells, 4), OUT_OF_RANGE);
        assert_eq!(
            resume(&Shape { form: 1, ..small() }, cells, u64::MAX),
            OUT_OF_RANGE
        );
    }
    assert_eq!(resume(&small(), "", 4), WRONG_BYTES);
    assert_eq!(resume(&of_20(), "02 81", 20), WRONG_BYTES);
}

#[test]
fn a_range_for_each_generation() {
    assert_eq!(resume(&falling(), "1B", 1), resumed((3, &[1, 2], 3), "BF"));
    assert_eq!(resume(&falling(), "1B", 2), OUT_OF_RANGE);
    // 17 and 5 come before a number that no generation takes.
    assert_eq!(resume(&falling(), "0E", 99), NOT_CUT_OFF);
    assert_eq!(resume(&falling(), "00", 99), NOT_CUT_OFF);
    assert_eq!(resume(&falling(), "FF", 99), TOO_FEW_ZEROS);
    assert_eq!(resume(&falling(), "", 99), WRONG_BYTES);
    // Two zero groups are left for generation 2, whose range is 4.
    assert_eq!(read(&falling(), &octets("0F")), beyond(1));
    assert_eq!(resume(&falling(), "0F", 3), resumed((2, &[], 1), "8F"));
    assert_eq!(resume(&falling(), "0F", 4), OUT_OF_RANGE);
}

#[test]
fn refusals_of_the_shape_come_first() {
    let beyond_bounds = [
        OldShape { m: 2, t: 1, v: 4 }.in_form_0(),
        OldShape { m: 5, t: 3, v: 4 }.in_form_0(),
        OldShape { m: 2, t: 3, v: 1 }.in_form_0(),
        Shape { form: 3, ..small() },
        Shape { form: 2, ..small() },
    ];
    for shape in beyond_bounds {
        for cells in ["", "00", "0F", "FF"] {
            assert_eq!(resume(&shape, cells, 99), Err(Refusal::OutOfBounds));
        }
    }
}
