//! A field before and after: examples, the order of the refusals, and what the writer
//! makes.

#[path = "common/octets.rs"]
mod octets;

use octets::octets;
use second::cells;
use second::field;
use second::judging::{self, Judged};
use second::layout::{Layouts, OldShape, Shape};
use second::refusal::Refusal;

fn small() -> Shape {
    OldShape { m: 2, t: 3, v: 4 }.in_form_0()
}

fn of_20() -> Shape {
    OldShape { m: 2, t: 2, v: 20 }.in_form_0()
}

fn judge(shape: &Shape, before: &str, after: &str) -> Result<Judged, Refusal> {
    let (before, after) = (octets(before), octets(after));
    judging::judge(shape, &before, &after, &mut Layouts::default())
}

fn yes(number: u64) -> Result<Judged, Refusal> {
    Ok(Judged::Yes { number })
}

fn miscounted(generation: usize, unerased: usize) -> Result<Judged, Refusal> {
    Err(Refusal::Miscounted {
        generation,
        unerased,
    })
}

fn beyond(generation: usize) -> Result<Judged, Refusal> {
    Err(Refusal::Beyond { generation })
}

const NO: Result<Judged, Refusal> = Ok(Judged::No);
const WRONG_BYTES: Result<Judged, Refusal> = Err(Refusal::WrongBytes);
const BLANK: Result<Judged, Refusal> = Err(Refusal::Blank);

#[test]
fn any_choice_of_spare_groups_is_right() {
    // The groups before are 0 0 0 0 1. Any of the four zero ones may be spare.
    assert_eq!(judge(&of_20(), "00 40", "C1 C0"), yes(0));
    assert_eq!(judge(&of_20(), "00 40", "31 C0"), yes(0));
    assert_eq!(judge(&of_20(), "00 40", "0D C0"), yes(0));
    assert_eq!(judge(&of_20(), "00 40", "07 C0"), yes(0));
    assert_eq!(judge(&of_20(), "00 40", "1D C0"), yes(3));
    // With no spare group it reads as generation 1, with two it has no reading. The group
    // that was 1 is not erased, where there is one spare group and where there are two.
    assert_eq!(judge(&of_20(), "00 40", "01 C0"), NO);
    assert_eq!(judge(&of_20(), "00 40", "F1 C0"), miscounted(2, 2));
    assert_eq!(judge(&of_20(), "00 40", "C1 40"), miscounted(2, 4));
    assert_eq!(judge(&of_20(), "00 40", "F0 40"), NO);
}

#[test]
fn every_generation_of_a_field_of_four_numbers() {
    assert_eq!(judge(&small(), "00", "03"), yes(3));
    assert_eq!(judge(&small(), "03", "0B"), yes(1));
    assert_eq!(judge(&small(), "0B", "4F"), yes(2));
    assert_eq!(judge(&small(), "00", "00"), yes(0));
    // A generation back, one skipped, none, a group nonzero before that is not erased,
    // one that is another now, and a spent field.
    assert_eq!(judge(&small(), "03", "00"), NO);
    assert_eq!(judge(&small(), "03", "4F"), NO);
    assert_eq!(judge(&small(), "03", "03"), NO);
    assert_eq!(judge(&small(), "01", "C1"), NO);
    assert_eq!(judge(&small(), "01", "C2"), NO);
    assert_eq!(judge(&small(), "4F", "4F"), NO);
    assert_eq!(judge(&small(), "4F", "00"), NO);
    assert_eq!(judge(&small(), "00", "0B"), NO);
}

#[test]
fn every_form() {
    let form_1 = Shape { form: 1, ..small() };
    let form_2 = Shape::of_ranges(2, &[20, 4, 2]);
    for shape in [&form_1, &form_2] {
        assert_eq!(judge(shape, "00", "00"), BLANK);
        assert_eq!(judge(shape, "00", "01"), yes(0));
        assert_eq!(judge(shape, "01", "00"), BLANK);
    }
    assert_eq!(judge(&form_1, "01", "07"), yes(0));
    assert_eq!(judge(&form_1, "07", "1F"), yes(0));
    assert_eq!(judge(&form_1, "1F", "1F"), NO);
    assert_eq!(judge(&form_2, "00", "0E"), yes(19));
    assert_eq!(judge(&form_2, "0E", "8F"), yes(3));
    assert_eq!(judge(&form_2, "8F", "EF"), yes(1));
    // A number beyond the range of its own generation, and a group that is not erased.
    assert_eq!(judge(&form_2, "00", "0F"), beyond(1));
    assert_eq!(judge(&form_2, "8F", "BF"), NO);
}

#[test]
fn refusals_of_the_shape_come_first() {
    let out_of_bounds = Err(Refusal::OutOfBounds);
    let beyond_bounds = [
        OldShape { m: 2, t: 1, v: 4 }.in_form_0(),
        OldShape { m: 5, t: 3, v: 4 }.in_form_0(),
        OldShape { m: 2, t: 3, v: 1 }.in_form_0(),
        Shape { form: 3, ..small() },
        Shape { form: 2, ..small() },
        Shape {
            ranges: vec![4, 4, 4],
            ..small()
        },
    ];
    for shape in beyond_bounds {
        for (before, after) in [("", ""), ("03", "0B"), ("43", "0F"), ("00 00", "00")] {
            assert_eq!(judge(&shape, before, after), out_of_bounds);
        }
    }
}

/// Of each kind that refuses, on the side that is looked at first.
#[test]
fn refusals_of_the_before_cells_come_before_those_of_the_after_cells() {
    let wrong_after = ["", "00 00", "0F", "43", "00"];
    for form in [0, 1] {
        let shape = Shape { form, ..small() };
        for after in wrong_after {
            assert_eq!(judge(&shape, "00 00", after), WRONG_BYTES);
            assert_eq!(judge(&shape, "", after), WRONG_BYTES);
            assert_eq!(judge(&shape, "0F", after), miscounted(2, 2));
            assert_eq!(judge(&shape, "FF", after), miscounted(3, 0));
        }
    }
    for after in wrong_after {
        assert_eq!(judge(&small(), "43", after), beyond(2));
    }
    for after in ["00 41", "02 80", "FF C0", "00"] {
        assert_eq!(judge(&of_20(), "00 41", after), WRONG_BYTES);
        assert_eq!(judge(&of_20(), "02 80", after), beyond(1));
    }
}

#[test]
fn refusals_of_the_after_cells_come_before_yes_or_no() {
    // Blank, written, and spent.
    for before in ["00", "03", "0B", "4F"] {
        assert_eq!(judge(&small(), before, ""), WRONG_BYTES);
        assert_eq!(judge(&small(), before, "00 00"), WRONG_BYTES);
        assert_eq!(judge(&small(), before, "0F"), miscounted(2, 2));
        assert_eq!(judge(&small(), before, "43"), beyond(2));
    }
    let form_1 = Shape { form: 1, ..small() };
    for before in ["00", "03", "07", "1F"] {
        assert_eq!(judge(&form_1, before, "00"), BLANK);
        assert_eq!(judge(&form_1, before, "00 00"), WRONG_BYTES);
        assert_eq!(judge(&form_1, before, "0F"), miscounted(2, 2));
    }
    // A left-over bit before blank cells are looked for.
    let form_1 = Shape { form: 1, ..of_20() };
    assert_eq!(judge(&form_1, "00 00", "00 01"), WRONG_BYTES);
    assert_eq!(judge(&form_1, "00 01", "00 00"), WRONG_BYTES);
    assert_eq!(judge(&of_20(), "00 40", "00 41"), WRONG_BYTES);
}

/// Of all forms, from fields of a few wits to the largest.
fn shapes() -> Vec<Shape> {
    let fields = [(2, 3, 4), (2, 10, 1 << 56), (3, 16, 1 << 56), (4, 5, 1000)];
    let mut shapes = vec![
        Shape::of_ranges(2, &[20, 4, 2]),
        Shape::of_ranges(2, &[2, 4, 20]),
        Shape::of_ranges(2, &[2, 1 << 56, 2]),
        Shape::of_ranges(4, &[1 << 56, 1 << 40, 1000, 3]),
    ];
    for (m, t, v) in fields {
        shapes.extend([0, 1].map(|form| OldShape { m, t, v }.in_form(form)));
    }
    shapes
}

#[test]
fn what_the_writer_makes_is_accepted_with_its_number() {
    let mut layouts = Layouts::default();
    for shape in shapes() {
        let layout = layouts.grant(&shape, 256).expect("it is within bounds");
        let mut cells = vec![0; cells::byte_count(&layout)];
        for generation in 1..=layout.generations() {
            let last = layout.range(generation) - 1;
            let mut left = Vec::new();
            for number in [0, last / 2, last / 3, last] {
                let written = field::write(&shape, number, &cells, &mut layouts);
                left = written.expect("it is in range").cells;
                let judged = judging::judge(&shape, &cells, &left, &mut layouts);
                assert_eq!(judged, yes(number));
            }
            cells = left;
        }
    }
}
