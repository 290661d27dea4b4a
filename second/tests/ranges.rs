//! Form 2 of document 02, "Ranges that shrink": lists, readings, writes and the order of
//! their refusals.

mod common;

use common::{beyond, miscounted, read, reading, write, written};
use second::cells;
use second::field;
use second::layout::{Layouts, OldShape, Shape};
use second::refusal::Refusal;
use std::collections::HashSet;

const LARGEST_RANGE: u64 = 1 << 56;

fn list(m: u64, ranges: &[u64]) -> Result<Vec<usize>, Refusal> {
    let layout = Layouts::default().grant(&Shape::of_ranges(m, ranges), 256);
    layout.map(|layout| layout.counts().to_vec())
}

fn falling() -> Shape {
    Shape::of_ranges(2, &[20, 4, 2])
}

fn rising() -> Shape {
    Shape::of_ranges(2, &[2, 4, 20])
}

fn equal() -> Shape {
    Shape::of_ranges(2, &[4, 4, 4])
}

const OUT_OF_RANGE: Refusal = Refusal::NumberOutOfRange;
const SPENT: Refusal = Refusal::LastGenerationUsed;

#[test]
fn lists_of_the_examples() {
    assert_eq!(list(2, &[20, 4, 2]), Ok(vec![4, 2, 1]));
    assert_eq!(list(2, &[4, 4, 4]), Ok(vec![4, 3, 2]));
    assert_eq!(list(2, &[13, 13]), Ok(vec![5, 3]));
    assert_eq!(list(2, &[20, 4, 1]), Err(Refusal::OutOfBounds));
    assert_eq!(list(2, &[2, LARGEST_RANGE]), Ok(vec![37, 36]));
    assert_eq!(list(2, &[LARGEST_RANGE, 2]), Ok(vec![29, 1]));
    let few = Layouts::default().grant(&falling(), 3);
    assert_eq!(few, Err(Refusal::NoListFits));
    assert!(Layouts::default().grant(&falling(), 4).is_ok());
}

#[test]
fn a_field_of_falling_ranges() {
    let shape = &falling();
    assert_eq!(read(shape, &[0x00]), Err(Refusal::Blank));
    assert_eq!(write(shape, 19, &[0x00]), written(1, 3, &[0x0e]));
    assert_eq!(read(shape, &[0x0e]), reading(1, 19, 2));
    assert_eq!(write(shape, 3, &[0x0e]), written(2, 2, &[0x8f]));
    assert_eq!(read(shape, &[0x8f]), reading(2, 3, 1));
    assert_eq!(write(shape, 2, &[0x8f]), Err(OUT_OF_RANGE));
    assert_eq!(write(shape, 1, &[0x8f]), written(3, 2, &[0xef]));
    assert_eq!(read(shape, &[0xef]), reading(3, 1, 0));
    assert_eq!(write(shape, 1, &[0xef]), Err(SPENT));
    assert_eq!(read(shape, &[0xff]), miscounted(3, 0));
}

#[test]
fn a_number_goes_by_the_range_of_the_generation_that_takes_it() {
    for (shape, before, range) in [
        (falling(), 0x00, 20),
        (falling(), 0x0e, 4),
        (falling(), 0x8f, 2),
        (equal(), 0x00, 4),
        (equal(), 0x03, 4),
        (equal(), 0x0b, 4),
    ] {
        assert!(write(&shape, range - 1, &[before]).is_ok());
        for number in [range, range + 1, 21, u64::MAX] {
            assert_eq!(write(&shape, number, &[before]), Err(OUT_OF_RANGE));
        }
    }
    let mut cells = vec![0, 0];
    for range in [2, 4, 20] {
        assert_eq!(write(&rising(), range, &cells), Err(OUT_OF_RANGE));
        let written = write(&rising(), range - 1, &cells);
        cells = written.expect("it is in range").cells;
    }
}

#[test]
fn a_number_is_read_by_the_range_of_its_generation() {
    // The last number in range and the pattern behind it.
    assert_eq!(read(&falling(), &[0x0e]), reading(1, 19, 2));
    assert_eq!(read(&falling(), &[0x0f]), beyond(1));
    assert_eq!(read(&rising(), &[0x00, 0x80]), reading(1, 1, 2));
    assert_eq!(read(&rising(), &[0x00, 0xc0]), beyond(1));
    assert_eq!(read(&equal(), &[0x23]), reading(2, 3, 1));
    assert_eq!(read(&equal(), &[0x43]), beyond(2));
}

#[test]
fn writes_are_refused_in_the_order_3_15_16_5_6() {
    let of_13 = &Shape::of_ranges(2, &[13, 13]);
    assert_eq!(write(of_13, 13, &[0x00]), Err(Refusal::WrongBytes));
    // With a left-over bit: blank, miscounted, beyond, spent.
    for bytes in [[0x00, 0x01], [0xff, 0xc1], [0x0a, 0x01], [0xc1, 0xc1]] {
        assert_eq!(write(of_13, 99, &bytes), Err(Refusal::WrongBytes));
    }
    for number in [0, 12, 13, u64::MAX] {
        assert_eq!(write(of_13, number, &[0xff, 0xc0]), miscounted(2, 0));
        assert_eq!(write(of_13, number, &[0x0a, 0x00]), beyond(1));
        assert_eq!(write(of_13, number, &[0xc1, 0xc0]), Err(SPENT));
    }
    assert_eq!(write(of_13, 13, &[0x00, 0x00]), Err(OUT_OF_RANGE));
    assert_eq!(write(&equal(), 9, &[0x43]), beyond(2));
    assert_eq!(write(&equal(), 9, &[0x4f]), Err(SPENT));
    // Forms 0 and 1 keep 6 before them.
    let form_1 = &OldShape { m: 2, t: 3, v: 4 }.in_form(1);
    assert_eq!(write(form_1, 9, &[0x43]), Err(OUT_OF_RANGE));
    assert_eq!(write(form_1, 9, &[0x4f]), Err(OUT_OF_RANGE));
}

#[test]
fn refusal_11_comes_after_3() {
    let of_13 = &Shape::of_ranges(2, &[13, 13]);
    assert_eq!(read(of_13, &[0x00]), Err(Refusal::WrongBytes));
    assert_eq!(read(of_13, &[0x00, 0x01]), Err(Refusal::WrongBytes));
    assert_eq!(read(of_13, &[0x00, 0x00]), Err(Refusal::Blank));
}

/// Of a layout, a read and a write alike, before the cells are looked at.
fn assert_out_of_bounds(shape: &Shape) {
    let refused = Layouts::default().grant(shape, 256);
    assert_eq!(refused, Err(Refusal::OutOfBounds), "{:?}", shape);
    for cells in [&[][..], &[0x00], &[0x00, 0x00]] {
        assert_eq!(read(shape, cells), Err(Refusal::OutOfBounds));
        assert_eq!(write(shape, 99, cells), Err(Refusal::OutOfBounds));
    }
}

#[test]
fn a_list_not_of_t_ranges_is_out_of_bounds() {
    for t in 2..=16 {
        for count in (0..=64).filter(|count| *count != t) {
            assert_out_of_bounds(&Shape {
                t,
                ..Shape::of_ranges(2, &vec![4; count as usize])
            });
        }
        assert!(list(2, &vec![4; t as usize]).is_ok());
    }
    for t in [0, 1, 17, 18, 64] {
        assert_out_of_bounds(&Shape::of_ranges(2, &vec![4; t]));
    }
}

#[test]
fn forms_0_and_1_have_one_range() {
    for form in [0, 1] {
        for count in (0..=64).filter(|count| *count != 1) {
            let one = OldShape { m: 2, t: 3, v: 4 }.in_form(form);
            let ranges = vec![4; count];
            assert_out_of_bounds(&Shape { ranges, ..one });
        }
    }
}

#[test]
fn each_number_of_a_shape_has_its_bounds() {
    for place in 0..3 {
        for range in [0, 1, LARGEST_RANGE + 1, 1 << 63, u64::MAX] {
            let mut shape = falling();
            shape.ranges[place] = range;
            assert_out_of_bounds(&shape);
        }
    }
    for m in [0, 1, 5, 258, (1 << 32) + 2, u64::MAX] {
        assert_out_of_bounds(&Shape { m, ..falling() });
    }
    for t in [2, 4, 259, (1 << 32) + 3, u64::MAX] {
        assert_out_of_bounds(&Shape { t, ..falling() });
    }
}

/// Whether the sum over k = 1 .. step of C(next + step, k)·base^k is at least the range.
/// Once it is, the terms to come are not looked at: 128 bits are enough for all others.
fn step_is_enough(next: usize, step: usize, base: u128, range: u64) -> bool {
    let mut term = 1;
    let mut sum = 0;
    for k in 1..=step {
        term = term * (next + step + 1 - k) as u128 * base / k as u128;
        sum += term;
        if sum >= u128::from(range) {
            return true;
        }
    }
    false
}

/// Each count is enough for its range beside the next count, and one less is not. Answers
/// the steps h_i − h_(i+1).
fn check_counts(m: u64, ranges: &[u64]) -> Vec<usize> {
    let counts = list(m, ranges).expect("every list fits in 256 groups");
    let erased = (1_u128 << m) - 1;
    let last = *counts.last().expect("there are two counts or more") as u32;
    let last_range = u128::from(ranges[counts.len() - 1]);
    assert!(erased.pow(last) > last_range && erased.pow(last - 1) <= last_range);
    let steps: Vec<usize> = counts.windows(2).map(|pair| pair[0] - pair[1]).collect();
    for (place, step) in steps.iter().enumerate() {
        let base = if place == 0 { erased } else { erased - 1 };
        let is_enough = |step| step_is_enough(counts[place + 1], step, base, ranges[place]);
        assert!(is_enough(*step) && !is_enough(step - 1), "{:?}", ranges);
    }
    steps
}

#[test]
fn no_count_is_wrong_where_a_step_grows() {
    let choices = [2, 3, 1 << 20, LARGEST_RANGE - 1, LARGEST_RANGE];
    let mut longest = 0;
    let mut growing = 0;
    for m in 2..=4 {
        for code in 0..5_usize.pow(4) {
            let range = |place: u32| choices[code / 5_usize.pow(place) % 5];
            let ranges: Vec<u64> = (0..4).map(range).collect();
            for length in 2..=4 {
                let steps = check_counts(m, &ranges[..length]);
                longest = longest.max(steps.iter().copied().max().unwrap_or(0));
                growing += usize::from(steps.windows(2).any(|pair| pair[0] > pair[1]));
            }
        }
    }
    assert_eq!(longest, 35);
    assert!(growing > 1_000, "{}", growing);
}

#[test]
fn a_short_range_before_and_behind_the_longest() {
    assert_eq!(list(2, &[2, LARGEST_RANGE, 2]), Ok(vec![37, 36, 1]));
    assert_eq!(list(2, &[2, LARGEST_RANGE, 2, 2]), Ok(vec![37, 36, 2, 1]));
    assert_eq!(list(2, &[LARGEST_RANGE, 2, 2]), Ok(vec![29, 2, 1]));
    for m in 2..=4 {
        let by_turns: Vec<u64> = [2, LARGEST_RANGE].repeat(8);
        check_counts(m, &by_turns);
        check_counts(m, &by_turns[1..]);
        let falling: Vec<u64> = (0..16).map(|place| LARGEST_RANGE >> (3 * place)).collect();
        check_counts(m, &falling);
        let rising: Vec<u64> = falling.into_iter().rev().collect();
        check_counts(m, &rising);
    }
}

/// "A number is in range when it is below the range of the generation that would take it, or
/// none would; the j-th write is accepted exactly when j ≤ t." All runs of writes from blank
/// cells, and at each of their cells all numbers in range and some that are not.
fn check_all_runs(shape: &Shape, layouts: &mut Layouts) {
    let layout = layouts.grant(shape, 256).expect("a list that fits");
    let t = layout.generations();
    let mut reached = HashSet::from([vec![0; cells::byte_count(&layout)]]);
    for j in 1..=t {
        let mut next = HashSet::new();
        for cells in &reached {
            for number in 0..layout.range(j) {
                let written = field::write(shape, number, cells, layouts);
                let written = written.expect("it is in range and j is t at most");
                assert_eq!(written.generation, j);
                let read_back = field::read(shape, &written.cells, layouts);
                assert_eq!(read_back, reading(j, number, t - j));
                next.insert(written.cells);
            }
            for number in [layout.range(j), layout.range(j) + 1, u64::MAX] {
                let refused = field::write(shape, number, cells, layouts);
                assert_eq!(refused, Err(OUT_OF_RANGE));
            }
        }
        reached = next;
    }
    for cells in &reached {
        for number in [0, layout.range(t) - 1, layout.range(t), u64::MAX] {
            assert_eq!(field::write(shape, number, cells, layouts), Err(SPENT));
        }
    }
}

#[test]
fn demand_3_on_small_fields() {
    let mut layouts = Layouts::default();
    let choices = [2, 3, 7];
    for m in 2..=3 {
        for code in 0..3_usize.pow(4) {
            let range = |place: u32| choices[code / 3_usize.pow(place) % 3];
            let ranges: Vec<u64> = (0..4).map(range).collect();
            for length in 2..=4 {
                check_all_runs(&Shape::of_ranges(m, &ranges[..length]), &mut layouts);
            }
        }
    }
}

/// One run, whose turned counts add up to the ones in the cells.
fn check_run(shape: &Shape, number_at: impl Fn(u64) -> u64, layouts: &mut Layouts) {
    let layout = layouts.grant(shape, 256).expect("a list that fits");
    let t = layout.generations();
    let mut cells = vec![0; cells::byte_count(&layout)];
    let mut turned = 0;
    for j in 1..=t {
        let number = number_at(layout.range(j));
        let written = field::write(shape, number, &cells, layouts).expect("it is in range");
        assert!(written.turned > 0);
        turned += written.turned;
        cells = written.cells;
        let read_back = field::read(shape, &cells, layouts);
        assert_eq!(read_back, reading(j, number, t - j));
    }
    assert_eq!(turned, cells::ones(&cells));
    for number in [0, layout.range(t), u64::MAX] {
        assert_eq!(field::write(shape, number, &cells, layouts), Err(SPENT));
    }
}

#[test]
fn demand_3_on_large_fields() {
    let mut layouts = Layouts::default();
    let falling: Vec<u64> = (0..16).map(|place| LARGEST_RANGE >> (3 * place)).collect();
    let rising: Vec<u64> = falling.iter().copied().rev().collect();
    let by_turns = [2, LARGEST_RANGE, 3, LARGEST_RANGE - 1].repeat(4);
    for m in 2..=4 {
        for ranges in [&falling, &rising, &by_turns] {
            for length in [2, 3, 9, 16] {
                let shape = &Shape::of_ranges(m, &ranges[..length]);
                check_run(shape, |_| 0, &mut layouts);
                check_run(shape, |range| range - 1, &mut layouts);
                check_run(shape, |range| range / 2, &mut layouts);
            }
        }
    }
}
