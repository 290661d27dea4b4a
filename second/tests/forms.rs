//! Form 1 of document 02, "A new drive is not a zero", beside form 0.

mod common;

use common::{beyond, miscounted, read, reading, write, written};
use second::cells;
use second::field;
use second::layout::{Layouts, OldShape, Shape};
use second::refusal::Refusal;

const LARGEST_RANGE: u64 = 1 << 56;

fn shape(form: u64, m: u64, t: u64, v: u64) -> Shape {
    OldShape { m, t, v }.in_form(form)
}

fn range_4(form: u64) -> Shape {
    shape(form, 2, 3, 4)
}

fn range_20(form: u64) -> Shape {
    shape(form, 2, 2, 20)
}

fn granted(shape: &Shape, layouts: &mut Layouts) -> Result<Vec<usize>, Refusal> {
    let layout = layouts.grant(shape, 256);
    layout.map(|layout| layout.counts().to_vec())
}

fn list(shape: Shape) -> Result<Vec<usize>, Refusal> {
    granted(&shape, &mut Layouts::default())
}

#[test]
fn lists_of_both_forms_at_a_sum() {
    assert_eq!(list(shape(0, 2, 2, 13)), Ok(vec![4, 3]));
    assert_eq!(list(shape(1, 2, 2, 13)), Ok(vec![5, 3]));
    assert_eq!(list(shape(0, 3, 2, 22)), Ok(vec![3, 2]));
    assert_eq!(list(shape(1, 3, 2, 22)), Ok(vec![4, 2]));
    assert_eq!(list(shape(0, 4, 2, 46)), Ok(vec![3, 2]));
    assert_eq!(list(shape(1, 4, 2, 46)), Ok(vec![4, 2]));
    assert_eq!(list(range_4(1)), Ok(vec![4, 3, 2]));
}

#[test]
fn readings_in_both_forms() {
    assert_eq!(read(&range_4(0), &[0x00]), reading(1, 0, 3));
    assert_eq!(read(&range_4(1), &[0x00]), Err(Refusal::Blank));
    assert_eq!(read(&range_4(1), &[0x01]), reading(1, 0, 2));
    assert_eq!(read(&range_4(1), &[0x04]), reading(1, 3, 2));
    assert_eq!(read(&range_4(1), &[0x08]), beyond(1));
    assert_eq!(read(&range_4(1), &[0x0f]), miscounted(2, 2));
    assert_eq!(read(&range_20(0), &[0x02, 0x80]), beyond(1));
    assert_eq!(read(&range_20(1), &[0x02, 0x80]), reading(1, 19, 1));
    assert_eq!(read(&range_20(1), &[0x02, 0xc0]), beyond(1));
}

#[test]
fn writes_of_form_1() {
    assert_eq!(write(&range_4(1), 0, &[0x00]), written(1, 1, &[0x01]));
    assert_eq!(write(&range_4(1), 1, &[0x00]), written(1, 1, &[0x02]));
    assert_eq!(write(&range_4(1), 3, &[0x00]), written(1, 1, &[0x04]));
    assert_eq!(write(&range_4(1), 0, &[0x01]), written(2, 2, &[0x07]));
    assert_eq!(write(&range_4(1), 0, &[0x07]), written(3, 2, &[0x1f]));
    let spent = write(&range_4(1), 0, &[0x1f]);
    assert_eq!(spent, Err(Refusal::LastGenerationUsed));
}

#[test]
fn refusal_11_comes_after_3() {
    let cells: [&[u8]; 4] = [&[0, 1], &[0], &[], &[0, 0, 0]];
    for cells in cells {
        assert_eq!(read(&range_20(1), cells), Err(Refusal::WrongBytes));
    }
    assert_eq!(read(&range_20(1), &[0, 0]), Err(Refusal::Blank));
}

#[test]
fn a_number_out_of_range_on_blank_cells_is_refused_with_6() {
    for number in [20, 21, u64::MAX] {
        let refused = write(&range_20(1), number, &[0, 0]);
        assert_eq!(refused, Err(Refusal::NumberOutOfRange));
    }
    let refused = write(&range_20(1), 20, &[0, 1]);
    assert_eq!(refused, Err(Refusal::WrongBytes));
}

#[test]
fn a_form_above_2_is_out_of_bounds_before_all_else() {
    for form in [3, 4, 255, 256, 257, 258, 1 << 32, (1 << 32) + 2, u64::MAX] {
        let shape = &range_20(form);
        assert_eq!(list(shape.clone()), Err(Refusal::OutOfBounds));
        let too_few = Layouts::default().grant(shape, 0);
        assert_eq!(too_few, Err(Refusal::OutOfBounds));
        let cells: [&[u8]; 4] = [&[0, 0], &[0, 1], &[], &[0xff, 0xc0]];
        for cells in cells {
            assert_eq!(read(shape, cells), Err(Refusal::OutOfBounds));
            assert_eq!(write(shape, 99, cells), Err(Refusal::OutOfBounds));
        }
    }
}

fn choose(n: usize, k: usize) -> u128 {
    (0..k).fold(1, |product, i| product * (n - i) as u128 / (i + 1) as u128)
}

/// Condition b's sum of form 0.
fn sum_from_0(m: u64, first: usize, second: usize) -> u128 {
    let nonzero = (1_u128 << m) - 1;
    let terms = 0..=first - second;
    terms
        .map(|k| choose(first, k) * nonzero.pow(k as u32))
        .sum()
}

/// The sum from k = 1 is at least v just where that from k = 0 is at least v + 1.
fn first_count_of_form_1(m: u64, v: u64, second: usize) -> usize {
    let due = u128::from(v) + 1;
    let mut counts = second + 1..;
    let first = counts.find(|first| sum_from_0(m, *first, second) >= due);
    first.expect("the sum grows without end")
}

/// Holds the list of form 1 against that of form 0; true where they differ.
fn check_lists(m: u64, t: u64, v: u64, layouts: &mut Layouts) -> bool {
    let form_0 = granted(&shape(0, m, t, v), layouts).expect("a list that fits");
    let form_1 = granted(&shape(1, m, t, v), layouts).expect("a list that fits");
    assert_eq!(form_0[1..], form_1[1..]);
    assert_eq!(form_1[0], first_count_of_form_1(m, v, form_0[1]));
    let is_a_sum = sum_from_0(m, form_0[0], form_0[1]) == u128::from(v);
    assert_eq!(form_0 != form_1, is_a_sum);
    is_a_sum
}

#[test]
fn the_lists_differ_only_where_the_range_is_a_sum() {
    let mut layouts = Layouts::default();
    for m in 2..=4 {
        for t in 2..=4 {
            let mut differing = (2..=5_000).filter(|v| check_lists(m, t, *v, &mut layouts));
            let first: Vec<u64> = differing.by_ref().take(3).collect();
            differing.for_each(drop);
            match (m, t) {
                (2, 2) => assert_eq!(first, vec![13, 211, 277]),
                (3, 2) => assert_eq!(first[0], 22),
                (4, 2) => assert_eq!(first[0], 46),
                _ => {}
            }
        }
    }
}

#[test]
fn on_the_same_list_numbers_of_generation_1_are_those_of_form_0_less_1() {
    let mut layouts = Layouts::default();
    for (m, t, v) in [
        (2, 2, 20),
        (2, 3, 4),
        (3, 2, 48),
        (3, 4, 300),
        (4, 3, 1_000),
    ] {
        let (form_0, form_1) = (&shape(0, m, t, v), &shape(1, m, t, v));
        let layout = layouts.grant(form_0, 256).expect("a list that fits");
        assert_eq!(Ok(layout.counts().to_vec()), granted(form_1, &mut layouts));
        let blank = vec![0; cells::byte_count(&layout)];
        for number in 1..v {
            let due = field::write(form_0, number, &blank, &mut layouts);
            let less_1 = field::write(form_1, number - 1, &blank, &mut layouts);
            assert_eq!(less_1, due);
        }
        // The last pattern of form 1 is one that form 0 has no number for.
        let last = field::write(form_1, v - 1, &blank, &mut layouts).expect("it is in range");
        let refused = field::read(form_0, &last.cells, &mut layouts);
        assert_eq!(refused, beyond(1));
    }
}

/// From generation 2 on the forms are alike.
#[test]
fn on_the_same_list_later_generations_are_alike() {
    let mut layouts = Layouts::default();
    for (m, t, v) in [(2, 10, LARGEST_RANGE), (3, 5, 1_000), (4, 16, 99)] {
        let (form_0, form_1) = (&shape(0, m, t, v), &shape(1, m, t, v));
        let layout = layouts.grant(form_0, 256).expect("a list that fits");
        let blank = vec![0; cells::byte_count(&layout)];
        let first = field::write(form_0, v - 1, &blank, &mut layouts);
        let mut cells = first.expect("it is in range").cells;
        for generation in 2..=t {
            let number = v / generation;
            let later = field::write(form_0, number, &cells, &mut layouts);
            assert_eq!(field::write(form_1, number, &cells, &mut layouts), later);
            cells = later.expect("generations are left").cells;
            let reading = field::read(form_0, &cells, &mut layouts);
            assert_eq!(field::read(form_1, &cells, &mut layouts), reading);
        }
    }
}

/// "In demand 3 the j-th write is accepted exactly when j ≤ t", and reads back;
/// the turned counts add up to the ones in the cells, and each write turns some.
fn check_demand_3(shape: &Shape, number_at: impl Fn(u64) -> u64, layouts: &mut Layouts) {
    let layout = layouts.grant(shape, 256).expect("a list that fits");
    let mut cells = vec![0; cells::byte_count(&layout)];
    assert_eq!(field::read(shape, &cells, layouts), Err(Refusal::Blank));
    let mut turned = 0;
    for j in 1..=shape.t {
        let number = number_at(j);
        let written = field::write(shape, number, &cells, layouts).expect("j is t at most");
        assert_eq!(written.generation as u64, j);
        assert!(written.turned > 0);
        turned += written.turned;
        cells = written.cells;
        let left = (shape.t - j) as usize;
        let read_back = field::read(shape, &cells, layouts);
        assert_eq!(read_back, reading(j as usize, number, left));
    }
    assert_eq!(turned, cells::ones(&cells));
    for j in shape.t + 1..shape.t + 3 {
        let refused = field::write(shape, number_at(j), &cells, layouts);
        assert_eq!(refused, Err(Refusal::LastGenerationUsed));
    }
}

#[test]
fn form_1_takes_t_numbers_whatever_they_are() {
    let mut layouts = Layouts::default();
    for m in 2..=4 {
        for t in 2..=16 {
            for v in [2, 13, 22, 46, 1_000, LARGEST_RANGE - 1, LARGEST_RANGE] {
                let shape = &shape(1, m, t, v);
                check_demand_3(shape, |_| 0, &mut layouts);
                check_demand_3(shape, |_| v - 1, &mut layouts);
                check_demand_3(shape, |j| (v - 1) / j, &mut layouts);
                check_demand_3(shape, |j| j % 2, &mut layouts);
            }
        }
    }
}
