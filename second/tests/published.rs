//! What the paper 003 says of the lists: Example 1, Table I, Proposition 1 and
//! Theorem 2.

use second::counting::Counting;
use second::layout::{Layout, Layouts, OldShape, Shape};
use second::values;
use second::whole::Whole;

/// Table I: t, wits, and the rate in hundredths, rounded.
const TABLE: [(u64, usize, usize); 9] = [
    (2, 98, 114),
    (3, 124, 135),
    (4, 150, 149),
    (5, 172, 163),
    (6, 196, 171),
    (7, 216, 181),
    (8, 238, 188),
    (9, 258, 195),
    (10, 278, 201),
];

const EXAMPLE: [usize; 10] = [139, 130, 120, 110, 99, 88, 76, 64, 51, 36];

fn granted(m: u64, t: u64, v: u64, layouts: &mut Layouts) -> Layout {
    let layout = layouts.grant(&OldShape { m, t, v }.in_form_0(), 256);
    layout.expect("the shape is within bounds and fits in 256 groups")
}

#[test]
fn table_i_has_these_wits_and_rates() {
    let layouts = &mut Layouts::default();
    for (t, wits, rate) in TABLE {
        let layout = granted(2, t, 1 << 56, layouts);
        assert_eq!(layout.wits(), wits);
        assert_eq!((100 * 56 * t as usize + wits / 2) / wits, rate);
    }
}

#[test]
fn more_generations_leave_the_counts_of_example_1_as_they_are() {
    let layouts = &mut Layouts::default();
    assert_eq!(granted(2, 10, 1 << 56, layouts).counts(), EXAMPLE);
    for t in 11..=16 {
        let layout = granted(2, t, 1 << 56, layouts);
        let first_nine_numbers = &layout.counts()[t as usize - 9..];
        assert_eq!(first_nine_numbers, &EXAMPLE[1..]);
    }
}

#[test]
fn proposition_1_increments_never_grow_towards_the_first_count() {
    let layouts = &mut Layouts::default();
    for m in 2..=4 {
        for bits in 1..=56 {
            let layout = granted(m, 16, 1 << bits, layouts);
            let counts = layout.counts().windows(2);
            let increments: Vec<usize> = counts.map(|pair| pair[0] - pair[1]).collect();
            assert!(increments.windows(2).all(|pair| pair[0] <= pair[1]));
        }
    }
}

/// 003's equations (16) to (18) with v_1 = .. = v_t = v.
fn lower_bound(t: u64, v: u64, counting: &mut Counting) -> usize {
    let mut bound = 0;
    for _ in 0..t {
        let mut more = 0;
        while counting.patterns_over(bound + more, 0..more + 1, 1) < Whole::from(v) {
            more += 1;
        }
        bound += more;
    }
    bound
}

#[test]
fn theorem_2_first_count_within_the_bound_of_rivest_and_shamir() {
    let layouts = &mut Layouts::default();
    let mut counting = Counting::default();
    for v in [2, 3, 4, 20, 242, 243, 1 << 32, (1 << 56) - 1, 1 << 56] {
        for t in 2..=16 {
            let bound = lower_bound(t, v, &mut counting);
            assert!(granted(2, t, v, layouts).groups() <= bound);
        }
    }
}

#[test]
fn condition_d_decides_where_equation_6_comes_close_to_a_power() {
    let layouts = &mut Layouts::default();
    let last = |v: u64, layouts: &mut Layouts| granted(2, 2, v, layouts).count(2);
    assert_eq!(last(241, layouts), 5);
    assert_eq!(last(242, layouts), 5);
    assert_eq!(last(243, layouts), 6);
}

/// So refusal 2 can only come from the layout call, which offers fewer.
#[test]
fn every_shape_within_bounds_fits_in_256_groups() {
    let layouts = &mut Layouts::default();
    let (t, v) = (16, 1 << 56);
    for m in 2..=4 {
        let of_one_range = OldShape { m, t, v };
        // "Each count only grows with each range."
        let longest = Shape::of_ranges(m, &[v; 16]);
        for shape in [of_one_range.in_form(0), of_one_range.in_form(1), longest] {
            assert!(layouts.grant(&shape, 256).is_ok());
        }
    }
}

#[test]
fn the_printed_figures() {
    let printed = values::figures(&mut Layouts::default());
    let lines: Vec<&str> = printed.lines().collect();
    let example = "2 10 72057594037927936: 139 130 120 110 99 88 76 64 51 36, 278";
    assert_eq!(lines.len(), 11);
    assert_eq!(lines[0], example);
    assert_eq!(lines[1], "2 2 72057594037927936: 49 36, 98");
    assert_eq!(lines[9], example);
    assert_eq!(lines[10], "3 2 72057594037927936: 31 20, 93");
}
