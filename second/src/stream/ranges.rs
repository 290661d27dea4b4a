//! Shapes of form 2 for made calls: ranges that fall, rise, are equal or go up and down,
//! extreme ones among them, and lists of more or fewer ranges than a form has.

use super::fields::longest_range;
use super::shapes::{BOUNDARY_NUMBERS, LARGEST_RANGE};
use super::Maker;
use crate::layout::{Layout, OldShape, Shape, GROUPS_OFFERED};

/// The drives' field, "later in life": four bits less at each generation.
const SHRINKING: [u64; 10] = [
    1 << 56,
    1 << 52,
    1 << 48,
    1 << 44,
    1 << 40,
    1 << 36,
    1 << 32,
    1 << 28,
    1 << 24,
    1 << 20,
];

impl Maker {
    pub fn shape_of_form_2(&mut self) -> Shape {
        match self.chance.between(1, 108) {
            1..=30 => self.shape_of_small_ranges(),
            31..=40 => Shape::of_ranges(2, &SHRINKING),
            41..=60 => self.shape_of_ranges_of_any_length(),
            61..=72 => self.shape_of_extreme_ranges(),
            73..=84 => self.shape_of_ranges_where_a_count_changes(),
            // "Equal ranges must equal form 1."
            85..=96 => equal_ranges(self.old_shape()),
            _ => self.shape_of_ranges_beyond_bounds(),
        }
    }

    pub fn shape_of_small_ranges(&mut self) -> Shape {
        let t = self.chance.between(2, 4);
        let ranges = (0..t).map(|_| self.chance.between(2, 40)).collect();
        self.shape_of_ordered(ranges)
    }

    fn shape_of_ranges_of_any_length(&mut self) -> Shape {
        let t = match self.chance.one_in(3) {
            true => self.chance.between(14, 16),
            false => self.chance.between(2, 16),
        };
        let ranges = (0..t).map(|_| self.chance.of_any_length(56).max(2));
        let ranges = ranges.collect();
        self.shape_of_ordered(ranges)
    }

    /// Falling, rising or as they are.
    fn shape_of_ordered(&mut self, ranges: Vec<u64>) -> Shape {
        let mut ranges = ranges;
        match self.chance.between(1, 10) {
            1..=4 => ranges.sort_unstable_by(|one, other| other.cmp(one)),
            5..=6 => ranges.sort_unstable(),
            _ => {}
        }
        Shape::of_ranges(self.chance.between(2, 4), &ranges)
    }

    /// One long range among the shortest makes the longest steps, and steps that grow from one
    /// generation to the one before it.
    fn shape_of_extreme_ranges(&mut self) -> Shape {
        let m = self.chance.between(2, 4);
        let t = self.chance.pick(&[2, 3, 3, 4, 5, 15, 16]);
        if self.chance.one_in(3) {
            let mut ranges = vec![2; t];
            ranges[self.chance.index(t)] = LARGEST_RANGE;
            return Shape::of_ranges(m, &ranges);
        }
        let range = |_| match self.chance.between(1, 8) {
            1..=3 => 2,
            4..=5 => LARGEST_RANGE,
            6 => LARGEST_RANGE - 1,
            _ => self.range_near_a_power(m),
        };
        let ranges: Vec<u64> = (0..t).map(range).collect();
        Shape::of_ranges(m, &ranges)
    }

    /// By condition d the last count changes there. Powers of 2 are where a program that
    /// counts bits might change it.
    fn range_near_a_power(&mut self, m: u64) -> u64 {
        let base: u64 = self.chance.pick(&[2, (1 << m) - 1]);
        let exponents = (1..).take_while(|exponent| base.pow(*exponent) <= LARGEST_RANGE);
        let power = base.pow(1 + self.chance.index(exponents.count()) as u32);
        let range = power + self.chance.between(0, 2) - 2;
        range.max(2)
    }

    fn shape_of_ranges_where_a_count_changes(&mut self) -> Shape {
        let mut shape = match self.chance.one_in(3) {
            true => self.shape_of_small_ranges(),
            false => self.shape_of_ranges_of_any_length(),
        };
        if let Some((generation, range)) = self.range_where_a_count_changes(&shape) {
            shape.ranges[generation - 1] = range;
        }
        shape
    }

    /// One number alone at a boundary or beyond.
    fn shape_of_ranges_beyond_bounds(&mut self) -> Shape {
        let mut shape = self.shape_of_small_ranges();
        match self.chance.between(1, 9) {
            1 => shape.m = self.chance.pick(&BOUNDARY_NUMBERS),
            2..=4 => {
                shape.t = match self.chance.one_in(2) {
                    true => self.chance.pick(&[0, 1, 17]),
                    false => self.chance.pick(&BOUNDARY_NUMBERS),
                };
                shape.ranges.resize(ranges_given(shape.t), 2);
            }
            place => {
                let last = shape.ranges.len() - 1;
                let place = match place {
                    5 => 0,
                    6 => last,
                    _ => self.chance.index(last + 1),
                };
                shape.ranges[place] = match self.chance.one_in(2) {
                    true => self.chance.pick(&[0, 1, LARGEST_RANGE + 1]),
                    false => self.chance.pick(&BOUNDARY_NUMBERS),
                };
            }
        }
        shape
    }

    /// Nothing is wrong but for the count: "a list not of t ranges is 1", and forms 0 and 1
    /// have one.
    pub fn shape_of_miscounted_ranges(&mut self) -> Shape {
        let mut shape = match self.chance.between(1, 4) {
            1 => self.small_shape().in_form(0),
            2 => self.small_shape().in_form(1),
            _ => self.shape_of_small_ranges(),
        };
        let due = shape.ranges_due() as usize;
        let counts = [shape.t as usize, 0, 1, 16, 17, 64];
        let wrong: Vec<usize> = counts.into_iter().filter(|count| *count != due).collect();
        let count = match self.chance.between(1, 6) {
            1..=2 => due - 1,
            3 => due + 1,
            _ => self.chance.pick(&wrong),
        };
        let further = self.chance.between(2, 40);
        shape.ranges.resize(count, further);
        shape
    }

    pub fn make_calls_with_miscounted_ranges(&mut self) {
        let shape = self.shape_of_miscounted_ranges();
        self.make_calls_with_a_fault(&shape);
    }

    /// Numbers on both sides of the range of the generation that takes them, and of the ranges
    /// before and behind it, on cells from blank to spent.
    pub fn make_writes_around_ranges(&mut self) {
        let shape = self.shape_of_form_2();
        let layout = match self.layouts.grant(&shape, GROUPS_OFFERED) {
            Ok(layout) => layout,
            Err(_) => return,
        };
        if self.chance.one_in(4) {
            return self.make_writes_on_unreadable_cells(&shape, &layout);
        }
        let writes = self.chance.index(layout.generations() + 1);
        let mut states = self.cells_from_blank_to_spent(&shape, &layout);
        let cells = states.swap_remove(writes);
        let ranges = shape.ranges.iter().skip(writes.saturating_sub(1));
        for range in ranges.take(3) {
            self.push_write(&shape, range - 1, &cells);
            self.push_write(&shape, *range, &cells);
        }
    }

    /// Numbers in range and out of range alike.
    fn make_writes_on_unreadable_cells(&mut self, shape: &Shape, layout: &Layout) {
        let cells = match self.chance.one_in(3) {
            true => self.miscounted_cells(layout),
            false => self.cells_beyond(layout),
        };
        for number in [0, longest_range(layout)] {
            self.push_write(shape, number, &cells);
        }
    }
}

/// Form 2 with the one range for each generation.
pub fn equal_ranges(shape: OldShape) -> Shape {
    let ranges = vec![shape.v; ranges_given(shape.t)];
    Shape {
        t: shape.t,
        ..Shape::of_ranges(shape.m, &ranges)
    }
}

/// As many as t says, unless it is far beyond its bounds.
pub fn ranges_given(t: u64) -> usize {
    t.min(20) as usize
}
