//! Forms, m, t, v and g for made calls: within their bounds, at them and beyond.

use super::Maker;
use crate::layout::{OldShape, Shape, GENERATION_BOUNDS, GROUPS_OFFERED};

pub const LARGEST_RANGE: u64 = 1 << 56;

/// "278 wits", the field of 003's Example 1.
pub const PUBLISHED: OldShape = OldShape {
    m: 2,
    t: 10,
    v: LARGEST_RANGE,
};

/// Bounds, their neighbours, and numbers that fall within the bounds if only
/// their low 8, 16 or 32 bits are looked at.
pub const BOUNDARY_NUMBERS: [u64; 26] = [
    0,
    1,
    2,
    3,
    4,
    5,
    14,
    15,
    16,
    17,
    18,
    255,
    256,
    257,
    258,
    (1 << 16) + 3,
    (1 << 32) + 2,
    (1 << 32) + 16,
    LARGEST_RANGE - 1,
    LARGEST_RANGE,
    LARGEST_RANGE + 1,
    (1 << 63) - 1,
    1 << 63,
    (1 << 63) + 2,
    u64::MAX - 1,
    u64::MAX,
];

/// Some are 0, 1 or 2 if only their low 8 or 32 bits are looked at.
const FORMS_BEYOND: [u64; 11] = [
    3,
    4,
    255,
    256,
    257,
    258,
    1 << 32,
    (1 << 32) + 1,
    (1 << 32) + 2,
    1 << 63,
    u64::MAX,
];

impl Maker {
    pub fn shape(&mut self) -> Shape {
        match self.chance.between(1, 30) {
            1..=8 => self.old_shape().in_form(0),
            9..=19 => self.old_shape().in_form(1),
            20 => {
                let form = self.form_beyond();
                match self.chance.one_in(3) {
                    true => Shape {
                        form,
                        ..self.shape_of_form_2()
                    },
                    false => self.old_shape().in_form(form),
                }
            }
            21 => self.shape_of_miscounted_ranges(),
            _ => self.shape_of_form_2(),
        }
    }

    pub fn form_beyond(&mut self) -> u64 {
        self.chance.pick(&FORMS_BEYOND)
    }

    pub fn old_shape(&mut self) -> OldShape {
        match self.chance.between(1, 104) {
            1..=36 => self.small_shape(),
            37..=56 => PUBLISHED,
            57..=70 => self.shape_within_bounds(),
            71..=82 => self.shape_where_a_count_changes(),
            83..=92 => self.corner_shape(),
            93..=96 => self.chance.pick(&self.exact_sums),
            _ => self.shape_beyond_bounds(),
        }
    }

    pub fn small_shape(&mut self) -> OldShape {
        OldShape {
            m: self.chance.between(2, 4),
            t: self.chance.between(2, 4),
            v: self.chance.between(2, 40),
        }
    }

    fn shape_within_bounds(&mut self) -> OldShape {
        OldShape {
            m: self.chance.between(2, 4),
            t: self.chance.between(2, 16),
            v: self.chance.of_any_length(56).max(2),
        }
    }

    fn corner_shape(&mut self) -> OldShape {
        let ranges = [2, 3, LARGEST_RANGE - 1, LARGEST_RANGE, LARGEST_RANGE + 1];
        OldShape {
            m: self.chance.between(2, 4),
            t: self.chance.pick(&[2, 3, 15, 16]),
            v: self.chance.pick(&ranges),
        }
    }

    /// A generation has room for so many numbers and no more; with a range just
    /// above that its count has to grow.
    fn shape_where_a_count_changes(&mut self) -> OldShape {
        let shape = self.shape_within_bounds();
        match self.range_where_a_count_changes(&shape.in_form_0()) {
            Some((_, v)) => OldShape { v, ..shape },
            None => shape,
        }
    }

    /// A generation of the layout, and as many numbers as it has patterns for, one fewer or
    /// one more.
    pub fn range_where_a_count_changes(&mut self, shape: &Shape) -> Option<(usize, u64)> {
        let layout = self.layouts.grant(shape, GROUPS_OFFERED).ok()?;
        let generation = 1 + self.chance.index(layout.generations());
        let room = layout.room(generation, &mut self.layouts.counting);
        let room = room.to_u64().unwrap_or(LARGEST_RANGE);
        let range = self.chance.pick(&[room - 1, room, room.saturating_add(1)]);
        Some((generation, range))
    }

    /// Mostly one number alone at a boundary or beyond, so that it decides.
    pub fn shape_beyond_bounds(&mut self) -> OldShape {
        let mut shape = self.small_shape();
        let alone = self.chance.index(3);
        let numbers = [&mut shape.m, &mut shape.t, &mut shape.v];
        for (place, number) in numbers.into_iter().enumerate() {
            if place == alone || self.chance.one_in(8) {
                *number = self.chance.pick(&BOUNDARY_NUMBERS);
            }
        }
        shape
    }

    /// Groups offered to a layout of this shape.
    pub fn offered(&mut self, shape: &Shape) -> u64 {
        let needed = match self.layouts.grant(shape, GROUPS_OFFERED) {
            Ok(layout) => layout.groups() as u64,
            Err(_) => GROUPS_OFFERED,
        };
        match self.chance.between(1, 10) {
            1..=2 => needed - 1,
            3..=4 => needed,
            5 => needed + 1,
            6 => self.chance.between(0, GROUPS_OFFERED),
            7 => self.chance.pick(&BOUNDARY_NUMBERS),
            8 => self.chance.pick(&[0, 255, 257, u64::MAX]),
            _ => GROUPS_OFFERED,
        }
    }
}

/// Where the form or the count of ranges alone is at fault, a shape that has cells, so that
/// the fault decides.
pub fn shape_of_cells(shape: &Shape) -> Shape {
    let mut of_cells = shape.clone();
    of_cells.form = match (shape.form, shape.ranges.len()) {
        (0..=2, _) => shape.form,
        (_, 1) => 1,
        _ => 2,
    };
    if GENERATION_BOUNDS.contains(&shape.t) {
        let last = shape.ranges.last().copied().unwrap_or(2);
        let due = of_cells.ranges_due() as usize;
        of_cells.ranges.resize(due, last);
    }
    of_cells
}
