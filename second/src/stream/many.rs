//! Made calls of many numbers: good ones, ones that stop at a field, and ones that are
//! refused before any write.

use super::fields::longest_range;
use super::ranges::equal_ranges;
use super::shapes::{shape_of_cells, PUBLISHED};
use super::Maker;
use crate::cells;
use crate::layout::{Layout, OldShape, Shape, GROUPS_OFFERED};
use crate::many::MOST_NUMBERS;
use crate::protocol::{Call, ManyCall};

impl Maker {
    pub fn many_call(&mut self) -> Call {
        Call::Many(match self.chance.between(1, 26) {
            1..=7 => self.good_fields(),
            8..=20 => self.fields_with_faults(),
            21..=22 => self.fields_of_a_wrong_length(),
            23 => self.fields_of_another_layout(),
            24 => self.cells_without_numbers(),
            _ => self.too_many_fields(),
        })
    }

    fn good_fields(&mut self) -> ManyCall {
        let shape = self.shape();
        let count = self.field_count();
        self.fields_to_write(shape, count)
    }

    /// Few mostly; at times as many as a call may have.
    fn field_count(&mut self) -> usize {
        match self.chance.between(1, 20) {
            1 => 0,
            2 => MOST_NUMBERS - 1,
            3 => MOST_NUMBERS,
            4 => self.chance.index(MOST_NUMBERS + 1),
            5..=7 => 1,
            _ => 2 + self.chance.index(5),
        }
    }

    /// Fields from blank to one write before their last, the latter more often than
    /// others, and numbers in range. A shape without a layout gets a byte for each
    /// number.
    fn fields_to_write(&mut self, shape: Shape, count: usize) -> ManyCall {
        let of_cells = &shape_of_cells(&shape);
        let (mut numbers, mut cells) = (Vec::new(), Vec::new());
        if let Ok(layout) = self.layouts.grant(of_cells, GROUPS_OFFERED) {
            let states = self.cells_from_blank_to_spent(of_cells, &layout);
            let spent = layout.generations();
            for _ in 0..count {
                let writes = match self.chance.one_in(5) {
                    true => spent - 1,
                    false => self.chance.index(spent),
                };
                numbers.push(self.number_in_range(layout.range(writes + 1)));
                cells.extend(&states[writes]);
            }
        } else {
            let range = self.any_range(of_cells);
            numbers.extend((0..count).map(|_| self.number_in_range(range)));
            cells = self.chance.bytes(count);
        }
        ManyCall {
            shape,
            numbers,
            cells,
        }
    }

    /// The first of the faults decides, wherever the others are.
    fn fields_with_faults(&mut self) -> ManyCall {
        let shape = self.shape();
        let count = MOST_NUMBERS.min(1 + self.field_count());
        let mut call = self.fields_to_write(shape, count);
        for _ in 0..self.chance.between(1, 2) {
            let place = match self.chance.between(1, 5) {
                1 => 0,
                2..=3 => count - 1,
                _ => self.chance.index(count),
            };
            self.damage_field(place, &mut call);
        }
        call
    }

    /// A number out of range, cells that can't be written, or both, so that their order
    /// decides.
    fn damage_field(&mut self, place: usize, call: &mut ManyCall) {
        let shape = &shape_of_cells(&call.shape);
        let layout = match self.layouts.grant(shape, GROUPS_OFFERED) {
            Ok(layout) => layout,
            Err(_) => return,
        };
        let length = cells::byte_count(&layout);
        let field = &mut call.cells[place * length..(place + 1) * length];
        // In form 2 they are both wrong more often: there the cells are refused first.
        let fault = match layout.has_one_range() {
            true => self.chance.between(1, 8),
            false => self.chance.between(0, 5),
        };
        if fault >= 2 {
            field.copy_from_slice(&self.cells_to_refuse(shape, &layout));
        }
        if fault <= 3 {
            let due = self.range_due(shape, &layout, field);
            let longest = longest_range(&layout);
            call.numbers[place] = self.chance.pick(&[due, due + 1, longest, u64::MAX]);
        }
    }

    /// As long as the field, and spent, with a left-over bit, or unreadable.
    fn cells_to_refuse(&mut self, shape: &Shape, layout: &Layout) -> Vec<u8> {
        let mut states = self.cells_from_blank_to_spent(shape, layout);
        let has_left_over_bits = layout.wits() % 8 != 0;
        match self.chance.between(1, 10) {
            1..=2 => states.swap_remove(layout.generations()),
            3..=5 if has_left_over_bits => {
                let mut cells = states.swap_remove(self.chance.index(states.len()));
                self.set_a_left_over_bit(layout, &mut cells);
                cells
            }
            6..=7 => self.cells_beyond(layout),
            _ => self.miscounted_cells(layout),
        }
    }

    /// By a byte or by a field, or the cells of one field for all numbers.
    fn fields_of_a_wrong_length(&mut self) -> ManyCall {
        let shape = self.shape();
        let count = self.field_count().max(1);
        let mut call = self.fields_to_write(shape, count);
        match self.chance.between(1, 7) {
            1 => call.cells.push(0),
            2 => call.cells.truncate(call.cells.len() - 1),
            3 => call.cells.clear(),
            4..=5 => call.numbers.truncate(count - 1),
            6 => call.numbers.push(0),
            _ => call.cells.truncate(call.cells.len() / count),
        }
        call
    }

    /// Of another form, whose cells are mostly as long, or of any other shape.
    fn fields_of_another_layout(&mut self) -> ManyCall {
        let mut call = self.good_fields();
        call.shape = match self.chance.one_in(2) {
            true => self.in_another_form(&call.shape),
            false => self.shape(),
        };
        call
    }

    /// Form 2 with ranges that are equal to the one there was, and back with any of them.
    fn in_another_form(&mut self, shape: &Shape) -> Shape {
        let Shape { m, t, .. } = *shape;
        let v = self.any_range(shape);
        let of_one_range = OldShape { m, t, v };
        match (shape.form, self.chance.index(2)) {
            (0, 0) => of_one_range.in_form(1),
            (0 | 1, 1) => equal_ranges(of_one_range),
            (1, _) => of_one_range.in_form(0),
            (_, form) => of_one_range.in_form(form as u64),
        }
    }

    fn cells_without_numbers(&mut self) -> ManyCall {
        let shape = self.shape();
        ManyCall {
            cells: self.cells(&shape),
            numbers: Vec::new(),
            shape,
        }
    }

    /// One number too many or more. Mostly nothing else is wrong; at times the shape
    /// is, or the fields are as many as a call may have.
    fn too_many_fields(&mut self) -> ManyCall {
        let shape = match self.chance.between(1, 8) {
            1..=2 => self.shape_beyond_bounds(),
            3 => PUBLISHED,
            _ => self.small_shape(),
        };
        let shape = match self.chance.between(0, 2) {
            2 => equal_ranges(shape),
            form => shape.in_form(form),
        };
        let past = MOST_NUMBERS + 1;
        let count = self.chance.pick(&[past, past, past + 1, 2 * MOST_NUMBERS]);
        let mut call = self.fields_to_write(shape, count);
        if self.chance.one_in(4) {
            call.cells.truncate(call.cells.len() / count * MOST_NUMBERS);
        }
        call
    }
}
