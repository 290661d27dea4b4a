//! Cells for made calls: blank, written, damaged, and just beyond a reading.

use super::shapes::shape_of_cells;
use super::Maker;
use crate::cells;
use crate::field;
use crate::layout::{Layout, Shape, GROUPS_OFFERED};
use crate::refusal::Refusal;
use crate::whole::Whole;

impl Maker {
    /// Cells for a shape; a shape without a layout gets a few bytes.
    pub fn cells(&mut self, shape: &Shape) -> Vec<u8> {
        let shape = &shape_of_cells(shape);
        let layout = match self.layouts.grant(shape, GROUPS_OFFERED) {
            Ok(layout) => layout,
            Err(_) => {
                let count = self.chance.index(9);
                return self.chance.bytes(count);
            }
        };
        match self.chance.between(1, 100) {
            1..=8 => vec![0; cells::byte_count(&layout)],
            9..=11 => self.blank_cells_with_a_left_over_bit(&layout),
            12..=36 => self.written_cells(shape, &layout),
            37..=48 => self.patterned_cells(&layout),
            49..=62 => self.edge_cells(&layout),
            63..=68 => self.cells_one_wit_off(shape, &layout),
            69..=74 => self.cells_of_a_cut_off_write(shape, &layout),
            75..=86 => self.miscounted_cells(&layout),
            87..=91 => self.cells_with_wrong_bytes(shape, &layout),
            92..=96 => self.random_cells(&layout),
            _ => cells_of_one_value(&layout, layout.erased()),
        }
    }

    /// The range that decides about a number on these cells or, at times, another one of the
    /// list, so that it is told which one does.
    pub fn range_to_meet(&mut self, shape: &Shape, cells: &[u8]) -> u64 {
        let shape = &shape_of_cells(shape);
        match self.layouts.grant(shape, GROUPS_OFFERED) {
            Ok(layout) if !self.chance.one_in(3) => self.range_due(shape, &layout, cells),
            _ => self.any_range(shape),
        }
    }

    /// One of the list, and 2 where it is empty.
    pub fn any_range(&mut self, shape: &Shape) -> u64 {
        match &shape.ranges[..] {
            [] => 2,
            ranges => self.chance.pick(ranges),
        }
    }

    /// The range of the generation that would take a number. Where none would it is the longest
    /// one for cells that can't be read, and the last one for spent cells.
    pub fn range_due(&mut self, shape: &Shape, layout: &Layout, cells: &[u8]) -> u64 {
        if layout.has_one_range() {
            return layout.range(1);
        }
        let generations = layout.generations();
        let used = match field::read(shape, cells, &mut self.layouts) {
            Ok(reading) => generations - reading.left,
            Err(Refusal::Blank) => 0,
            Err(_) => return longest_range(layout),
        };
        layout.range(generations.min(used + 1))
    }

    /// A number for a write, in range or not.
    pub fn number_to_write(&mut self, range: u64) -> u64 {
        match self.chance.between(1, 20) {
            1..=4 => 0,
            5..=6 => range.saturating_sub(1),
            7 => range,
            8 => range.saturating_add(1),
            9 => self.chance.pick(&[1, 1 << 63, u64::MAX]),
            10 => self.chance.any(),
            _ => self.number_in_range(range),
        }
    }

    pub fn number_in_range(&mut self, range: u64) -> u64 {
        self.chance.between(0, range.saturating_sub(1))
    }

    /// Cells after some accepted writes from blank ones.
    pub fn written_cells(&mut self, shape: &Shape, layout: &Layout) -> Vec<u8> {
        let writes = 1 + self.chance.index(layout.generations());
        let mut cells = vec![0; cells::byte_count(layout)];
        for write in 1..=writes {
            let number = self.number_in_range(layout.range(write));
            if let Ok(written) = field::write(shape, number, &cells, &mut self.layouts) {
                cells = written.cells;
            }
        }
        cells
    }

    /// One field's cells before its first write and after each.
    pub fn cells_from_blank_to_spent(&mut self, shape: &Shape, layout: &Layout) -> Vec<Vec<u8>> {
        let mut cells = vec![0; cells::byte_count(layout)];
        let mut states = vec![cells.clone()];
        for generation in 1..=layout.generations() {
            // A 0 would leave blank cells of form 0 blank.
            let number = self.chance.between(1, layout.range(generation) - 1);
            if let Ok(written) = field::write(shape, number, &cells, &mut self.layouts) {
                cells = written.cells;
                states.push(cells.clone());
            }
        }
        states
    }

    /// A pattern of one generation by chance, so that its number may be out of
    /// range.
    fn patterned_cells(&mut self, layout: &Layout) -> Vec<u8> {
        let generation = 1 + self.chance.index(layout.generations());
        let erased = layout.groups() - layout.count(generation);
        let groups = self.groups_with_erased(layout, erased);
        let pattern = self.pattern(generation, layout);
        cells::bytes_of_groups(layout, &field::with_pattern(&groups, &pattern))
    }

    fn pattern(&mut self, generation: usize, layout: &Layout) -> Vec<u64> {
        let places = layout.count(generation);
        let (chosen, values) = match layout.deal(generation) {
            Some(deal) => {
                let written = deal.fewest + self.chance.index(deal.most - deal.fewest + 1);
                (self.chance.places(places, written), 1..=deal.base)
            }
            None => (vec![true; places], 0..=layout.erased() - 1),
        };
        let mut pattern = vec![0; places];
        for place in (0..places).filter(|place| chosen[*place]) {
            pattern[place] = self.chance.between(*values.start(), *values.end());
        }
        pattern
    }

    fn groups_with_erased(&mut self, layout: &Layout, erased: usize) -> Vec<u64> {
        let chosen = self.chance.places(layout.groups(), erased);
        let value = |is_erased: bool| u64::from(is_erased) * layout.erased();
        chosen.into_iter().map(value).collect()
    }

    /// Cells whose number is 0 or the last one in range, or not below the range.
    fn edge_cells(&mut self, layout: &Layout) -> Vec<u8> {
        if self.chance.one_in(2) {
            return self.cells_beyond(layout);
        }
        let generation = 1 + self.chance.index(layout.generations());
        let number = self.chance.pick(&[0, layout.range(generation) - 1]);
        self.cells_of_number(generation, layout, Whole::from(number))
    }

    /// The first number that is not below the range, or the last one the generation has
    /// a pattern for. Where its patterns are as many as the range, there is none.
    pub fn cells_beyond(&mut self, layout: &Layout) -> Vec<u8> {
        let generation = self.generation_to_meet(1, layout);
        let room = layout.room(generation, &mut self.layouts.counting);
        let number = match self.chance.one_in(2) {
            true => Whole::from(layout.range(generation)),
            false => room,
        };
        self.cells_of_number(generation, layout, number)
    }

    /// The first generation that may be taken, the last one, or any.
    pub fn generation_to_meet(&mut self, first: usize, layout: &Layout) -> usize {
        let last = layout.generations();
        match self.chance.index(3) {
            0 => first,
            1 => last,
            _ => first + self.chance.index(last - first + 1),
        }
    }

    /// The number, or the last one below it that the generation has a pattern for, on
    /// places by chance.
    fn cells_of_number(&mut self, generation: usize, layout: &Layout, number: Whole) -> Vec<u8> {
        let erased = layout.groups() - layout.count(generation);
        let groups = self.groups_with_erased(layout, erased);
        let counting = &mut self.layouts.counting;
        let room = layout.room(generation, counting);
        let last = room.minus(&Whole::from(1)).unwrap_or_else(Whole::zero);
        let pattern = field::pattern_for(generation, layout, &number.min(last), counting);
        let groups = field::with_pattern(&groups, &pattern.unwrap_or_default());
        cells::bytes_of_groups(layout, &groups)
    }

    fn cells_one_wit_off(&mut self, shape: &Shape, layout: &Layout) -> Vec<u8> {
        let mut cells = self.written_cells(shape, layout);
        let wit = self.chance.index(layout.wits());
        cells[wit / 8] ^= 0x80 >> (wit % 8);
        cells
    }

    /// A write of which some wits are turned: the first ones, the last ones, or any.
    pub fn cells_of_a_cut_off_write(&mut self, shape: &Shape, layout: &Layout) -> Vec<u8> {
        let before = self.written_cells(shape, layout);
        let range = self.range_due(shape, layout, &before);
        let number = self.number_in_range(range);
        let after = match field::write(shape, number, &before, &mut self.layouts) {
            Ok(written) => written.cells,
            Err(_) => return before,
        };
        let order = self.chance.index(3);
        let place = self.chance.index(layout.wits() + 1);
        let mut cells = before;
        for wit in 0..layout.wits() {
            let is_turned = match order {
                0 => wit < place,
                1 => wit >= place,
                _ => self.chance.one_in(2),
            };
            if is_turned {
                cells[wit / 8] |= after[wit / 8] & 0x80 >> (wit % 8);
            }
        }
        cells
    }

    /// As many zero groups as point to a generation from 2 on, and another count of
    /// unerased ones than it has: one off, all the others erased, or any.
    pub fn miscounted_cells(&mut self, layout: &Layout) -> Vec<u8> {
        let generation = self.generation_to_meet(2, layout);
        let due = layout.count(generation);
        let fewest = match generation == layout.generations() {
            true => 0,
            false => layout.count(generation + 1),
        };
        let zeros = fewest + self.chance.index(due - fewest);
        let unerased = match self.chance.index(4) {
            0 => due - 1,
            1 => due + 1,
            2 => zeros,
            _ => match zeros + self.chance.index(layout.groups() - zeros) {
                any if any < due => any,
                any => any + 1,
            },
        };
        let groups = self.groups_counted(layout, zeros, unerased);
        cells::bytes_of_groups(layout, &groups)
    }

    /// So many zero groups, and unerased ones with these, on places by chance.
    pub fn groups_counted(&mut self, layout: &Layout, zeros: usize, unerased: usize) -> Vec<u64> {
        let erased = layout.groups() - unerased;
        let groups = self.groups_with_erased(layout, erased);
        let written = self.chance.places(unerased, unerased - zeros);
        let values = written.iter().map(|is_written| match is_written {
            true => self.chance.between(1, layout.erased() - 1),
            false => 0,
        });
        let pattern: Vec<u64> = values.collect();
        field::with_pattern(&groups, &pattern)
    }

    pub fn cells_with_wrong_bytes(&mut self, shape: &Shape, layout: &Layout) -> Vec<u8> {
        let mut cells = self.written_cells(shape, layout);
        match self.chance.between(1, 10) {
            1..=2 => cells.push(0),
            3..=4 => cells.truncate(cells.len() - 1),
            5 => cells.clear(),
            6 => cells.extend(vec![0; 3]),
            _ => self.set_a_left_over_bit(layout, &mut cells),
        }
        cells
    }

    fn blank_cells_with_a_left_over_bit(&mut self, layout: &Layout) -> Vec<u8> {
        let mut cells = vec![0; cells::byte_count(layout)];
        self.set_a_left_over_bit(layout, &mut cells);
        cells
    }

    /// Where no bit is left over, a byte more stands for it.
    pub fn set_a_left_over_bit(&mut self, layout: &Layout, cells: &mut Vec<u8>) {
        let last = cells.len() - 1;
        match 8 * cells.len() - layout.wits() {
            0 => cells.push(1),
            left_over => cells[last] |= 1 << self.chance.index(left_over),
        }
    }

    fn random_cells(&mut self, layout: &Layout) -> Vec<u8> {
        let mut cells = self.chance.bytes(cells::byte_count(layout));
        // Half of the bytes sparse, for more zero groups.
        for byte in cells.iter_mut() {
            if self.chance.one_in(2) {
                *byte &= self.chance.any() as u8;
            }
        }
        let left_over = 8 * cells.len() - layout.wits();
        if let Some(last) = cells.last_mut() {
            *last = *last >> left_over << left_over;
        }
        cells
    }
}

fn cells_of_one_value(layout: &Layout, value: u64) -> Vec<u8> {
    cells::bytes_of_groups(layout, &vec![value; layout.groups()])
}

pub fn longest_range(layout: &Layout) -> u64 {
    let ranges = (1..=layout.generations()).map(|generation| layout.range(generation));
    ranges.max().unwrap_or(0)
}
