//! Made calls that resume a write: cells of writes that were cut off, cells with zero groups
//! around the counts of a list, and cells that have a reading or are blank.

use super::fields::longest_range;
use super::shapes::shape_of_cells;
use super::Maker;
use crate::cells;
use crate::layout::{Layout, Shape, GROUPS_OFFERED};
use crate::protocol::{Call, ResumeCall};
use crate::resuming;

impl Maker {
    pub fn resume_call(&mut self) -> Call {
        let shape = self.shape();
        let of_cells = &shape_of_cells(&shape);
        let (number, cells) = match self.layouts.grant(of_cells, GROUPS_OFFERED) {
            Ok(layout) => {
                let cells = self.cells_to_resume(of_cells, &layout);
                (self.number_to_resume(&layout, &cells), cells)
            }
            Err(_) => (self.chance.between(0, 3), self.cells(of_cells)),
        };
        Call::Resume(ResumeCall {
            shape,
            number,
            cells,
        })
    }

    fn cells_to_resume(&mut self, shape: &Shape, layout: &Layout) -> Vec<u8> {
        match self.chance.between(1, 40) {
            1..=12 => self.cells_of_a_cut_off_write(shape, layout),
            13..=25 => self.cells_around_a_count(layout),
            26..=30 => self.cells_beyond(layout),
            31..=32 => vec![0; cells::byte_count(layout)],
            33..=35 => self.written_cells(shape, layout),
            36..=37 => self.cells_with_wrong_bytes(shape, layout),
            _ => self.cells(shape),
        }
    }

    /// As many zero groups as a generation from 2 on has, one more or one fewer, and the
    /// others erased, all of them or all but one, or any.
    fn cells_around_a_count(&mut self, layout: &Layout) -> Vec<u8> {
        let generation = self.generation_to_meet(2, layout);
        let zeros = layout.count(generation) + 1 - self.chance.index(3);
        let others = layout.groups() - zeros;
        let unerased = zeros
            + match self.chance.index(4) {
                0 => 0,
                1 => others.min(1),
                _ => self.chance.index(others + 1),
            };
        let groups = self.groups_counted(layout, zeros, unerased);
        cells::bytes_of_groups(layout, &groups)
    }

    /// Mostly within the range of the generation that would take it; at times at that range
    /// or at another one of the list.
    fn number_to_resume(&mut self, layout: &Layout, cells: &[u8]) -> u64 {
        let due = self.range_to_resume(layout, cells);
        let generation = 1 + self.chance.index(layout.generations());
        let other = layout.range(generation);
        match self.chance.between(1, 22) {
            1 => due,
            2..=4 => self.chance.pick(&[due + 1, 1 << 63, u64::MAX]),
            5 => other - 1,
            6 => other,
            7 => longest_range(layout),
            8..=9 => due - 1,
            10..=11 => 0,
            _ => self.number_in_range(due),
        }
    }

    /// The longest one where no generation would take a number.
    fn range_to_resume(&mut self, layout: &Layout, cells: &[u8]) -> u64 {
        let groups = cells::groups_of(layout, cells).unwrap_or_default();
        match resuming::generation_left(layout, &groups) {
            Some(generation) => layout.range(generation),
            None => longest_range(layout),
        }
    }
}
