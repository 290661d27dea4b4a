//! Made calls that judge a field before and after: right writes, by every choice of spare
//! groups, and pairs of cells with which something is wrong.

use super::shapes::shape_of_cells;
use super::Maker;
use crate::cells;
use crate::field;
use crate::layout::{Layout, Shape, GROUPS_OFFERED};
use crate::protocol::{Call, JudgeCall};
use crate::whole::Whole;
use std::ops::RangeInclusive;

/// Cells before and after.
type Pair = (Vec<u8>, Vec<u8>);

impl Maker {
    pub fn judge_call(&mut self) -> Call {
        let shape = self.shape();
        let of_cells = &shape_of_cells(&shape);
        let (before, after) = match self.layouts.grant(of_cells, GROUPS_OFFERED) {
            Ok(layout) => self.pair(of_cells, &layout),
            Err(_) => (self.cells(of_cells), self.cells(of_cells)),
        };
        Call::Judge(JudgeCall {
            shape,
            before,
            after,
        })
    }

    fn pair(&mut self, shape: &Shape, layout: &Layout) -> Pair {
        let (before, after) = self.right_write(shape, layout);
        match self.chance.between(1, 40) {
            1..=14 => (before, after),
            15..=19 => self.two_states(layout),
            20..=24 => self.pair_with_a_used_place(layout),
            25..=26 => (after, before),
            27 => (vec![0; before.len()], vec![0; before.len()]),
            28..=29 => (self.spent_cells(layout), self.cells(shape)),
            30 => (
                self.spent_cells(layout),
                self.cells_to_refuse_in_a_pair(shape, layout),
            ),
            31..=32 => (self.cells(shape), after),
            33..=34 => (self.cells_to_refuse_in_a_pair(shape, layout), after),
            35..=36 => (before, self.cells(shape)),
            37 => (before, self.cells_to_refuse_in_a_pair(shape, layout)),
            _ => (
                self.cells_to_refuse_in_a_pair(shape, layout),
                self.cells_to_refuse_in_a_pair(shape, layout),
            ),
        }
    }

    /// With each of the refusals that a field may have for itself. Blank before cells have
    /// none.
    pub fn cells_to_refuse_in_a_pair(&mut self, shape: &Shape, layout: &Layout) -> Vec<u8> {
        match self.chance.between(1, 8) {
            1 => vec![0; cells::byte_count(layout)],
            2..=4 => self.cells_with_wrong_bytes(shape, layout),
            5..=6 => self.miscounted_cells(layout),
            _ => self.cells_beyond(layout),
        }
    }

    /// A write by the rule of document 01, or by any choice of spare groups.
    fn right_write(&mut self, shape: &Shape, layout: &Layout) -> Pair {
        let last = layout.generations();
        let generation = match self.chance.between(1, 6) {
            1 => 1,
            2 => last,
            _ => 2 + self.chance.index(last - 1),
        };
        let before = self.groups_written(generation - 1, layout);
        let number = self.number_to_judge(layout.range(generation));
        let cells = cells::bytes_of_groups(layout, &before);
        if self.chance.one_in(3) {
            let written = field::write(shape, number, &cells, &mut self.layouts);
            let written = written.expect("the number is in range and the cells are not spent");
            return (cells, written.cells);
        }
        let after = self.written_by_any_choice(generation, layout, &before, number);
        (cells, cells::bytes_of_groups(layout, &after))
    }

    fn number_to_judge(&mut self, range: u64) -> u64 {
        match self.chance.between(1, 6) {
            1 => 0,
            2 => range - 1,
            _ => self.number_in_range(range),
        }
    }

    /// Groups after so many writes from blank ones.
    fn groups_written(&mut self, writes: usize, layout: &Layout) -> Vec<u64> {
        self.written_further(1..=writes, layout, vec![0; layout.groups()])
    }

    /// A write for each of the generations, by a choice of its own.
    fn written_further(
        &mut self,
        generations: RangeInclusive<usize>,
        layout: &Layout,
        groups: Vec<u64>,
    ) -> Vec<u64> {
        generations.fold(groups, |groups, generation| {
            let number = self.number_to_follow(layout.range(generation));
            self.written_by_any_choice(generation, layout, &groups, number)
        })
    }

    /// Large numbers write so many places that none is spare at the next generation. A 0
    /// would leave blank cells of form 0 blank.
    fn number_to_follow(&mut self, range: u64) -> u64 {
        match self.chance.one_in(3) {
            true => self.number_in_range(range).max(1),
            false => (self.chance.of_any_length(56) % range).max(1),
        }
    }

    /// Of the zero groups as many as the generation has, by chance, are its places.
    fn written_by_any_choice(
        &mut self,
        generation: usize,
        layout: &Layout,
        before: &[u64],
        number: u64,
    ) -> Vec<u64> {
        let zeros = before.iter().filter(|group| **group == 0).count();
        let places = self.chance.places(zeros, layout.count(generation));
        let mut is_place = places.into_iter();
        let prepared = before.iter().map(|group| match group {
            0 if is_place.next() == Some(true) => 0,
            _ => layout.erased(),
        });
        let prepared: Vec<u64> = prepared.collect();
        let counting = &mut self.layouts.counting;
        let pattern = field::pattern_for(generation, layout, &Whole::from(number), counting);
        field::with_pattern(&prepared, &pattern.expect("the number is in range"))
    }

    pub fn spent_cells(&mut self, layout: &Layout) -> Vec<u8> {
        let groups = self.groups_written(layout.generations(), layout);
        cells::bytes_of_groups(layout, &groups)
    }

    /// Of one field, before and after any number of writes.
    fn two_states(&mut self, layout: &Layout) -> Pair {
        let last = layout.generations();
        let earlier = self.chance.index(last + 1);
        let later = earlier + self.chance.index(last + 1 - earlier);
        let before = self.groups_written(earlier, layout);
        let after = self.written_further(earlier + 1..=later, layout, before.clone());
        in_bytes(layout, [before, after])
    }

    /// A right write but that a group which was nonzero before is a place, and one of the
    /// places is erased in its stead.
    fn pair_with_a_used_place(&mut self, layout: &Layout) -> Pair {
        let generation = self.generation_to_meet(2, layout);
        let before = self.groups_written(generation - 1, layout);
        let number = self.number_to_judge(layout.range(generation));
        let mut after = self.written_by_any_choice(generation, layout, &before, number);
        match self.chance.one_in(2) {
            true => self.keep_a_group(layout.erased(), &before, &mut after),
            false => self.use_a_group_again(layout.erased(), &before, &mut after),
        }
        in_bytes(layout, [before, after])
    }

    /// The group has the value that it had, so that no 1 became 0.
    fn keep_a_group(&mut self, erased: u64, before: &[u64], after: &mut [u64]) {
        let is_written = |group: u64| group != 0 && group != erased;
        let kept = self.place_where(before, is_written);
        let place = self.place_where(after, is_written);
        if let (Some(kept), Some(place)) = (kept, place) {
            after[kept] = before[kept];
            after[place] = erased;
        }
    }

    /// The group has the value of the place.
    fn use_a_group_again(&mut self, erased: u64, before: &[u64], after: &mut [u64]) {
        let used = self.place_where(before, |group| group != 0);
        let place = self.place_where(after, |group| group != erased);
        if let (Some(used), Some(place)) = (used, place) {
            after[used] = after[place];
            after[place] = erased;
        }
    }

    /// One of the groups that meet a condition, if any does.
    fn place_where(&mut self, groups: &[u64], meets: impl Fn(u64) -> bool) -> Option<usize> {
        let places = 0..groups.len();
        let meeting: Vec<usize> = places.filter(|place| meets(groups[*place])).collect();
        match meeting.is_empty() {
            true => None,
            false => Some(self.chance.pick(&meeting)),
        }
    }
}

fn in_bytes(layout: &Layout, states: [Vec<u64>; 2]) -> Pair {
    let [before, after] = states.map(|groups| cells::bytes_of_groups(layout, &groups));
    (before, after)
}
