//! Made calls on two fields as one: every state of the one beside every state of the other,
//! fields that are refused on either side, and chains from blank to past the last write.

use super::shapes::BOUNDARY_NUMBERS;
use super::Maker;
use crate::cells;
use crate::layout::{OldShape, Shape, GROUPS_OFFERED};
use crate::pairs::{self, PairShape};
use crate::protocol::{Call, PairCall};

/// What the cells of a field are to be.
#[derive(Clone, Copy)]
enum State {
    Blank,
    Used,
    Spent,
    Refused,
    Any,
}

impl Maker {
    pub fn pair_call(&mut self) -> Call {
        let pair = self.pair_shape();
        let cells = [
            self.cells_of_the_first(&pair),
            self.cells_of_the_second(&pair),
        ];
        let number = match self.chance.between(1, 12) {
            1..=4 => None,
            5..=6 => Some(self.chance.pick(&[pair.v[0], u64::MAX])),
            _ => Some(self.number_to_write(pair.v[0])),
        };
        Call::Pair(PairCall {
            pair,
            number,
            cells,
        })
    }

    /// Mostly within bounds and of equal ranges, with as many generations in both or not.
    fn pair_shape(&mut self) -> PairShape {
        let OldShape { m, t, v } = self.old_shape();
        let form = match self.chance.between(1, 30) {
            1 => 2,
            2 => self.form_beyond(),
            place => place % 2,
        };
        let first = match self.chance.between(1, 16) {
            1 => self.chance.pick(&[0, 1, 17]),
            _ => t,
        };
        let second = match self.chance.between(1, 16) {
            1 => self.chance.pick(&[0, 1, 17]),
            2 => self.chance.pick(&BOUNDARY_NUMBERS),
            3..=7 => t,
            8..=9 => self.chance.between(2, 16),
            _ => self.chance.between(2, 4),
        };
        let range = match self.chance.between(1, 24) {
            1 => v.saturating_add(1),
            2 => v.saturating_sub(1),
            3 => self.chance.pick(&BOUNDARY_NUMBERS),
            _ => v,
        };
        PairShape {
            form,
            m,
            t: [first, second],
            v: [v, range],
        }
    }

    /// Spent more often than the second, whose turn it is then.
    fn cells_of_the_first(&mut self, pair: &PairShape) -> Vec<u8> {
        let state = match self.chance.between(1, 20) {
            1..=2 => State::Blank,
            3..=7 => State::Used,
            8..=13 => State::Spent,
            14..=18 => State::Refused,
            _ => State::Any,
        };
        self.cells_in(state, &shape_of_side(pair, 0))
    }

    fn cells_of_the_second(&mut self, pair: &PairShape) -> Vec<u8> {
        let state = match self.chance.between(1, 20) {
            1..=4 => State::Blank,
            5..=9 => State::Used,
            10..=12 => State::Spent,
            13..=18 => State::Refused,
            _ => State::Any,
        };
        self.cells_in(state, &shape_of_side(pair, 1))
    }

    fn cells_in(&mut self, state: State, shape: &Shape) -> Vec<u8> {
        let layout = match self.layouts.grant(shape, GROUPS_OFFERED) {
            Ok(layout) => layout,
            Err(_) => return self.cells(shape),
        };
        match state {
            State::Blank => vec![0; cells::byte_count(&layout)],
            State::Used => self.written_cells(shape, &layout),
            State::Spent => self.spent_cells(&layout),
            State::Refused => self.cells_to_refuse_in_a_pair(shape, &layout),
            State::Any => self.cells(shape),
        }
    }

    /// Writes from blank cells until both are spent and past that, each to the cells that
    /// the one before left, with reads in between.
    pub fn make_pair_chain(&mut self) {
        let OldShape { m, t, v } = self.old_shape();
        let pair = PairShape {
            form: self.chance.between(0, 1),
            m,
            t: [t, self.chance.between(2, 4)],
            v: [v; 2],
        };
        let mut cells = [0, 1].map(|field| self.cells_in(State::Blank, &pair.shape(field)));
        for _ in 0..t.min(16) + pair.t[1] + 2 {
            let number = match self.chance.one_in(8) {
                true => self.number_to_write(v),
                false => self.number_in_range(v),
            };
            if self.chance.one_in(3) {
                self.push_pair(&pair, None, &cells);
            }
            self.push_pair(&pair, Some(number), &cells);
            let lent = [&cells[0][..], &cells[1]];
            if let Ok(told) = pairs::write(&pair, number, lent, &mut self.layouts) {
                cells[told.field] = told.written.cells;
            }
        }
    }

    fn push_pair(&mut self, pair: &PairShape, number: Option<u64>, cells: &[Vec<u8>; 2]) {
        self.waiting.push_back(Call::Pair(PairCall {
            pair: *pair,
            number,
            cells: cells.clone(),
        }));
    }
}

/// With a form that has cells, so that a form which no pair has decides alone.
fn shape_of_side(pair: &PairShape, field: usize) -> Shape {
    let form = pair.form.min(1);
    PairShape { form, ..*pair }.shape(field)
}
