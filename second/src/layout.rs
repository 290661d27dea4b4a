//! "Layout": the bounds, conditions a to d, and the least list that meets them, in
//! form 0, in form 1 of document 02's "A new drive is not a zero" and in form 2 of its
//! "Ranges that shrink".

use crate::counting::Counting;
use crate::dealing::Deal;
use crate::refusal::Refusal;
use crate::whole::Whole;
use std::collections::HashMap;
use std::ops::RangeInclusive;

/// "A form above 1 is refusal 1", and §7 adds form 2.
const FORM_BOUNDS: RangeInclusive<u64> = 0..=2;
const GROUP_BOUNDS: RangeInclusive<u64> = 2..=4;
pub const GENERATION_BOUNDS: RangeInclusive<u64> = 2..=16;
const RANGE_BOUNDS: RangeInclusive<u64> = 2..=1 << 56;
const OFFERED_BOUNDS: RangeInclusive<u64> = 0..=256;

/// "Read, write and export ask for their layout with g = 256."
pub const GROUPS_OFFERED: u64 = 256;

/// "Take a list of t ranges .. with form 2." All others have one range, those that are
/// no form too.
pub fn has_t_ranges(form: u64) -> bool {
    form == 2
}

/// The form, m, t and ranges as they are asked for, within their bounds or not.
#[derive(Clone, Debug, PartialEq, Eq, Hash)]
pub struct Shape {
    pub form: u64,
    pub m: u64,
    pub t: u64,
    /// v_1 .. v_t in form 2, else v alone.
    pub ranges: Vec<u64>,
}

/// m, t and v: what the old export is given of a field and an old record tells of it,
/// since "form 1 cells aren't dumped".
#[derive(Clone, Copy, Debug, PartialEq, Eq, Hash)]
pub struct OldShape {
    pub m: u64,
    pub t: u64,
    pub v: u64,
}

impl OldShape {
    pub fn in_form_0(self) -> Shape {
        self.in_form(0)
    }

    /// A form of one range.
    pub fn in_form(self, form: u64) -> Shape {
        Shape {
            form,
            m: self.m,
            t: self.t,
            ranges: vec![self.v],
        }
    }
}

impl Shape {
    /// Form 2, with a generation for each range.
    pub fn of_ranges(m: u64, ranges: &[u64]) -> Shape {
        Shape {
            form: 2,
            m,
            t: ranges.len() as u64,
            ranges: ranges.to_vec(),
        }
    }

    fn is_within_bounds(&self) -> bool {
        FORM_BOUNDS.contains(&self.form)
            && GROUP_BOUNDS.contains(&self.m)
            && GENERATION_BOUNDS.contains(&self.t)
            && self.ranges.len() as u64 == self.ranges_due()
            && self.ranges.iter().all(|v| RANGE_BOUNDS.contains(v))
    }

    /// "A list not of t ranges is 1", and for one range so is a list of more or none.
    pub fn ranges_due(&self) -> u64 {
        match has_t_ranges(self.form) {
            true => self.t,
            false => 1,
        }
    }

    /// v_i. "Conditions b, c and d each with its own v_i" in form 2.
    fn range(&self, generation: usize) -> u64 {
        match has_t_ranges(self.form) {
            true => self.ranges[generation - 1],
            false => self.ranges[0],
        }
    }

    /// 2^m − 1, the value of an erased group.
    fn erased(&self) -> u64 {
        (1 << self.m) - 1
    }

    /// Document 01's "k from 0", and in form 1 "generation 1 writes k from 1, and
    /// the sum in condition b starts at 1". Form 2 has the "first generation as in
    /// form 1".
    fn fewest_at_first(&self) -> usize {
        match self.form {
            0 => 0,
            _ => 1,
        }
    }
}

/// A granted list h_1 .. h_t, with the shape it was granted for.
#[derive(Clone, Debug, PartialEq, Eq)]
pub struct Layout {
    shape: Shape,
    counts: Vec<usize>,
}

impl Layout {
    pub fn counts(&self) -> &[usize] {
        &self.counts
    }

    /// h_i, with i from 1 as in the document.
    pub fn count(&self, generation: usize) -> usize {
        self.counts[generation - 1]
    }

    pub fn generations(&self) -> usize {
        self.counts.len()
    }

    pub fn groups(&self) -> usize {
        self.count(1)
    }

    /// The range of a generation.
    pub fn range(&self, generation: usize) -> u64 {
        self.shape.range(generation)
    }

    pub fn has_one_range(&self) -> bool {
        !has_t_ranges(self.shape.form)
    }

    pub fn erased(&self) -> u64 {
        self.shape.erased()
    }

    /// Whether blank cells are a pattern of generation 1, the one that writes no
    /// place.
    pub fn blank_is_a_pattern(&self) -> bool {
        self.shape.fewest_at_first() == 0
    }

    pub fn wits_in_group(&self) -> usize {
        self.shape.m as usize
    }

    pub fn wits(&self) -> usize {
        self.wits_in_group() * self.groups()
    }

    /// How a generation below the last deals its numbers; nothing for the last.
    pub fn deal(&self, generation: usize) -> Option<Deal> {
        let count = self.count(generation);
        let next = *self.counts.get(generation)?;
        Some(match generation {
            1 => Deal::first(self.erased(), count, next, self.shape.fewest_at_first()),
            _ => Deal::middle(self.erased(), count, next),
        })
    }

    /// How many numbers a generation has patterns for, the left side of its
    /// condition b, c or d.
    pub fn room(&self, generation: usize, counting: &mut Counting) -> Whole {
        match self.deal(generation) {
            Some(deal) => deal.room(counting),
            None => last_room(self.erased(), self.count(generation)),
        }
    }
}

/// Grants layouts, and remembers the least list of each shape it was asked for.
#[derive(Default)]
pub struct Layouts {
    pub counting: Counting,
    known: HashMap<Shape, Layout>,
}

impl Layouts {
    pub fn grant(&mut self, shape: &Shape, offered: u64) -> Result<Layout, Refusal> {
        if !shape.is_within_bounds() || !OFFERED_BOUNDS.contains(&offered) {
            return Err(Refusal::OutOfBounds);
        }
        let layout = self.least(shape);
        // "It fits when h_1 ≤ g."
        if layout.groups() as u64 <= offered {
            Ok(layout)
        } else {
            Err(Refusal::NoListFits)
        }
    }

    fn least(&mut self, shape: &Shape) -> Layout {
        if let Some(layout) = self.known.get(shape) {
            return layout.clone();
        }
        let layout = Layout {
            shape: shape.clone(),
            counts: least_list(shape, &mut self.counting),
        };
        self.known.insert(shape.clone(), layout.clone());
        layout
    }
}

/// The left side of condition d.
fn last_room(erased: u64, count: usize) -> Whole {
    Whole::power(erased, count)
        .minus(&Whole::from(1))
        .unwrap_or_else(Whole::zero)
}

/// From the last count upward: a lower h_(i+1) leaves more patterns to the same
/// h_i, so the least h_(i+1) never costs a higher h_i, and every count of this
/// list is the least there is. Each count is sought from the next one on, since with
/// unequal ranges a step may be longer than the one before or shorter.
fn least_list(shape: &Shape, counting: &mut Counting) -> Vec<usize> {
    let erased = shape.erased();
    let t = shape.t as usize;
    let range = Whole::from(shape.range(t));
    let last = least_count_from(1, |count| last_room(erased, count) >= range);
    let mut from_last = vec![last];
    let mut next = last;
    for generation in (2..t).rev() {
        let range = Whole::from(shape.range(generation));
        next = least_count_from(next + 1, |count| {
            Deal::middle(erased, count, next).room(counting) >= range
        });
        from_last.push(next);
    }
    let range = Whole::from(shape.range(1));
    let fewest = shape.fewest_at_first();
    from_last.push(least_count_from(next + 1, |count| {
        Deal::first(erased, count, next, fewest).room(counting) >= range
    }));
    from_last.reverse();
    from_last
}

/// The left sides of b, c and d grow without end as the count grows, so the
/// search comes to an end.
fn least_count_from(start: usize, mut meets: impl FnMut(usize) -> bool) -> usize {
    let mut count = start;
    while !meets(count) {
        count += 1;
    }
    count
}
