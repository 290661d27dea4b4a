//! "Reading" and "Writing" of one field.

use crate::cells;
use crate::counting::Counting;
use crate::dealing;
use crate::layout::{Layout, Layouts, Shape, GROUPS_OFFERED};
use crate::refusal::Refusal;
use crate::whole::Whole;

#[derive(Clone, Copy, Debug, PartialEq, Eq)]
pub struct Reading {
    pub generation: usize,
    pub number: u64,
    pub left: usize,
}

#[derive(Clone, Debug, PartialEq, Eq)]
pub struct Written {
    pub generation: usize,
    pub turned: u64,
    pub cells: Vec<u8>,
}

/// Refusals in the order 1, 2, 3, 11, 15, 16.
pub fn read(shape: &Shape, cells: &[u8], layouts: &mut Layouts) -> Result<Reading, Refusal> {
    let layout = layouts.grant(shape, GROUPS_OFFERED)?;
    let groups = cells::groups_of(&layout, cells)?;
    read_groups(&layout, &groups, &mut layouts.counting)
}

/// Refusals in the order 11, 15, 16.
pub fn read_groups(
    layout: &Layout,
    groups: &[u64],
    counting: &mut Counting,
) -> Result<Reading, Refusal> {
    // "Reading blank form 1 cells gives 11, after 3", and those of form 2.
    if is_blank(groups) && !layout.blank_is_a_pattern() {
        return Err(Refusal::Blank);
    }
    reading_of(layout, groups, counting)
}

/// Refusals in the order 1, 2, 3, 6, 15, 16, 5, and in form 2, where "6 is tested after
/// 5", in the order 1, 2, 3, 15, 16, 5, 6. The lent cells stay as they are; an accepted
/// write answers the new ones.
pub fn write(
    shape: &Shape,
    number: u64,
    cells: &[u8],
    layouts: &mut Layouts,
) -> Result<Written, Refusal> {
    let layout = layouts.grant(shape, GROUPS_OFFERED)?;
    let groups = cells::groups_of(&layout, cells)?;
    // Of forms 0 and 1, whose range is the same for every generation.
    if layout.has_one_range() {
        refuse_beyond(layout.range(1), number)?;
    }
    let counting = &mut layouts.counting;
    let generation = generation_to_write(&layout, &groups, counting)?;
    // "Below the range of the generation that would take it."
    refuse_beyond(layout.range(generation), number)?;
    let after = written_at(generation, &layout, &groups, number, counting);
    Ok(report(generation, &layout, cells, &after))
}

/// "The answer is the generation and the count of wits turned from 0 to 1."
pub fn report(generation: usize, layout: &Layout, before: &[u8], after: &[u64]) -> Written {
    let after = cells::bytes_of_groups(layout, after);
    Written {
        generation,
        turned: cells::ones(&after) - cells::ones(before),
        cells: after,
    }
}

/// The groups once a number below v_i is written at generation i, for which they have
/// zero groups enough.
pub fn written_at(
    generation: usize,
    layout: &Layout,
    groups: &[u64],
    number: u64,
    counting: &mut Counting,
) -> Vec<u64> {
    let prepared = prepared_for(generation, layout, groups);
    let pattern = pattern_for(generation, layout, &Whole::from(number), counting)
        .expect("conditions b to d leave a pattern for every number below v_i");
    with_pattern(&prepared, &pattern)
}

pub fn refuse_beyond(range: u64, number: u64) -> Result<(), Refusal> {
    match number < range {
        true => Ok(()),
        false => Err(Refusal::NumberOutOfRange),
    }
}

fn generation_to_write(
    layout: &Layout,
    groups: &[u64],
    counting: &mut Counting,
) -> Result<usize, Refusal> {
    match generation_due(layout, groups, counting)? {
        due if due > layout.generations() => Err(Refusal::LastGenerationUsed),
        due => Ok(due),
    }
}

/// "All-zero cells are written at generation 1", in forms 1 and 2 too, where they have
/// no reading. "Cells read as generation i < t are written at i + 1." For spent cells it
/// is t + 1, which there isn't. Refusals in the order 15, 16.
pub fn generation_due(
    layout: &Layout,
    groups: &[u64],
    counting: &mut Counting,
) -> Result<usize, Refusal> {
    match is_blank(groups) {
        true => Ok(1),
        false => Ok(reading_of(layout, groups, counting)?.generation + 1),
    }
}

fn is_blank(groups: &[u64]) -> bool {
    zeros_among(groups) == groups.len()
}

pub fn zeros_among(groups: &[u64]) -> usize {
    groups.iter().filter(|group| **group == 0).count()
}

/// The generation is the one that the zero groups point to, and a refusal tells it.
fn reading_of(
    layout: &Layout,
    groups: &[u64],
    counting: &mut Counting,
) -> Result<Reading, Refusal> {
    let generation = generation_of(layout, zeros_among(groups));
    let places = places_of(generation, layout, groups);
    // "From generation 2 on the unerased groups must number exactly h_i." In generation
    // 1 the places are all h_1 groups, so that this never refuses it.
    let unerased = places.len();
    if unerased != layout.count(generation) {
        return Err(Refusal::Miscounted {
            generation,
            unerased,
        });
    }
    let number = match layout.deal(generation) {
        Some(deal) => deal.number(&places, counting),
        None => dealing::last_number(&places, layout.erased())
            .expect("fewer than h_t zero groups leave a digit that is not 0"),
    };
    // "The number must be below v", which is the range of the generation read.
    let range = layout.range(generation);
    let in_range = number.to_u64().filter(|number| *number < range);
    let number = in_range.ok_or(Refusal::Beyond { generation })?;
    // "Writes left: t for all-zero cells, else t less the generation."
    let used = if is_blank(groups) { 0 } else { generation };
    let left = layout.generations() - used;
    Ok(Reading {
        generation,
        number,
        left,
    })
}

/// "Let z be the count of zero groups. Generation 1 if z ≥ h_2; i if h_i > z ≥
/// h_(i+1); t if z < h_t."
fn generation_of(layout: &Layout, zeros: usize) -> usize {
    let last = layout.generations();
    let mut below_last = 1..last;
    below_last
        .find(|generation| zeros >= layout.count(generation + 1))
        .unwrap_or(last)
}

/// All groups in generation 1, where the all-ones value is data; the unerased
/// groups from then on.
fn places_of(generation: usize, layout: &Layout, groups: &[u64]) -> Vec<u64> {
    let is_place = |group: &u64| generation == 1 || *group != layout.erased();
    groups.iter().copied().filter(is_place).collect()
}

/// "Every nonzero group is set to all ones; then, while more than h_(i+1) zero
/// groups remain, the leftmost zero group is erased." Blank cells come to
/// generation 1 as they are, having h_1 zero groups.
fn prepared_for(generation: usize, layout: &Layout, groups: &[u64]) -> Vec<u64> {
    let mut spare = zeros_among(groups) - layout.count(generation);
    let mut prepared = groups.to_vec();
    for group in prepared.iter_mut() {
        if *group != 0 {
            *group = layout.erased();
        } else if spare > 0 {
            *group = layout.erased();
            spare -= 1;
        }
    }
    prepared
}

/// The values that `number` gives the generation's places; nothing where it has
/// no pattern for so large a number.
pub fn pattern_for(
    generation: usize,
    layout: &Layout,
    number: &Whole,
    counting: &mut Counting,
) -> Option<Vec<u64>> {
    match layout.deal(generation) {
        Some(deal) => deal.pattern(number, counting),
        None => dealing::last_pattern(number, layout.count(generation), layout.erased()),
    }
}

/// Sets the zero groups, which are the places, from left to right.
pub fn with_pattern(groups: &[u64], pattern: &[u64]) -> Vec<u64> {
    let mut set = groups.to_vec();
    let places = set.iter_mut().filter(|group| **group == 0);
    for (group, value) in places.zip(pattern) {
        *group = *value;
    }
    set
}
