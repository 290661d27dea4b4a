//! Small fields whose patterns are listed one by one in the document's order, without the
//! formula for ranks: a pattern's number is its place in the list.

#[path = "small_fields.rs"]
mod small_fields;

use second::field::Reading;
use second::layout::Shape;
use second::refusal::Refusal;
pub use small_fields::fields;
use small_fields::Listed;
use std::collections::HashMap;

pub type Pattern = Vec<u64>;

/// One small field, with the patterns of each generation listed in order.
pub struct Field {
    pub shape: Shape,
    pub counts: Vec<usize>,
    pub listed: Vec<Vec<Pattern>>,
    /// Which generation and number each readable buffer stands for.
    pub readable: HashMap<Vec<u8>, (usize, u64)>,
}

impl Field {
    pub fn new((shape, counts): &Listed) -> Field {
        let generations = 1..=counts.len();
        let listed = generations
            .map(|generation| patterns_in_order(shape, counts, generation))
            .collect();
        let mut field = Field {
            shape: shape.clone(),
            counts: counts.to_vec(),
            listed,
            readable: HashMap::new(),
        };
        field.list_readable_buffers();
        field
    }

    pub fn erased(&self) -> u64 {
        (1 << self.shape.m) - 1
    }

    pub fn range(&self, generation: usize) -> u64 {
        match &self.shape.ranges[..] {
            [v] => *v,
            ranges => ranges[generation - 1],
        }
    }

    pub fn bytes(&self) -> usize {
        (self.shape.m as usize * self.counts[0] + 7) / 8
    }

    fn list_readable_buffers(&mut self) {
        for generation in 1..=self.counts.len() {
            let range = self.range(generation) as usize;
            let in_range = self.listed[generation - 1].iter().take(range);
            let in_range: Vec<Pattern> = in_range.cloned().collect();
            assert_eq!(in_range.len(), range);
            for places in choices(self.counts[0], self.counts[generation - 1]) {
                for (number, pattern) in in_range.iter().enumerate() {
                    let cells = self.cells(&self.on_places(&places, pattern));
                    let stands_for = (generation, number as u64);
                    let before = self.readable.insert(cells, stands_for);
                    assert_eq!(before, None, "one buffer would have two readings");
                }
            }
        }
    }

    pub fn on_places(&self, places: &[bool], pattern: &[u64]) -> Vec<u64> {
        let mut values = pattern.iter();
        let group = |is_place: &bool| match is_place {
            true => *values.next().expect("a value for each place"),
            false => self.erased(),
        };
        places.iter().map(group).collect()
    }

    /// By way of the wits written out as text.
    pub fn cells(&self, groups: &[u64]) -> Vec<u8> {
        let width = self.shape.m as usize;
        let wits = groups
            .iter()
            .map(|group| format!("{:0w$b}", group, w = width));
        let mut wits: String = wits.collect();
        while wits.len() % 8 != 0 {
            wits.push('0');
        }
        let byte = |start: usize| u8::from_str_radix(&wits[start..start + 8], 2);
        let starts = (0..wits.len()).step_by(8);
        starts
            .map(|start| byte(start).expect("eight wits"))
            .collect()
    }

    /// The inverse of `cells`; nothing where a left-over bit is set.
    pub fn groups(&self, cells: &[u8]) -> Option<Vec<u64>> {
        let wits: String = cells.iter().map(|byte| format!("{:08b}", byte)).collect();
        let (in_groups, left_over) = wits.split_at(self.shape.m as usize * self.counts[0]);
        if left_over.contains('1') {
            return None;
        }
        let width = self.shape.m as usize;
        let starts = (0..in_groups.len()).step_by(width);
        let group = |start: usize| u64::from_str_radix(&in_groups[start..start + width], 2);
        starts.map(|start| group(start).ok()).collect()
    }

    pub fn reading_due(&self, cells: &[u8]) -> Result<Reading, Refusal> {
        let groups = self.groups(cells).ok_or(Refusal::WrongBytes)?;
        if is_blank(cells) && self.shape.form > 0 {
            return Err(Refusal::Blank);
        }
        let (generation, number) = match self.readable.get(cells) {
            Some(found) => *found,
            None => return Err(self.refusal_due(&groups)),
        };
        let left = self.counts.len() - if is_blank(cells) { 0 } else { generation };
        Ok(Reading {
            generation,
            number,
            left,
        })
    }

    pub fn unerased(&self, groups: &[u64]) -> Vec<u64> {
        let is_unerased = |group: &u64| *group != self.erased();
        groups.iter().copied().filter(is_unerased).collect()
    }

    /// Whether so many zero groups point to a generation.
    pub fn points_to(&self, generation: usize, groups: &[u64]) -> bool {
        let zeros = groups.iter().filter(|group| **group == 0).count();
        let is_below = generation == 1 || zeros < self.counts[generation - 1];
        is_below && zeros >= self.counts.get(generation).copied().unwrap_or(0)
    }

    /// Why cells that stand for no number are refused, told from counts alone.
    fn refusal_due(&self, groups: &[u64]) -> Refusal {
        let mut generations = 1..=self.counts.len();
        let generation = generations
            .find(|generation| self.points_to(*generation, groups))
            .expect("every count of zero groups points to a generation");
        let unerased = self.unerased(groups).len();
        if generation == 1 || unerased == self.counts[generation - 1] {
            return Refusal::Beyond { generation };
        }
        Refusal::Miscounted {
            generation,
            unerased,
        }
    }

    /// The generation that takes a number.
    pub fn generation_due(&self, cells: &[u8]) -> Result<usize, Refusal> {
        let generation = match is_blank(cells) {
            true => 1,
            false => self.reading_due(cells)?.generation + 1,
        };
        match generation > self.counts.len() {
            true => Err(Refusal::LastGenerationUsed),
            false => Ok(generation),
        }
    }
}

pub fn is_blank(cells: &[u8]) -> bool {
    cells.iter().all(|byte| *byte == 0)
}

/// Every choice of `chosen` places, in the order of the sorted list: as a
/// number in base 2, leftmost place most significant.
pub fn choices(places: usize, chosen: usize) -> Vec<Vec<bool>> {
    let masks = (0..1_u32 << places).filter(|mask| mask.count_ones() as usize == chosen);
    let places_of = |mask: u32| (0..places).rev().map(move |bit| mask >> bit & 1 == 1);
    masks.map(|mask| places_of(mask).collect()).collect()
}

/// Every value string of this length over `low` to `high`, in the order of the
/// sorted list.
fn value_strings(length: usize, low: u64, high: u64) -> Vec<Pattern> {
    if length == 0 {
        return vec![Vec::new()];
    }
    let rest = value_strings(length - 1, low, high);
    let starting_with = |first: u64| rest.iter().map(move |tail| [&[first], &tail[..]].concat());
    (low..=high).flat_map(starting_with).collect()
}

/// By number of written places, then by choice of places, then by values.
fn patterns_in_order(shape: &Shape, counts: &[usize], generation: usize) -> Vec<Pattern> {
    let places = counts[generation - 1];
    let nonzero = (1 << shape.m) - 1;
    let next = match counts.get(generation) {
        Some(next) => *next,
        // The all-zero string is first in the list and stands for no number.
        None => return value_strings(places, 0, nonzero - 1).split_off(1),
    };
    let (fewest, highest) = match generation {
        1 => (usize::from(shape.form > 0), nonzero),
        _ => (1, nonzero - 1),
    };
    let mut patterns = Vec::new();
    for written in fewest..=places - next {
        let values_in_order = value_strings(written, 1, highest);
        for chosen in choices(places, written) {
            for values in &values_in_order {
                let mut value = values.iter();
                let place = |is_chosen: &bool| match is_chosen {
                    true => *value.next().expect("a value for each chosen place"),
                    false => 0,
                };
                patterns.push(chosen.iter().map(place).collect());
            }
        }
    }
    patterns
}

pub fn every_buffer(bytes: usize) -> impl Iterator<Item = Vec<u8>> {
    assert!(bytes <= 2);
    (0..1_u32 << (8 * bytes)).map(move |cells| cells.to_be_bytes()[4 - bytes..].to_vec())
}
