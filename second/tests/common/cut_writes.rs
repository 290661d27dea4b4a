//! Writes and the cells that they leave when they are cut off: all that lead on from blank
//! cells in small fields, chains of numbers in large ones, and the orders in which a board
//! may turn wits.

use second::cells;
use second::field;
use second::layout::{Layout, Layouts, OldShape, Shape};
use std::collections::HashSet;
use std::ops::Range;

/// A write on cells of a generation, 0 for blank ones.
pub struct Write {
    pub shape: Shape,
    pub layout: Layout,
    pub generation: usize,
    pub number: u64,
    pub before: Vec<u8>,
    pub after: Vec<u8>,
}

impl Write {
    fn new(shape: &Shape, number: u64, before: &[u8], layouts: &mut Layouts) -> Option<Write> {
        let written = field::write(shape, number, before, layouts).ok()?;
        Some(Write {
            shape: shape.clone(),
            layout: layouts.grant(shape, 256).ok()?,
            generation: written.generation - 1,
            number,
            before: before.to_vec(),
            after: written.cells,
        })
    }

    pub fn turned(&self) -> Vec<usize> {
        let is_turned = |wit: &usize| {
            let turned = self.before[wit / 8] ^ self.after[wit / 8];
            turned & bit(*wit) != 0
        };
        (0..self.layout.wits()).filter(is_turned).collect()
    }

    /// Whether a wit belongs to a group that the write erases.
    fn erases(&self, wit: usize) -> bool {
        let groups = cells::groups_of(&self.layout, &self.after);
        let group = groups.expect("it is as long as the field")[wit / self.layout.wits_in_group()];
        self.generation > 0 && group == self.layout.erased()
    }

    /// The cells before with every set of the wits that the write turns, none and all among
    /// these.
    pub fn every_cut(&self) -> impl Iterator<Item = Vec<u8>> + '_ {
        let wits = self.turned();
        (0..1_u32 << wits.len()).map(move |chosen| {
            let places = (0..wits.len()).filter(|place| chosen >> place & 1 == 1);
            let turned: Vec<usize> = places.map(|place| wits[place]).collect();
            with_wits(&self.before, &turned)
        })
    }
}

fn bit(wit: usize) -> u8 {
    0x80 >> (wit % 8)
}

/// The cells with these wits at 1.
pub fn with_wits(cells: &[u8], wits: &[usize]) -> Vec<u8> {
    let mut with = cells.to_vec();
    for wit in wits {
        with[wit / 8] |= bit(*wit);
    }
    with
}

/// All that some generation takes.
fn numbers(shape: &Shape) -> Range<u64> {
    0..shape.ranges.iter().copied().max().unwrap_or(0)
}

/// Every state that writes from blank cells lead to.
fn states(shape: &Shape, layouts: &mut Layouts) -> HashSet<Vec<u8>> {
    let layout = layouts.grant(shape, 256).expect("a list that fits");
    let mut states = HashSet::new();
    let mut found = vec![vec![0; cells::byte_count(&layout)]];
    while let Some(cells) = found.pop() {
        if states.insert(cells.clone()) {
            let writes = numbers(shape).filter_map(|number| {
                let written = field::write(shape, number, &cells, layouts).ok();
                written.map(|written| written.cells)
            });
            found.extend(writes);
        }
    }
    states
}

/// Every write in a field that is made by writes from blank cells.
pub fn every_write(shape: &Shape, layouts: &mut Layouts) -> Vec<Write> {
    let mut writes = Vec::new();
    for before in states(shape, layouts) {
        let of_numbers = numbers(shape);
        writes.extend(of_numbers.filter_map(|number| Write::new(shape, number, &before, layouts)));
    }
    writes
}

/// Of all forms, small enough for every set of wits.
pub fn small_shapes() -> Vec<Shape> {
    let fields = [
        (2, 2, 20),
        (2, 3, 4),
        (2, 4, 9),
        (2, 8, 2),
        (3, 5, 6),
        (4, 3, 40),
    ];
    let in_both_forms = |(m, t, v)| [0, 1].map(|form| OldShape { m, t, v }.in_form(form));
    let of_ranges: [&[u64]; 3] = [&[20, 4, 2], &[2, 4, 20], &[9, 5, 3, 2]];
    let of_form_2 = of_ranges.map(|ranges| Shape::of_ranges(2, ranges));
    let of_one_range = fields.into_iter().flat_map(in_both_forms);
    of_one_range.chain(of_form_2).collect()
}

fn scattered(place: u64) -> u64 {
    place.wrapping_add(1).wrapping_mul(0x9e37_79b9_7f4a_7c15) >> 8
}

/// Writes from blank cells to the last generation, of numbers from all over the range or
/// such as counters have.
fn chain(shape: &Shape, seed: u64, is_counter: bool, layouts: &mut Layouts) -> Vec<Write> {
    let layout = layouts.grant(shape, 256).expect("a list that fits");
    let mut cells = vec![0; cells::byte_count(&layout)];
    let mut writes = Vec::new();
    for place in 0..shape.t {
        let number = match is_counter {
            true => 100_000 + 20_000 * place + scattered(seed + place) % 20_000,
            false => scattered(seed + place),
        };
        let range = layout.range(place as usize + 1);
        let write = Write::new(shape, number % range, &cells, layouts);
        let write = write.expect("generations are left");
        cells = write.after.clone();
        writes.push(write);
    }
    writes
}

pub fn chains(shape: &Shape, is_counter: bool, layouts: &mut Layouts) -> Vec<Write> {
    let seeds = (0..20).map(|chain| 100 * chain);
    let writes = seeds.flat_map(|seed| chain(shape, seed, is_counter, layouts));
    writes.collect()
}

pub const ORDERS: [&str; 4] = ["front first", "back first", "scattered", "erased first"];

/// The wits that a write turns, as a board may turn them one after another.
pub fn in_order(order: &str, write: &Write) -> Vec<usize> {
    let mut wits = write.turned();
    match order {
        "back first" => wits.reverse(),
        "scattered" => wits.sort_by_key(|wit| scattered(*wit as u64)),
        "erased first" => wits.sort_by_key(|wit| !write.erases(*wit)),
        _ => {}
    }
    wits
}
