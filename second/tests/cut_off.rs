//! What cells look like whose write was cut off, that are of another layout, or of which
//! one went bad: what README.md of the repository tells a fitter.

#[path = "common/cut_writes.rs"]
mod cut_writes;

use cut_writes::{chains, every_write, in_order, small_shapes, with_wits, Write, ORDERS};
use second::cells;
use second::field;
use second::layout::{Layout, Layouts, OldShape};
use second::refusal::Refusal;
use std::collections::{HashMap, HashSet};

const DRIVES: OldShape = OldShape {
    m: 2,
    t: 10,
    v: 1 << 56,
};

impl Write {
    /// The write with some of its wits turned and not all. True where a number is read,
    /// which is then neither the old one nor the new.
    fn check_cut(&self, cut: &[u8], layouts: &mut Layouts) -> bool {
        let mut read = |cells: &[u8]| field::read(&self.shape, cells, layouts);
        match read(cut) {
            Ok(reading) => {
                assert_ne!(read(&self.before), Ok(reading));
                assert_ne!(read(&self.after), Ok(reading));
                assert!(self.generation > 0 || reading.number < self.number);
                true
            }
            Err(refusal) => {
                self.check_refusal(refusal);
                false
            }
        }
    }

    /// 15 is told while groups are being erased: of the generation that was whole and, once
    /// the zero groups are fewer than the new one's count, of the new one. 16 is told of
    /// the old one alone, before a group more counts as erased. A first write is never
    /// refused.
    fn check_refusal(&self, refusal: Refusal) {
        let whole = self.generation;
        if let Refusal::Miscounted {
            generation,
            unerased,
        } = refusal
        {
            let is_new = unerased > self.layout.count(generation);
            assert_eq!(generation, if is_new { whole + 1 } else { whole });
            assert!(is_between_counts(&self.layout, generation, unerased));
        } else {
            assert_eq!(refusal, Refusal::Beyond { generation: whole });
        }
    }
}

/// Whether the unerased groups are as many as a write takes them through: from one
/// generation's count to the next one's.
fn is_between_counts(layout: &Layout, generation: usize, unerased: usize) -> bool {
    match unerased < layout.count(generation) {
        true => generation < layout.generations() && unerased >= layout.count(generation + 1),
        false => unerased <= layout.count(generation - 1),
    }
}

#[test]
fn every_cut_of_every_write_of_small_fields() {
    let mut layouts = Layouts::default();
    for shape in small_shapes() {
        for write in every_write(&shape, &mut layouts) {
            let is_cut = |cells: &Vec<u8>| *cells != write.before && *cells != write.after;
            for cut in write.every_cut().filter(is_cut) {
                write.check_cut(&cut, &mut layouts);
            }
        }
    }
}

/// A first write reads as a number wherever it is cut. Of the cuts of later ones a
/// twentieth to a half do, by the order of the wits.
#[test]
fn cuts_of_the_drives_field_in_any_order() {
    let mut layouts = Layouts::default();
    for order in ORDERS {
        for is_counter in [false, true] {
            let (mut cuts, mut numbers) = (0, 0);
            for write in chains(&DRIVES.in_form_0(), is_counter, &mut layouts) {
                let wits = in_order(order, &write);
                let is_later = write.generation > 0;
                for count in 1..wits.len() {
                    let cut = with_wits(&write.before, &wits[..count]);
                    let is_number = write.check_cut(&cut, &mut layouts);
                    assert!(is_number || is_later);
                    cuts += usize::from(is_later);
                    numbers += usize::from(is_later && is_number);
                }
            }
            let expected = cuts / 25..cuts * 3 / 5;
            assert!(expected.contains(&numbers), "{}: {}", order, numbers);
        }
    }
}

/// Layouts whose fields are as many bytes as the drives'.
fn other_shapes(layouts: &mut Layouts) -> Vec<OldShape> {
    let with_ranges = |(m, t)| (1..=56).map(move |bits| (m, t, 1 << bits));
    let in_bounds = (2..=4).flat_map(|m| (2..=16).map(move |t| (m, t)));
    let shapes = in_bounds.flat_map(with_ranges);
    let shapes = shapes.map(|(m, t, v)| OldShape { m, t, v });
    let is_as_long = |shape: &OldShape| {
        let layout = layouts.grant(&shape.in_form_0(), 256);
        let layout = layout.expect("a list that fits");
        cells::byte_count(&layout) == 35 && *shape != DRIVES
    };
    shapes.filter(is_as_long).collect()
}

/// Most are refused with 15, many with 3, few with 16, and a tenth are read as a number.
#[test]
fn cells_of_another_layout() {
    let mut layouts = Layouts::default();
    for is_counter in [false, true] {
        let mut met: HashMap<u8, usize> = HashMap::new();
        let mut all = 0;
        for shape in other_shapes(&mut layouts) {
            for write in chains(&shape.in_form_0(), is_counter, &mut layouts) {
                let refusal = field::read(&DRIVES.in_form_0(), &write.after, &mut layouts).err();
                *met.entry(refusal.map_or(0, Refusal::number)).or_default() += 1;
                all += 1;
            }
        }
        assert!(met[&15] > all / 2);
        assert!(met[&3] > all / 5);
        assert!(met[&16] < all / 50);
        assert!((all / 12..all / 7).contains(&met[&0]), "{:?}", met);
    }
}

/// What one more wit makes of a field that was written.
fn kind_of_bad(write: &Write, wit: usize, layouts: &mut Layouts) -> &'static str {
    let bad = with_wits(&write.after, &[wit]);
    match field::read(&write.shape, &bad, layouts) {
        Ok(_) => "a number",
        Err(Refusal::Miscounted {
            generation,
            unerased,
        }) if is_between_counts(&write.layout, generation, unerased) => "as after a cut",
        Err(Refusal::Beyond { generation: 1..=9 }) => "as after a cut at its start",
        Err(_) => "as after no cut",
    }
}

#[test]
fn a_wit_that_went_bad_leaves_any_sign_or_none() {
    let mut layouts = Layouts::default();
    let mut met = HashSet::new();
    for write in chains(&DRIVES.in_form_0(), false, &mut layouts) {
        for wit in 0..write.layout.wits() {
            met.insert(kind_of_bad(&write, wit, &mut layouts));
        }
    }
    assert_eq!(met.len(), 4, "{:?}", met);
}
