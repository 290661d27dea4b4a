//! Supply is lost in mid-write and the write is resumed: every cut of every write of small
//! fields, and every cut of chains of large fields in several orders of their wits.

#[path = "common/cut_writes.rs"]
mod cut_writes;

use cut_writes::{chains, every_write, in_order, small_shapes, with_wits, Write, ORDERS};
use second::cells;
use second::field;
use second::layout::{Layout, Layouts, OldShape, Shape};
use second::refusal::Refusal;
use second::resuming::{self, Resumed};
use std::collections::{HashMap, HashSet};

/// What came of the cuts of a field's writes. Cells that have been gone through once are
/// known.
struct Bench {
    layouts: Layouts,
    met: HashMap<&'static str, usize>,
    known_cuts: HashSet<(Vec<u8>, u64)>,
    known_ends: HashSet<Vec<u8>>,
}

impl Bench {
    fn new() -> Bench {
        Bench {
            layouts: Layouts::default(),
            met: HashMap::new(),
            known_cuts: HashSet::new(),
            known_ends: HashSet::new(),
        }
    }

    /// Another field's cells may be the same bytes.
    fn begin_field(&mut self) {
        self.known_cuts.clear();
        self.known_ends.clear();
    }

    fn check_cut(&mut self, write: &Write, cut: &[u8]) {
        if !self.known_cuts.insert((cut.to_vec(), write.number)) {
            return;
        }
        let read = field::read(&write.shape, cut, &mut self.layouts);
        let resumed = resuming::resume(&write.shape, write.number, cut, &mut self.layouts);
        let kind = match read {
            Ok(_) | Err(Refusal::Blank) => {
                assert_eq!(resumed, Err(Refusal::NotCutOff));
                "a reading or blank"
            }
            Err(Refusal::Miscounted { .. } | Refusal::Beyond { .. }) => match resumed {
                Ok(resumed) => {
                    self.check_resumed(write, cut, &resumed);
                    "resumed"
                }
                Err(refusal) => kind_of_refused(write, cut, refusal),
            },
            Err(other) => panic!("a cut write is refused with {}", other.number()),
        };
        *self.met.entry(kind).or_default() += 1;
    }

    fn check_resumed(&mut self, write: &Write, cut: &[u8], resumed: &Resumed) {
        assert!(zeros(&write.layout, cut) >= last_count(&write.layout));
        let Resumed { written, erased } = resumed;
        let mut bytes = cut.iter().zip(&written.cells);
        assert!(bytes.all(|(before, after)| before & !after == 0));
        assert_eq!(ones(&written.cells) - ones(cut), written.turned);
        assert_eq!(*erased, newly_all_ones(&write.layout, cut, &written.cells));
        let read = field::read(&write.shape, &written.cells, &mut self.layouts);
        let read = read.expect("it was resumed");
        let due = (written.generation, write.number);
        assert_eq!((read.generation, read.number), due);
        self.check_further_writes(&write.shape, written.generation, &written.cells);
    }

    /// Of the writes that follow the j-th is accepted exactly where the generation and j
    /// come to at most t.
    fn check_further_writes(&mut self, shape: &Shape, generation: usize, cells: &[u8]) {
        if !self.known_ends.insert(cells.to_vec()) {
            return;
        }
        let mut cells = cells.to_vec();
        for further in generation + 1..=shape.t as usize {
            // Zeros among them, which open nothing here.
            let number = further as u64 % 2;
            let written = field::write(shape, number, &cells, &mut self.layouts);
            let written = written.expect("generations are left");
            assert_eq!(written.generation, further);
            cells = written.cells;
            let read = field::read(shape, &cells, &mut self.layouts).map(|read| read.number);
            assert_eq!(read, Ok(number));
        }
        for number in [0, 1] {
            let written = field::write(shape, number, &cells, &mut self.layouts);
            assert_eq!(written, Err(Refusal::LastGenerationUsed));
        }
    }

    fn assert_met_all(&self) {
        for kind in [
            "a reading or blank",
            "resumed",
            "too few zero groups",
            "out of range now",
        ] {
            let count = self.met.get(kind).copied().unwrap_or(0);
            assert!(count > 50, "{}: {:?}", kind, self.met);
        }
    }
}

/// 5 exactly where no generation is left. With a range for each generation it may be that
/// the one found takes no number as large as the cut-off one did.
fn kind_of_refused(write: &Write, cut: &[u8], refusal: Refusal) -> &'static str {
    let layout = &write.layout;
    let zeros = zeros(layout, cut);
    if zeros < last_count(layout) {
        assert_eq!(refusal, Refusal::LastGenerationUsed);
        // Writes before the last one leave enough, wherever they are cut.
        assert_eq!(write.generation + 1, layout.generations());
        return "too few zero groups";
    }
    let counts = layout.counts()[1..].iter();
    let found = 2 + counts.take_while(|count| **count > zeros).count();
    assert_eq!(refusal, Refusal::NumberOutOfRange);
    assert!(!layout.has_one_range() && write.number >= layout.range(found));
    "out of range now"
}

fn zeros(layout: &Layout, cells: &[u8]) -> usize {
    let groups = cells::groups_of(layout, cells).expect("it is as long as the field");
    groups.iter().filter(|group| **group == 0).count()
}

fn last_count(layout: &Layout) -> usize {
    layout.count(layout.generations())
}

fn ones(cells: &[u8]) -> u64 {
    cells.iter().map(|byte| u64::from(byte.count_ones())).sum()
}

/// Wit by wit, group by group.
fn newly_all_ones(layout: &Layout, before: &[u8], after: &[u8]) -> Vec<usize> {
    let m = layout.wits_in_group();
    let is_one = |cells: &[u8], wit: usize| cells[wit / 8] << (wit % 8) & 0x80 != 0;
    let is_all_ones =
        |cells: &[u8], group: usize| (m * group..m * (group + 1)).all(|wit| is_one(cells, wit));
    let groups = 0..layout.groups();
    let is_new = |group: &usize| is_all_ones(after, *group) && !is_all_ones(before, *group);
    groups.filter(is_new).collect()
}

/// The first write of a field is among these, and every one up to the last.
#[test]
fn every_cut_of_every_write_of_small_fields() {
    let mut bench = Bench::new();
    for shape in small_shapes() {
        bench.begin_field();
        for write in every_write(&shape, &mut Layouts::default()) {
            for cut in write.every_cut() {
                bench.check_cut(&write, &cut);
            }
        }
    }
    bench.assert_met_all();
}

/// Fields of all forms and of each m.
fn large_shapes() -> Vec<Shape> {
    let of_one_range = [(0, 2, 10, 1 << 56), (1, 3, 5, 1 << 40), (0, 4, 3, 1 << 56)];
    let shape = |(form, m, t, v)| OldShape { m, t, v }.in_form(form);
    let mut shapes = of_one_range.map(shape).to_vec();
    shapes.push(Shape::of_ranges(2, &[1 << 56, 1 << 40, 1000, 1 << 30, 3]));
    shapes
}

#[test]
fn cuts_of_chains_in_several_orders() {
    let mut bench = Bench::new();
    for shape in large_shapes() {
        bench.begin_field();
        for is_counter in [false, true] {
            for write in chains(&shape, is_counter, &mut Layouts::default()) {
                for order in ORDERS {
                    let wits = in_order(order, &write);
                    for count in 0..=wits.len() {
                        bench.check_cut(&write, &with_wits(&write.before, &wits[..count]));
                    }
                }
            }
        }
    }
    bench.assert_met_all();
}
