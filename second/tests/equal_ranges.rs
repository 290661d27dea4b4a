//! "Equal ranges must equal form 1 but for the order of refusals."

#[path = "common/small_fields.rs"]
mod small_fields;

use second::cells;
use second::field::{self, Written};
use second::layout::{Layouts, OldShape, Shape};
use second::many;
use second::refusal::Refusal;
use small_fields::fields;
use std::collections::HashMap;

const LARGEST_RANGE: u64 = 1 << 56;

/// The same field in form 1 and in form 2.
struct Both {
    form_1: Shape,
    form_2: Shape,
}

impl Both {
    fn new(shape: OldShape) -> Both {
        let ranges = vec![shape.v; shape.t as usize];
        Both {
            form_1: shape.in_form(1),
            form_2: Shape::of_ranges(shape.m, &ranges),
        }
    }

    fn counts(&self, layouts: &mut Layouts) -> [Vec<usize>; 2] {
        [&self.form_1, &self.form_2].map(|shape| {
            let layout = layouts.grant(shape, 256).expect("a list that fits");
            layout.counts().to_vec()
        })
    }

    /// What form 2 answers: as form 1 does, but where that gives 6 the refusal of the cells if
    /// they have one, which a number in range tells.
    fn write_due(&self, number: u64, cells: &[u8], layouts: &mut Layouts) -> Answer {
        let answer = field::write(&self.form_1, number, cells, layouts);
        if answer != Err(Refusal::NumberOutOfRange) {
            return answer;
        }
        match field::write(&self.form_1, 0, cells, layouts) {
            Err(refusal) => {
                assert!([15, 16, 5].contains(&refusal.number()));
                Err(refusal)
            }
            Ok(_) => answer,
        }
    }
}

type Answer = Result<Written, Refusal>;

#[test]
fn lists() {
    let mut layouts = Layouts::default();
    // Among them are sums of condition b, where the list of form 0 is another one.
    let ranges = (2..=300).chain([1 << 20, LARGEST_RANGE - 1, LARGEST_RANGE]);
    for v in ranges {
        for (m, t) in (2..=4).flat_map(|m| [2, 3, 4, 10, 16].map(|t| (m, t))) {
            let [form_1, form_2] = Both::new(OldShape { m, t, v }).counts(&mut layouts);
            assert_eq!(form_1, form_2, "{} {} {}", m, t, v);
        }
    }
}

fn shapes_of_form_1() -> Vec<OldShape> {
    let of_form_1 = fields().into_iter().filter(|(shape, _)| shape.form == 1);
    let shape = |(shape, _): (Shape, _)| OldShape {
        m: shape.m,
        t: shape.t,
        v: shape.ranges[0],
    };
    of_form_1.map(shape).collect()
}

fn every_buffer(bytes: usize) -> impl Iterator<Item = Vec<u8>> {
    (0..1_u32 << (8 * bytes)).map(move |cells| cells.to_be_bytes()[4 - bytes..].to_vec())
}

/// Of fields of one byte all numbers up to the range and two behind it are written, of
/// larger ones those at its edges.
fn numbers(shape: OldShape, bytes: usize) -> Vec<u64> {
    match bytes {
        1 => (0..=shape.v + 1).chain([u64::MAX]).collect(),
        _ => vec![0, shape.v - 1, shape.v, u64::MAX],
    }
}

/// Readings and writes of every buffer, with their turned counts and what they carry.
#[test]
fn every_buffer_of_small_fields() {
    let mut layouts = Layouts::default();
    let mut out_of_range: HashMap<u8, usize> = HashMap::new();
    for shape in shapes_of_form_1() {
        let both = Both::new(shape);
        let layout = layouts.grant(&both.form_2, 256).expect("a list that fits");
        let bytes = cells::byte_count(&layout);
        for cells in every_buffer(bytes) {
            let due = field::read(&both.form_1, &cells, &mut layouts);
            assert_eq!(field::read(&both.form_2, &cells, &mut layouts), due);
            for number in numbers(shape, bytes) {
                let due = both.write_due(number, &cells, &mut layouts);
                let answer = field::write(&both.form_2, number, &cells, &mut layouts);
                assert_eq!(answer, due);
                if let (Err(refusal), true) = (answer, number >= shape.v) {
                    *out_of_range.entry(refusal.number()).or_default() += 1;
                }
            }
        }
    }
    // All that 6 has become, and 6 where it stays.
    for refusal in [15, 16, 5, 6] {
        assert!(out_of_range[&refusal] > 1_000, "{:?}", out_of_range);
    }
}

#[test]
fn many_fields_in_one_call() {
    let both = Both::new(OldShape { m: 2, t: 3, v: 4 });
    let mut layouts = Layouts::default();
    for (cells, numbers) in [
        ([0x00, 0x01, 0x07], [3, 2, 1]),
        ([0x00, 0x1f, 0x07], [3, 2, 1]),
        ([0x00, 0x0f, 0x07], [3, 2, 1]),
        ([0x00, 0x01, 0x00], [3, 2, 4]),
        ([0x04, 0x00, 0x43], [0, 4, 1]),
    ] {
        let due = many::write_many(&both.form_1, &numbers, &cells, &mut layouts);
        let answer = many::write_many(&both.form_2, &numbers, &cells, &mut layouts);
        assert_eq!(answer, due);
    }
}

/// To the last generation of large fields.
#[test]
fn runs_of_writes() {
    let mut layouts = Layouts::default();
    for (m, t, v) in [
        (2, 10, LARGEST_RANGE),
        (2, 16, LARGEST_RANGE - 1),
        (3, 5, 1_000),
        (4, 16, 99),
    ] {
        let both = Both::new(OldShape { m, t, v });
        let layout = layouts.grant(&both.form_1, 256).expect("a list that fits");
        let mut cells = vec![0; cells::byte_count(&layout)];
        for generation in 1..=t {
            let number = v / generation - 1;
            let due = field::write(&both.form_1, number, &cells, &mut layouts);
            let answer = field::write(&both.form_2, number, &cells, &mut layouts);
            assert_eq!(answer, due);
            cells = due.expect("generations are left").cells;
            let reading = field::read(&both.form_1, &cells, &mut layouts);
            assert_eq!(field::read(&both.form_2, &cells, &mut layouts), reading);
        }
        let spent = field::write(&both.form_2, v, &cells, &mut layouts);
        assert_eq!(spent, Err(Refusal::LastGenerationUsed));
    }
}
