//! Large fields can't be listed whole. Here a step from one pattern to the next
//! of the list is made without the formula for ranks, and neighbouring numbers
//! must have neighbouring patterns.

use second::counting::Counting;
use second::dealing;
use second::field;
use second::layout::{Layout, Layouts, OldShape, Shape};
use second::whole::Whole;

/// m, t and v in both forms that have one range.
const OF_ONE_RANGE: [(u64, u64, u64); 6] = [
    (2, 10, 1 << 56),
    (2, 16, (1 << 56) - 1),
    (3, 2, 1 << 56),
    (3, 7, 1 << 40),
    (4, 16, 1 << 56),
    (4, 3, 1_000_003),
];

/// m and the ranges of form 2. The last ones have the longest steps.
const OF_RANGES: [(u64, &[u64]); 5] = [
    (2, &[1 << 56, 1 << 48, 1 << 40, 1 << 32, 1 << 24, 1_000_003]),
    (3, &[1_000, 1 << 20, 3, 1 << 40, 1 << 56]),
    (4, &[2, 1 << 56, 77, 1 << 30]),
    (2, &[2, 1 << 56, 2]),
    (2, &[1 << 56, 2, 2]),
];

fn shapes() -> Vec<Shape> {
    let in_form = |form: u64| OF_ONE_RANGE.map(|(m, t, v)| OldShape { m, t, v }.in_form(form));
    let of_ranges = OF_RANGES.map(|(m, ranges)| Shape::of_ranges(m, ranges));
    [&in_form(0)[..], &in_form(1), &of_ranges].concat()
}

/// Counts up the digits `low` to `high`, rightmost fastest; false at the end.
fn count_up(digits: &mut [u64], low: u64, high: u64) -> bool {
    for digit in digits.iter_mut().rev() {
        if *digit < high {
            *digit += 1;
            return true;
        }
        *digit = low;
    }
    false
}

/// The next choice in the sorted list of 0/1 strings with as many ones, or the
/// first one with one more.
fn next_choice(chosen: &[bool]) -> Vec<bool> {
    let mut next = chosen.to_vec();
    let pairs = chosen.windows(2);
    match pairs.rev().position(|pair| !pair[0] && pair[1]) {
        Some(from_right) => {
            let place = chosen.len() - 2 - from_right;
            next.swap(place, place + 1);
            next[place + 2..].reverse();
        }
        None => {
            let written = chosen.iter().filter(|is_chosen| **is_chosen).count();
            let unwritten = chosen.len() - written - 1;
            next = (0..chosen.len()).map(|place| place >= unwritten).collect();
        }
    }
    next
}

fn next_pattern(pattern: &[u64], highest: u64) -> Vec<u64> {
    let mut chosen: Vec<bool> = pattern.iter().map(|value| *value != 0).collect();
    let mut values: Vec<u64> = pattern
        .iter()
        .copied()
        .filter(|value| *value != 0)
        .collect();
    if !count_up(&mut values, 1, highest) {
        chosen = next_choice(&chosen);
        values = vec![1; chosen.iter().filter(|is_chosen| **is_chosen).count()];
    }
    let mut next = vec![0; pattern.len()];
    let places = (0..pattern.len()).filter(|place| chosen[*place]);
    for (place, value) in places.zip(values) {
        next[place] = value;
    }
    next
}

/// Numbers from all over the range, and both sides of each step to one more
/// written place.
fn samples(layout: &Layout, generation: usize, counting: &mut Counting) -> Vec<u64> {
    let range = layout.range(generation);
    let scattered = (1..200_u64).map(|i| i.wrapping_mul(0x9e37_79b9_7f4a_7c15) % range);
    let mut numbers: Vec<u64> = scattered.chain(0..20).collect();
    if let Some(deal) = layout.deal(generation) {
        for k in deal.fewest..=deal.most {
            let up_to = counting.patterns_over(deal.places, deal.fewest..k + 1, deal.base);
            let up_to = up_to.to_u64().unwrap_or(u64::MAX);
            numbers.extend([up_to - 1, up_to, up_to.saturating_add(1)]);
        }
    }
    numbers.retain(|number| *number < range - 1);
    numbers
}

fn check_generation(layout: &Layout, generation: usize, counting: &mut Counting) {
    for number in samples(layout, generation, counting) {
        let mut pattern = |number: u64| {
            field::pattern_for(generation, layout, &Whole::from(number), counting)
                .expect("the number is in range")
        };
        let (this, next) = (pattern(number), pattern(number + 1));
        match layout.deal(generation) {
            Some(deal) => {
                assert_eq!(next_pattern(&this, deal.base), next);
                assert_eq!(deal.number(&this, counting), Whole::from(number));
            }
            None => {
                let mut counted = this.clone();
                assert!(count_up(&mut counted, 0, layout.erased() - 1));
                assert_eq!(counted, next);
                let number = Whole::from(number);
                assert_eq!(dealing::last_number(&this, layout.erased()), Some(number));
            }
        }
    }
}

#[test]
fn neighbouring_numbers_have_neighbouring_patterns() {
    let mut layouts = Layouts::default();
    for shape in shapes() {
        let layout = layouts.grant(&shape, 256).expect("a list that fits");
        for generation in 1..=layout.generations() {
            check_generation(&layout, generation, &mut layouts.counting);
        }
    }
}

#[test]
fn number_0_has_the_first_pattern() {
    let mut layouts = Layouts::default();
    for shape in shapes() {
        let layout = layouts.grant(&shape, 256).expect("a list that fits");
        for generation in 1..=layout.generations() {
            let zero = Whole::zero();
            let first = field::pattern_for(generation, &layout, &zero, &mut layouts.counting);
            let mut due = vec![0; layout.count(generation)];
            if generation > 1 || shape.form > 0 {
                due[layout.count(generation) - 1] = 1;
            }
            assert_eq!(first, Some(due));
        }
    }
}

#[test]
fn a_large_field_is_written_to_the_end() {
    let mut layouts = Layouts::default();
    for shape in shapes() {
        let layout = layouts.grant(&shape, 256).expect("a list that fits");
        let mut cells = vec![0; (layout.wits() + 7) / 8];
        let mut turned = 0;
        for generation in 1..=layout.generations() {
            let number = (layout.range(generation) - 1).saturating_sub(generation as u64);
            let written = field::write(&shape, number, &cells, &mut layouts)
                .expect("generations are left and the number is in range");
            assert_eq!(written.generation, generation);
            let reading = field::read(&shape, &written.cells, &mut layouts);
            let read_back = reading.map(|reading| (reading.generation, reading.number));
            assert_eq!(read_back, Ok((generation, number)));
            turned += written.turned;
            cells = written.cells;
        }
        // "The turned counts add up to the number of ones in the cells."
        let ones: u32 = cells.iter().map(|byte| byte.count_ones()).sum();
        assert_eq!(turned, u64::from(ones));
        assert!(field::write(&shape, 0, &cells, &mut layouts).is_err());
    }
}
