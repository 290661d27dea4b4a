//! "The granted list is the one whose every count is the least among all lists
//! that meet a to d": here all lists up to a bound are tried one by one.

use second::layout::{Layouts, OldShape, Shape};
use second::refusal::Refusal;

const HIGHEST_COUNT: usize = 11;

fn choose(n: usize, k: usize) -> u128 {
    (0..k).fold(1, |product, i| product * (n - i) as u128 / (i + 1) as u128)
}

fn sum(count: usize, from: usize, to: usize, base: u128) -> u128 {
    let terms = from..=to;
    terms.map(|k| choose(count, k) * base.pow(k as u32)).sum()
}

/// Conditions a to d, word for word, b from k = 0 in form 0 and from k = 1 in the
/// others, each with its own range in form 2; 128 bits are enough up to the bound.
fn meets(list: &[usize], shape: &Shape) -> bool {
    let v = |i: usize| match &shape.ranges[..] {
        [v] => u128::from(*v),
        ranges => u128::from(ranges[i]),
    };
    let fewest = usize::from(shape.form > 0);
    let nonzero = (1 << shape.m) - 1;
    let t = list.len();
    let last_room = u128::pow(nonzero, list[t - 1] as u32) - 1;
    let falls = list.windows(2).all(|pair| pair[0] > pair[1]) && list[t - 1] > 0;
    falls
        && sum(list[0], fewest, list[0] - list[1], nonzero) >= v(0)
        && (1..t - 1).all(|i| sum(list[i], 1, list[i] - list[i + 1], nonzero - 1) >= v(i))
        && last_room >= v(t - 1)
}

/// All falling lists of `length` counts up to the highest.
fn falling_lists(length: usize, highest: usize) -> Vec<Vec<usize>> {
    if length == 0 {
        return vec![Vec::new()];
    }
    let mut lists = Vec::new();
    for first in 1..=highest {
        for rest in falling_lists(length - 1, first - 1) {
            lists.push([vec![first], rest].concat());
        }
    }
    lists
}

/// Holds the granted list against those of `lists` that meet the conditions; true
/// where one was granted.
fn check_least(shape: &Shape, lists: &[Vec<usize>], layouts: &mut Layouts) -> bool {
    let meeting: Vec<&Vec<usize>> = lists.iter().filter(|list| meets(list, shape)).collect();
    let layout = match layouts.grant(shape, HIGHEST_COUNT as u64) {
        Ok(layout) => layout,
        Err(refusal) => {
            assert_eq!(refusal, Refusal::NoListFits);
            assert!(meeting.is_empty());
            return false;
        }
    };
    assert!(meeting.contains(&&layout.counts().to_vec()));
    let is_least = |list: &Vec<usize>| {
        let mut pairs = layout.counts().iter().zip(list);
        pairs.all(|(least, count)| least <= count)
    };
    assert!(meeting.iter().all(|list| is_least(list)));
    true
}

#[test]
fn the_granted_list_is_the_least_of_all() {
    let mut layouts = Layouts::default();
    let mut granted = [0; 2];
    for m in 2..=4 {
        for t in 2..=5 {
            let lists = falling_lists(t as usize, HIGHEST_COUNT);
            for v in (2..=90).chain([211, 242, 243, 277, 342, 343, 3_374, 3_375]) {
                for form in 0..2 {
                    let shape = OldShape { m, t, v }.in_form(form);
                    let is_granted = check_least(&shape, &lists, &mut layouts);
                    granted[form as usize] += usize::from(is_granted);
                }
            }
        }
    }
    assert!(granted.iter().all(|lists| *lists > 900), "{:?}", granted);
}

/// Every list of so many ranges out of these.
fn lists_of_ranges(length: usize, choices: &[u64]) -> Vec<Vec<u64>> {
    if length == 0 {
        return vec![Vec::new()];
    }
    let shorter = lists_of_ranges(length - 1, choices);
    let with_one_more = |range: &u64| {
        let range = *range;
        shorter
            .iter()
            .map(move |rest| [&[range], &rest[..]].concat())
    };
    choices.iter().flat_map(with_one_more).collect()
}

/// Some are one more than a generation has patterns for: 13 is 4·3 + 1, and powers of
/// 2^m − 1 are by condition d.
const RANGES: [&[u64]; 3] = [
    &[2, 3, 4, 8, 9, 12, 13, 15, 16, 26, 27, 48, 49, 80, 81, 243],
    &[2, 3, 7, 9, 13, 15, 27, 49, 225, 1_000],
    &[2, 5, 13, 27, 243],
];

#[test]
fn the_list_granted_for_unequal_ranges_is_the_least_of_all() {
    let mut layouts = Layouts::default();
    for m in 2..=4 {
        for (t, choices) in (2..).zip(RANGES) {
            let lists = falling_lists(t, HIGHEST_COUNT);
            let mut granted = 0;
            for ranges in lists_of_ranges(t, choices) {
                let shape = Shape::of_ranges(m, &ranges);
                granted += usize::from(check_least(&shape, &lists, &mut layouts));
            }
            assert!(granted > choices.len().pow(t as u32) / 2);
        }
    }
}
