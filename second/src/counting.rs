//! Binomials C(n, k) and the sums of C(s, k)·b^k that the conditions and the
//! dealing of numbers are made of.

use crate::whole::Whole;
use std::collections::HashMap;
use std::ops::Range;

/// Remembers what was counted before; the counts never change.
#[derive(Default)]
pub struct Counting {
    pascal_rows: Vec<Vec<Whole>>,
    patterns: HashMap<(usize, usize, u64), Whole>,
}

impl Counting {
    /// "C(n, k) is 0 where k is above n."
    pub fn choose(&mut self, n: usize, k: usize) -> Whole {
        while self.pascal_rows.len() <= n {
            let row = next_pascal_row(self.pascal_rows.last());
            self.pascal_rows.push(row);
        }
        self.pascal_rows[n]
            .get(k)
            .cloned()
            .unwrap_or_else(Whole::zero)
    }

    /// C(places, written)·base^written, the patterns with that many written
    /// places.
    pub fn patterns(&mut self, places: usize, written: usize, base: u64) -> Whole {
        let key = (places, written, base);
        if let Some(count) = self.patterns.get(&key) {
            return count.clone();
        }
        let choices = self.choose(places, written);
        let count = choices.times(&Whole::power(base, written));
        self.patterns.insert(key, count.clone());
        count
    }

    /// The sum of `patterns` over the written counts in `written`.
    pub fn patterns_over(&mut self, places: usize, written: Range<usize>, base: u64) -> Whole {
        written.fold(Whole::zero(), |sum, k| {
            sum.plus(&self.patterns(places, k, base))
        })
    }
}

fn next_pascal_row(row_before: Option<&Vec<Whole>>) -> Vec<Whole> {
    let one = Whole::from(1);
    let before = match row_before {
        None => return vec![one],
        Some(before) => before,
    };
    let inner = before.windows(2).map(|pair| pair[0].plus(&pair[1]));
    let mut row = vec![one.clone()];
    row.extend(inner);
    row.push(one);
    row
}

#[cfg(test)]
mod tests {
    use super::*;

    #[test]
    fn binomials_meet_their_product_form() {
        let mut counting = Counting::default();
        for n in 0..=256 {
            for k in 1..=n {
                let left = counting.choose(n, k).times(&Whole::from(k as u64));
                let factor = Whole::from((n - k + 1) as u64);
                let right = counting.choose(n, k - 1).times(&factor);
                assert_eq!(left, right, "C({}, {})", n, k);
            }
            assert_eq!(counting.choose(n, 0), Whole::from(1));
            assert_eq!(counting.choose(n, n + 1), Whole::zero());
        }
    }

    #[test]
    fn all_patterns_together_are_a_power() {
        let mut counting = Counting::default();
        for base in [2, 3, 6, 7, 14, 15] {
            for places in [0, 1, 2, 57, 256] {
                let all = counting.patterns_over(places, 0..places + 1, base);
                assert_eq!(all, Whole::power(base + 1, places));
            }
        }
    }
}
