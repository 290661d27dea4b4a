//! "Dealing numbers to patterns": a pattern is the values of a generation's
//! places from left to right, 0 where the place isn't written.

use crate::counting::Counting;
use crate::whole::Whole;

/// The patterns of one generation below the last: how many places it has, the
/// base b of a written place, and how few and how many places it may write.
#[derive(Clone, Copy, Debug, PartialEq, Eq)]
pub struct Deal {
    pub places: usize,
    pub base: u64,
    pub fewest: usize,
    pub most: usize,
}

impl Deal {
    /// "Generation 1: places are all h_1 groups, b = 2^m − 1", k from `fewest`,
    /// which the form decides, "to h_1 − h_2".
    pub fn first(erased: u64, count: usize, next: usize, fewest: usize) -> Deal {
        Deal {
            places: count,
            base: erased,
            fewest,
            most: count - next,
        }
    }

    /// "Generations 2 to t − 1: places are the unerased groups, h_i of them;
    /// b = 2^m − 2, k from 1 to h_i − h_(i+1)."
    pub fn middle(erased: u64, count: usize, next: usize) -> Deal {
        Deal {
            places: count,
            base: erased - 1,
            fewest: 1,
            most: count - next,
        }
    }

    /// How many patterns there are, the sum in conditions b and c.
    pub fn room(&self, counting: &mut Counting) -> Whole {
        counting.patterns_over(self.places, self.fewest..self.most + 1, self.base)
    }

    /// "Its number is: the count of patterns with fewer written places, plus
    /// rank·b^k, plus the written values less 1 read as k digits in base b."
    pub fn number(&self, pattern: &[u64], counting: &mut Counting) -> Whole {
        let chosen: Vec<bool> = pattern.iter().map(|value| *value != 0).collect();
        let written = pattern.iter().filter(|value| **value != 0);
        let digits: Vec<u64> = written.map(|value| value - 1).collect();
        let k = digits.len();
        let fewer = counting.patterns_over(self.places, self.fewest..k, self.base);
        let by_rank = rank(&chosen, counting).times(&Whole::power(self.base, k));
        fewer.plus(&by_rank).plus(&from_digits(&digits, self.base))
    }

    /// The pattern with this number; nothing where there are too few.
    pub fn pattern(&self, number: &Whole, counting: &mut Counting) -> Option<Vec<u64>> {
        let mut rest = number.clone();
        for k in self.fewest..=self.most {
            match rest.minus(&counting.patterns(self.places, k, self.base)) {
                Some(beyond) => rest = beyond,
                None => return Some(self.pattern_with(k, rest, counting)),
            }
        }
        None
    }

    fn pattern_with(&self, k: usize, rest: Whole, counting: &mut Counting) -> Vec<u64> {
        let (rank, digits) = split_digits(rest, k, self.base);
        let chosen = choice(rank, self.places, k, counting);
        let chosen_places = (0..self.places).filter(|place| chosen[*place]);
        let mut pattern = vec![0; self.places];
        for (place, digit) in chosen_places.zip(digits) {
            pattern[place] = digit + 1;
        }
        pattern
    }
}

/// "Places are labelled s − 1 (leftmost) down to 0 (rightmost); chosen labels
/// i_1 > .. > i_k give C(i_1, k) + C(i_2, k − 1) + .. + C(i_k, 1)."
pub fn rank(chosen: &[bool], counting: &mut Counting) -> Whole {
    let labels = (0..chosen.len()).rev();
    let with_labels = labels.zip(chosen);
    let chosen_labels: Vec<usize> = with_labels
        .filter(|(_, is_chosen)| **is_chosen)
        .map(|(label, _)| label)
        .collect();
    let lower = (1..=chosen_labels.len()).rev();
    chosen_labels
        .iter()
        .zip(lower)
        .fold(Whole::zero(), |sum, (label, k)| {
            sum.plus(&counting.choose(*label, k))
        })
}

/// "The way back goes group by group, from the highest label down."
pub fn choice(rank: Whole, places: usize, k: usize, counting: &mut Counting) -> Vec<bool> {
    let mut rest = rank;
    let mut still_to_choose = k;
    let mut chosen = Vec::with_capacity(places);
    for label in (0..places).rev() {
        let beyond = match still_to_choose {
            0 => None,
            _ => rest.minus(&counting.choose(label, still_to_choose)),
        };
        chosen.push(beyond.is_some());
        if let Some(beyond) = beyond {
            rest = beyond;
            still_to_choose -= 1;
        }
    }
    chosen
}

/// "Generation t: the h_t unerased groups, left to right, are the digits in
/// base 2^m − 1 of the number plus 1." Nothing for all zero digits, which stand
/// for no number.
pub fn last_number(pattern: &[u64], base: u64) -> Option<Whole> {
    from_digits(pattern, base).minus(&Whole::from(1))
}

/// Nothing where the number plus 1 needs more digits than there are places.
pub fn last_pattern(number: &Whole, places: usize, base: u64) -> Option<Vec<u64>> {
    let (above, digits) = split_digits(number.plus(&Whole::from(1)), places, base);
    if above == Whole::zero() {
        Some(digits)
    } else {
        None
    }
}

fn from_digits(digits: &[u64], base: u64) -> Whole {
    let base = Whole::from(base);
    digits.iter().fold(Whole::zero(), |number, digit| {
        number.times(&base).plus(&Whole::from(*digit))
    })
}

/// The last `count` digits, leftmost most significant, and what stands before
/// them.
fn split_digits(number: Whole, count: usize, base: u64) -> (Whole, Vec<u64>) {
    let mut above = number;
    let mut digits = vec![0; count];
    for digit in digits.iter_mut().rev() {
        let (quotient, remainder) = above.divided(base as u32);
        above = quotient;
        *digit = u64::from(remainder);
    }
    (above, digits)
}

#[cfg(test)]
mod tests {
    use super::*;

    fn places(picture: &str) -> Vec<bool> {
        picture.chars().map(|place| place == '1').collect()
    }

    #[test]
    fn the_choice_0101100_has_rank_15() {
        let mut counting = Counting::default();
        let chosen = places("0101100");
        assert_eq!(rank(&chosen, &mut counting), Whole::from(15));
        assert_eq!(choice(Whole::from(15), 7, 3, &mut counting), chosen);
    }

    #[test]
    fn ranks_are_the_order_of_the_sorted_list() {
        let mut counting = Counting::default();
        for k in 0..=9 {
            let listed = (0..1_u32 << 9).filter(|mask| mask.count_ones() == k);
            for (order, mask) in listed.enumerate() {
                let chosen = places(&format!("{:09b}", mask));
                let order = Whole::from(order as u64);
                assert_eq!(rank(&chosen, &mut counting), order);
                assert_eq!(choice(order, 9, k as usize, &mut counting), chosen);
            }
        }
    }

    #[test]
    fn a_deal_ends_with_its_room() {
        let mut counting = Counting::default();
        let deal = Deal::middle(3, 7, 4);
        let room = deal.room(&mut counting);
        assert_eq!(room, Whole::from(7 * 2 + 21 * 4 + 35 * 8));
        assert_eq!(deal.pattern(&room, &mut counting), None);
        let last = room.minus(&Whole::from(1)).expect("the room is not 0");
        let pattern = deal.pattern(&last, &mut counting);
        assert_eq!(pattern, Some(vec![2, 2, 2, 0, 0, 0, 0]));
    }

    #[test]
    fn the_last_generation_has_no_number_for_all_zero_digits() {
        assert_eq!(last_number(&[0, 0], 3), None);
        assert_eq!(last_number(&[0, 1], 3), Some(Whole::from(0)));
        assert_eq!(last_pattern(&Whole::from(7), 2, 3), Some(vec![2, 2]));
        assert_eq!(last_pattern(&Whole::from(8), 2, 3), None);
    }
}
