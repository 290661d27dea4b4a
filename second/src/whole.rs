//! Whole numbers of any size: "Sums below can exceed 64 bits. The answer is
//! nevertheless that of the whole numbers."

use std::cmp::Ordering;

/// Digits in base 2^32, lowest first. The highest digit is never 0, so each
/// number has one form only and zero has no digit at all.
#[derive(Clone, Debug, PartialEq, Eq, Hash)]
pub struct Whole {
    digits: Vec<u32>,
}

impl Whole {
    pub fn zero() -> Whole {
        Whole { digits: Vec::new() }
    }

    fn without_leading_zeros(mut digits: Vec<u32>) -> Whole {
        while digits.last() == Some(&0) {
            digits.pop();
        }
        Whole { digits }
    }

    fn digit(&self, place: usize) -> u64 {
        self.digits.get(place).map_or(0, |digit| u64::from(*digit))
    }

    pub fn power(base: u64, exponent: usize) -> Whole {
        let base = Whole::from(base);
        (0..exponent).fold(Whole::from(1), |product, _| product.times(&base))
    }

    pub fn plus(&self, other: &Whole) -> Whole {
        let places = self.digits.len().max(other.digits.len());
        let mut digits = Vec::with_capacity(places + 1);
        let mut carried = 0;
        for place in 0..places {
            let sum = self.digit(place) + other.digit(place) + carried;
            digits.push(low_digit(sum));
            carried = sum >> 32;
        }
        digits.push(low_digit(carried));
        Whole::without_leading_zeros(digits)
    }

    /// Nothing where `other` is the larger.
    pub fn minus(&self, other: &Whole) -> Option<Whole> {
        if self < other {
            return None;
        }
        let mut digits = Vec::with_capacity(self.digits.len());
        let mut borrowed = 0;
        for place in 0..self.digits.len() {
            let raised = self.digit(place) + (1 << 32);
            let difference = raised - other.digit(place) - borrowed;
            digits.push(low_digit(difference));
            borrowed = 1 - (difference >> 32);
        }
        Some(Whole::without_leading_zeros(digits))
    }

    pub fn times(&self, other: &Whole) -> Whole {
        let mut digits = vec![0; self.digits.len() + other.digits.len() + 1];
        for left in 0..self.digits.len() {
            let mut carried = 0;
            for right in 0..=other.digits.len() {
                // At most (2^32 - 1)^2 + 2·(2^32 - 1) = 2^64 - 1.
                let product = self.digit(left) * other.digit(right);
                let sum = u64::from(digits[left + right]) + product + carried;
                digits[left + right] = low_digit(sum);
                carried = sum >> 32;
            }
        }
        Whole::without_leading_zeros(digits)
    }

    /// Quotient and remainder.
    pub fn divided(&self, divisor: u32) -> (Whole, u32) {
        let divisor = u64::from(divisor);
        let mut digits = vec![0; self.digits.len()];
        let mut remainder = 0;
        for place in (0..self.digits.len()).rev() {
            let part = (remainder << 32) + self.digit(place);
            digits[place] = low_digit(part / divisor);
            remainder = part % divisor;
        }
        (Whole::without_leading_zeros(digits), low_digit(remainder))
    }

    /// Nothing where the number needs more than 64 bits.
    pub fn to_u64(&self) -> Option<u64> {
        if self.digits.len() > 2 {
            return None;
        }
        Some(self.digit(0) + (self.digit(1) << 32))
    }
}

fn low_digit(sum: u64) -> u32 {
    (sum & 0xffff_ffff) as u32
}

impl From<u64> for Whole {
    fn from(number: u64) -> Whole {
        Whole::without_leading_zeros(vec![low_digit(number), low_digit(number >> 32)])
    }
}

impl Ord for Whole {
    fn cmp(&self, other: &Whole) -> Ordering {
        let by_length = self.digits.len().cmp(&other.digits.len());
        by_length.then_with(|| self.digits.iter().rev().cmp(other.digits.iter().rev()))
    }
}

impl PartialOrd for Whole {
    fn partial_cmp(&self, other: &Whole) -> Option<Ordering> {
        Some(self.cmp(other))
    }
}

#[cfg(test)]
mod tests {
    use super::*;

    const SAMPLES: [u64; 10] = [
        0,
        1,
        2,
        3,
        0xffff_ffff,
        0x1_0000_0000,
        0x1_0000_0001,
        (1 << 56) + 12_345,
        u64::MAX - 1,
        u64::MAX,
    ];

    fn whole(number: u128) -> Whole {
        let high = Whole::from((number >> 64) as u64);
        let low = Whole::from(number as u64);
        high.times(&Whole::power(2, 64)).plus(&low)
    }

    #[test]
    fn arithmetic_agrees_with_128_bits() {
        for left in SAMPLES {
            for right in SAMPLES {
                let (a, b) = (Whole::from(left), Whole::from(right));
                let (wide_left, wide_right) = (u128::from(left), u128::from(right));
                assert_eq!(a.plus(&b), whole(wide_left + wide_right));
                assert_eq!(a.times(&b), whole(wide_left * wide_right));
                assert_eq!(a.minus(&b), left.checked_sub(right).map(Whole::from));
                assert_eq!(a.cmp(&b), left.cmp(&right));
                let product = a.times(&b);
                let (quotient, remainder) = product.divided(1_000_003);
                let wide_product = wide_left * wide_right;
                assert_eq!(quotient, whole(wide_product / 1_000_003));
                assert_eq!(u128::from(remainder), wide_product % 1_000_003);
            }
        }
    }

    #[test]
    fn sixty_four_bits_are_the_limit_of_to_u64() {
        let largest = Whole::from(u64::MAX);
        assert_eq!(largest.to_u64(), Some(u64::MAX));
        assert_eq!(largest.plus(&Whole::from(1)).to_u64(), None);
        assert_eq!(Whole::zero().to_u64(), Some(0));
    }

    #[test]
    fn a_carry_or_borrow_runs_through_many_digits() {
        let power = Whole::power(2, 320);
        let below = power.minus(&Whole::from(1)).expect("2^320 is above 1");
        assert!(below < power);
        assert_eq!(below.plus(&Whole::from(1)), power);
        let square = below.times(&below);
        let by_parts = Whole::power(2, 640).minus(&Whole::power(2, 321));
        assert_eq!(
            Some(square),
            by_parts.map(|part| part.plus(&Whole::from(1)))
        );
    }
}
