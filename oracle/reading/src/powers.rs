//! Powers of 2 and 3 as whole numbers of any size, to compare them exactly.

use std::cmp::Ordering;
use std::iter;
use std::sync::LazyLock;

/// A whole number by its digits to the base 2^32, the least first, without a 0 at the end. The
/// comparison of two goes by the number of digits, then from the last digit down.
#[derive(Clone, Debug, PartialEq, Eq)]
pub struct Power(Vec<u32>);

impl Power {
    fn times(&self, factor: u32) -> Self {
        let mut carried = 0;
        let mut digits: Vec<u32> = self
            .0
            .iter()
            .map(|digit| {
                let product = u64::from(*digit) * u64::from(factor) + carried;
                carried = product >> 32;
                product as u32
            })
            .collect();
        if carried > 0 {
            digits.push(carried as u32);
        }
        Self(digits)
    }
}

impl Ord for Power {
    fn cmp(&self, other: &Self) -> Ordering {
        let from_last = |power: &Self| power.0.iter().rev().copied().collect::<Vec<u32>>();
        let by_length = self.0.len().cmp(&other.0.len());
        by_length.then_with(|| from_last(self).cmp(&from_last(other)))
    }
}

impl PartialOrd for Power {
    fn partial_cmp(&self, other: &Self) -> Option<Ordering> {
        Some(self.cmp(other))
    }
}

/// The powers of a number, from its power 0 on.
fn powers(base: u32) -> impl Iterator<Item = Power> {
    let one = Power(vec![1]);
    iter::successors(Some(one), move |power| Some(power.times(base)))
}

/// A power of 3 or of 2 with any exponent; it is worked out from the beginning.
pub fn power(base: u32, exponent: usize) -> Power {
    powers(base)
        .nth(exponent)
        .expect("powers go on without an end")
}

/// Divisions of the octave up to 400 ask for 3 to the power 3 × 400, which is below 2 to the
/// power 1,902, and compare it with powers of 2 next to it.
const EXPONENTS: usize = 2_000;

static OF_TWO: LazyLock<Vec<Power>> = LazyLock::new(|| powers(2).take(EXPONENTS).collect());
static OF_THREE: LazyLock<Vec<Power>> = LazyLock::new(|| powers(3).take(EXPONENTS).collect());

/// 2 to a power below [`EXPONENTS`].
pub fn of_two(exponent: usize) -> &'static Power {
    &OF_TWO[exponent]
}

/// 3 to a power below [`EXPONENTS`].
pub fn of_three(exponent: usize) -> &'static Power {
    &OF_THREE[exponent]
}

#[cfg(test)]
mod tests {
    use super::*;

    #[test]
    fn small_powers() {
        let small = |power: &Power| {
            let digits = power.0.iter().rev();
            digits.fold(0, |value: u128, digit| (value << 32) + u128::from(*digit))
        };
        for exponent in 0..80 {
            assert_eq!(small(of_two(exponent)), 2u128.pow(exponent as u32));
            assert_eq!(small(of_three(exponent)), 3u128.pow(exponent as u32));
        }
    }

    #[test]
    fn powers_are_compared_as_numbers() {
        for three in 0..80 {
            for two in 0..127 {
                let numbers = 3u128.pow(three).cmp(&(1 << two));
                let powers = of_three(three as usize).cmp(of_two(two as usize));
                assert_eq!(powers, numbers, "3^{three} and 2^{two}");
            }
        }
    }

    #[test]
    fn a_power_of_any_exponent() {
        assert_eq!(power(3, 1_200), *of_three(1_200));
        // Two fractions near the number of octaves in a tritave, one on each side.
        assert!(power(3, 306) < power(2, 485));
        assert!(power(3, 665) > power(2, 1_054));
    }
}
