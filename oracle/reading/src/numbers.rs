//! Whole-number helpers ("Port order": `gcd_u16`, `i32_rem_u`).

use super::Outcome;
use super::Whole;
use super::ask;

/// The greatest common divisor; 0 and 0 give 1.
pub fn gcd(x: Whole, y: Whole) -> Whole {
    match (x, y) {
        (0, 0) => 1,
        (x, 0) => x,
        (x, y) => gcd(y, x % y),
    }
}

/// A remainder that is never negative. A divisor of 0 is no period: question 2.
pub fn remainder(numer: Whole, denom: Whole) -> Outcome<Whole> {
    ask(2, denom >= 1)?;
    Ok(numer.rem_euclid(denom))
}

#[cfg(test)]
mod tests {
    use super::*;

    #[test]
    fn gcd_is_the_greatest_of_the_common_divisors() {
        for x in 1..40 {
            for y in 1..40 {
                let greatest = (1..40).rev().find(|d| x % d == 0 && y % d == 0);
                assert_eq!(Some(gcd(x, y)), greatest);
            }
        }
        assert_eq!(gcd(0, 0), 1);
        assert_eq!(gcd(0, 21), 21);
    }

    #[test]
    fn a_remainder_is_never_negative() {
        assert_eq!(remainder(6 - 10, 12), Ok(8));
        assert_eq!(remainder(5, 0), Err(2));
    }
}
