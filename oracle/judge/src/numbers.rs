//! Questions to math.rs.

use tune::math;
use tune::math::U32Denom;

use crate::asking::Answer;
use crate::asking::ask;

pub fn gcd(x: u16, y: u16) -> Answer<u16> {
    ask(|| math::gcd_u16(x, y))
}

pub fn quotient<D: U32Denom>(numer: i32, denom: D) -> Answer<i32> {
    ask(|| math::i32_div_u(numer, denom))
}

pub fn remainder<D: U32Denom>(numer: i32, denom: D) -> Answer<D> {
    ask(|| math::i32_rem_u(numer, denom))
}

/// Quotient and remainder in one call.
pub fn divided<D: U32Denom>(numer: i32, denom: D) -> Answer<(i32, D)> {
    ask(|| math::i32_dr_u(numer, denom))
}

/// A fraction in lowest terms.
pub fn simplified(numer: u16, denom: u16) -> Answer<(u16, u16)> {
    ask(|| math::simplify_u16(numer, denom))
}

pub fn odd_factors(number: u16) -> Answer<u16> {
    ask(|| math::odd_factors_u16(number))
}
