//! Whole numbers, free pergens and free formats.

use super::Mode;
use super::Task;
use crate::randoms::KEY_LIMITS;
use crate::randoms::LIMITS;
use crate::randoms::Randoms;
use crate::subjects::numbers;
use crate::subjects::pergens::FreePergen;
use crate::tally::Tally;

/// The streams of random numbers that are used here.
const STREAM: u64 = 3_000_000;

/// Numerators at the limits of 32 signed bits.
const NUMERATOR_LIMITS: [i32; 7] = [i32::MIN, i32::MIN + 1, -1, 0, 1, i32::MAX - 1, i32::MAX];

pub fn plan(tasks: &mut Vec<Task>, mode: Mode, seed: u64) {
    for period in 0..=mode.pick(24, 40) {
        tasks.push(Box::new(move |tally| all_of_period(tally, period)));
    }
    for period in LIMITS {
        tasks.push(Box::new(move |tally| limits_of_period(tally, period)));
    }
    for stream in 0..mode.pick(128, 1_024) {
        let randoms = Randoms::new(seed, STREAM + stream);
        tasks.push(Box::new(move |tally| at_random(tally, randoms.clone())));
    }
    tasks.push(Box::new(small_numbers));
}

/// Every generator up to twice the period, every key of two periods on both sides of 0,
/// every format of up to ten symbols, and origins up to one that is no symbol's; and
/// the limits of keys.
fn all_of_period(tally: &mut Tally, period: u16) {
    for generator in 0..=2 * period {
        let pergen = FreePergen::new(period, generator);
        pergen.compare(tally);
        for key in KEY_LIMITS {
            pergen.compare_generation(tally, key);
            pergen.compare_accidentals(tally, 7, 3, key);
        }
        let two_periods = 2 * i32::from(period);
        for key in -two_periods..=two_periods {
            pergen.compare_generation(tally, key);
            for symbols in 0..=10 {
                for origin in 0..=symbols {
                    pergen.compare_accidentals(tally, symbols, origin, key);
                }
            }
        }
    }
}

fn limits_of_period(tally: &mut Tally, period: u16) {
    for other in LIMITS {
        numbers::gcd(tally, period, other);
        let pergen = FreePergen::new(period, other);
        pergen.compare(tally);
        for key in LIMITS.map(i32::from).into_iter().chain(KEY_LIMITS) {
            pergen.compare_generation(tally, key);
            for (symbols, origin) in [(1, 0), (7, 3), (32_768, 32_767), (65_535, 65_534)] {
                pergen.compare_accidentals(tally, symbols, origin, key);
            }
        }
    }
    for numer in NUMERATOR_LIMITS {
        numbers::remainder(tally, numer, period);
    }
}

fn at_random(tally: &mut Tally, mut randoms: Randoms) {
    for _ in 0..1_000 {
        let pergen = FreePergen::new(randoms.limit_or_any(), randoms.any_length());
        pergen.compare(tally);
        for _ in 0..8 {
            let key = randoms.key();
            pergen.compare_generation(tally, key);
            let symbols = randoms.any_length();
            let origin = randoms.between(0, symbols);
            pergen.compare_accidentals(tally, symbols, origin, key);
        }
        numbers::gcd(tally, randoms.any_length(), randoms.any());
        numbers::remainder(tally, randoms.next() as i32, randoms.any_length());
    }
}

fn small_numbers(tally: &mut Tally) {
    for x in 0..=200 {
        for y in 0..=200 {
            numbers::gcd(tally, x, y);
        }
    }
    for numer in -300..=300 {
        for denom in 0..=64 {
            numbers::remainder(tally, numer, denom);
        }
    }
}
