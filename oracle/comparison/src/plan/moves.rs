//! The moves of all patterns of a walk.

use super::Mode;
use super::Task;
use crate::randoms::LIMITS;
use crate::randoms::Randoms;
use crate::subjects::moves;
use crate::tally::Tally;

/// The streams of random numbers that are used here.
const STREAM: u64 = 10_000_000;

pub fn plan(tasks: &mut Vec<Task>, mode: Mode, seed: u64) {
    for period in LIMITS {
        tasks.push(Box::new(move |tally| {
            for generator in LIMITS {
                moves::of_walk(tally, period, generator);
            }
        }));
    }
    for period in 0..=mode.pick(120, 240) {
        tasks.push(Box::new(move |tally| all_of_period(tally, period)));
    }
    for stream in 0..mode.pick(64, 512) {
        let randoms = Randoms::new(seed, STREAM + stream);
        tasks.push(Box::new(move |tally| at_random(tally, randoms.clone())));
    }
}

/// Every generator up to four times the period, and the largest.
fn all_of_period(tally: &mut Tally, period: u16) {
    let generators = (0..=4 * period + 1).chain(u16::MAX - period..=u16::MAX);
    for generator in generators {
        moves::of_walk(tally, period, generator);
    }
}

/// Periods and generators of any size, within the period and above it.
fn at_random(tally: &mut Tally, mut randoms: Randoms) {
    for _ in 0..500 {
        moves::of_walk(tally, randoms.any(), randoms.any());
        moves::of_walk(tally, randoms.any_length(), randoms.any_length());
        moves::of_walk(tally, randoms.any_length(), randoms.any());
        moves::of_walk(tally, randoms.limit_or_any(), randoms.limit_or_any());
    }
}
