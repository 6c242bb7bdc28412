//! Chains, and the meaning of layer numbers.

use super::Mode;
use super::Task;
use crate::randoms::LIMITS;
use crate::randoms::Randoms;
use crate::subjects::chains;
use crate::subjects::layouts;
use crate::tally::Tally;

/// The streams of random numbers that are used here.
const STREAM: u64 = 6_000_000;

pub fn plan(tasks: &mut Vec<Task>, mode: Mode, seed: u64) {
    tasks.push(Box::new(|tally| {
        (0..=u16::MAX).for_each(|code| chains::compare(tally, code));
    }));
    tasks.push(Box::new(small_kinds));
    tasks.push(Box::new(move |tally| {
        kinds_at_random(tally, mode, Randoms::new(seed, STREAM));
    }));
}

/// Every number up to two that no key has.
fn small_kinds(tally: &mut Tally) {
    for total in 0..=300 {
        for number in 0..total + 2 {
            layouts::compare_kind(tally, total, number);
        }
    }
    for total in LIMITS {
        for number in LIMITS {
            layouts::compare_kind(tally, total, number);
        }
    }
}

fn kinds_at_random(tally: &mut Tally, mode: Mode, mut randoms: Randoms) {
    for _ in 0..mode.pick(20_000, 200_000) {
        let total = randoms.any();
        for number in [randoms.any(), total / 2, total.div_ceil(2)] {
            layouts::compare_kind(tally, total, number);
        }
    }
}
