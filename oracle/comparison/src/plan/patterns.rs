//! Given patterns, and searches.

use super::Mode;
use super::Task;
use crate::randoms::LIMITS;
use crate::randoms::Randoms;
use crate::subjects::patterns;
use crate::subjects::patterns::GivenPattern;
use crate::tally::Tally;

/// The streams of random numbers that are used here.
const STREAM: u64 = 2_000_000;

/// Numbers at which the walks are longest or the size just fits.
const PATTERN_LIMITS: [u16; 13] = [
    0, 1, 2, 3, 4, 255, 256, 257, 32_767, 32_768, 32_769, 65_534, 65_535,
];

/// Places of the board around key 0.
const SMALL_PLACES: [i16; 5] = [-2, -1, 0, 1, 2];

/// Places of the board at the limits.
const PLACE_LIMITS: [i16; 7] = [i16::MIN, -32_767, -1, 0, 1, 32_766, i16::MAX];

pub fn plan(tasks: &mut Vec<Task>, mode: Mode, seed: u64) {
    for primary_count in PATTERN_LIMITS {
        tasks.push(Box::new(move |tally| {
            all_with_count(tally, primary_count, &PATTERN_LIMITS, &PLACE_LIMITS);
        }));
    }
    let largest = mode.pick(14, 20);
    for primary_count in 0..=largest {
        tasks.push(Box::new(move |tally| {
            let numbers: Vec<u16> = (0..=largest).collect();
            all_with_count(tally, primary_count, &numbers, &SMALL_PLACES);
        }));
    }
    for stream in 0..mode.pick(40, 320) {
        let randoms = Randoms::new(seed, STREAM + stream);
        tasks.push(Box::new(move |tally| at_random(tally, randoms.clone())));
    }
    for period in 0..=mode.pick(60, 120) {
        tasks.push(Box::new(move |tally| all_searches(tally, period)));
    }
}

/// Every pattern of the numbers that has this primary count, with every key whose
/// place is of the places.
fn all_with_count(tally: &mut Tally, primary_count: u16, numbers: &[u16], places: &[i16]) {
    for secondary_count in numbers {
        for primary_step in numbers {
            for secondary_step in numbers {
                let pattern = GivenPattern::new([
                    primary_count,
                    *secondary_count,
                    *primary_step,
                    *secondary_step,
                ]);
                pattern.compare(tally);
                compare_board(tally, &pattern, places);
            }
        }
    }
}

fn compare_board(tally: &mut Tally, pattern: &GivenPattern, places: &[i16]) {
    for primary in places {
        for secondary in places {
            pattern.compare_key(tally, *primary, *secondary);
        }
    }
}

fn at_random(tally: &mut Tally, mut randoms: Randoms) {
    for _ in 0..500 {
        let pattern = GivenPattern::new(random_pattern(&mut randoms));
        pattern.compare(tally);
        for _ in 0..4 {
            let [primary, secondary] = [randoms.any() as i16, randoms.any() as i16];
            pattern.compare_key(tally, primary, secondary);
        }
        compare_random_search(tally, &mut randoms);
    }
}

/// Mostly a pattern whose size fits; at times any four numbers.
fn random_pattern(randoms: &mut Randoms) -> [u16; 4] {
    if randoms.below(8) == 0 {
        return std::array::from_fn(|_| randoms.any_length());
    }
    let primary_count = randoms.any_length();
    let primary_step = randoms.between(0, u16::MAX / primary_count.max(1));
    let left = u16::MAX - primary_count * primary_step;
    let secondary_count = randoms.any_length();
    let secondary_step = randoms.between(0, left / secondary_count.max(1));
    [primary_count, secondary_count, primary_step, secondary_step]
}

fn compare_random_search(tally: &mut Tally, randoms: &mut Randoms) {
    let period = randoms.limit_or_any();
    let generator = randoms.limit_or_any();
    for steps in [2, 5, 7, 8, 9, randoms.any_length(), randoms.of(&LIMITS)] {
        patterns::find(tally, period, generator, steps);
    }
}

fn all_searches(tally: &mut Tally, period: u16) {
    for generator in 0..=2 * period + 1 {
        for steps in 0..=period + 2 {
            patterns::find(tally, period, generator, steps);
        }
    }
}
