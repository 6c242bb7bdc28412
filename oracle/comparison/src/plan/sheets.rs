//! Sheets of keys.

use std::iter;

use super::Mode;
use super::Task;
use super::layouts::CODES;
use super::layouts::MANY_LAYERS;
use super::layouts::accepted_at_random;
use super::layouts::at_limits;
use super::layouts::random_layout;
use super::layouts::starts;
use crate::randoms::KEY_LIMITS;
use crate::randoms::LIMITS;
use crate::randoms::Randoms;
use crate::subjects::layouts::GivenLayout;
use crate::tally::Tally;

/// The streams of random numbers that are used here.
const STREAM: u64 = 13_000_000;

/// The records of a long sheet, and of the longest.
const MANY: usize = 1_000;
const MOST: usize = 65_536;

pub fn plan(tasks: &mut Vec<Task>, mode: Mode, seed: u64) {
    for (index, (code, octave, tritave)) in MANY_LAYERS.into_iter().enumerate() {
        let randoms = Randoms::new(seed, STREAM + index as u64);
        tasks.push(Box::new(move |tally| {
            let layout = GivenLayout::new(code, octave, tritave);
            compare(tally, &layout, MOST, &mut randoms.clone());
        }));
    }
    for stream in 0..mode.pick(8, 64) {
        let randoms = Randoms::new(seed, STREAM + 1_000 + stream);
        tasks.push(Box::new(move |tally| at_random(tally, randoms.clone())));
    }
    for (index, octave) in LIMITS.into_iter().enumerate() {
        let randoms = Randoms::new(seed, STREAM + 10_000 + index as u64);
        tasks.push(Box::new(move |tally| {
            at_limits(octave, &mut randoms.clone(), |layout, randoms| {
                compare(tally, layout, 40, randoms);
            });
        }));
    }
    for octave in (0..=mode.pick(48, 72)).rev() {
        let randoms = Randoms::new(seed, STREAM + 20_000 + u64::from(octave));
        tasks.push(Box::new(move |tally| {
            all_of_octave(tally, octave, randoms.clone());
        }));
    }
}

/// Every chain with each tritave up to 6 × octave + 6, from the chain's own start, and from some
/// other number.
fn all_of_octave(tally: &mut Tally, octave: u16, mut randoms: Randoms) {
    for code in CODES {
        for tritave in 0..=6 * octave + 6 {
            let own = GivenLayout::new(code, octave, tritave);
            let other = randoms.of(&starts(code, octave, tritave));
            let other = GivenLayout::beginning(code, octave, tritave, other);
            for layout in [own, other] {
                layout.compare_sheet(tally, &octaves(octave, &mut randoms));
                layout.compare_sheet(tally, &[]);
                layout.compare_sheet(tally, &[randoms.key()]);
            }
        }
    }
}

/// The keys of four octaves, two of them below 0, and one more on both sides; keys that stood
/// before, again; and the ends of 32 signed bits.
fn octaves(octave: u16, randoms: &mut Randoms) -> Vec<i32> {
    let steps = i32::from(octave);
    let mut keys: Vec<i32> = (-2 * steps - 1..=2 * steps).collect();
    let again = iter::repeat_with(|| randoms.of(&keys)).take(8);
    let again: Vec<i32> = again.collect();
    keys.extend(again);
    keys.extend([i32::MAX, i32::MIN, i32::MAX]);
    keys
}

/// Accepted layouts of any size, and some that are not.
fn at_random(tally: &mut Tally, mut randoms: Randoms) {
    for most in [MOST, MANY, MANY, MANY, MANY, MANY] {
        let layout = accepted_at_random(&mut randoms);
        compare(tally, &layout, most, &mut randoms);
    }
    for _ in 0..100 {
        let (code, octave, tritave) = random_layout(&mut randoms);
        let layout = GivenLayout::new(code, octave, tritave);
        if !layout.is_accepted() {
            compare(tally, &layout, MANY, &mut randoms);
        }
    }
}

/// No record, one, and so many.
fn compare(tally: &mut Tally, layout: &GivenLayout, most: usize, randoms: &mut Randoms) {
    for count in [0, 1, most] {
        layout.compare_sheet(tally, &some_keys(count, randoms));
    }
}

/// Keys at limits and at random, in any order; about every fourth stood before.
fn some_keys(count: usize, randoms: &mut Randoms) -> Vec<i32> {
    let mut keys: Vec<i32> = Vec::with_capacity(count);
    while keys.len() < count {
        let key = match randoms.below(8) {
            0 => randoms.of(&KEY_LIMITS),
            1 | 2 if !keys.is_empty() => randoms.of(&keys),
            _ => randoms.key(),
        };
        keys.push(key);
    }
    keys
}

#[cfg(test)]
mod tests {
    use std::collections::HashSet;

    use super::*;

    #[test]
    fn keys_repeat_and_lie_on_both_sides_of_0() {
        let mut randoms = Randoms::new(1, 1);
        for keys in [some_keys(MANY, &mut randoms), octaves(12, &mut randoms)] {
            let different: HashSet<&i32> = keys.iter().collect();
            assert!(different.len() < keys.len());
            assert!(keys.contains(&i32::MIN) && keys.contains(&i32::MAX));
            assert!(keys.iter().any(|key| (-65_535..0).contains(key)));
        }
        assert!(some_keys(0, &mut randoms).is_empty());
        assert_eq!(some_keys(MOST, &mut randoms).len(), MOST);
    }
}
