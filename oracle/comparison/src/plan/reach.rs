//! Distances between a layout's keys: the nearest key of a letter, and the keys in reach.

use std::iter;

use reading::fitted;
use reading::names;
use reading::names::Spelling;

use super::Mode;
use super::Task;
use super::layouts::CODES;
use super::layouts::accepted_at_random;
use super::layouts::at_limits;
use super::layouts::random_layout;
use super::layouts::starts;
use crate::randoms::KEY_LIMITS;
use crate::randoms::LIMITS;
use crate::randoms::Randoms;
use crate::subjects::layouts::GivenLayout;
use crate::tally::Tally;

/// The streams of random numbers that are used here.
const STREAM: u64 = 8_000_000;

/// Both ends of 32 signed bits.
const ENDS: [i32; 2] = [i32::MIN, i32::MAX];

pub fn plan(tasks: &mut Vec<Task>, mode: Mode, seed: u64) {
    for (index, octave) in LIMITS.into_iter().enumerate() {
        let randoms = Randoms::new(seed, STREAM + index as u64);
        tasks.push(Box::new(move |tally| {
            at_limits(octave, &mut randoms.clone(), |layout, randoms| {
                compare_some(tally, layout, randoms);
            });
        }));
    }
    for stream in 0..mode.pick(32, 256) {
        let randoms = Randoms::new(seed, STREAM + 10_000 + stream);
        tasks.push(Box::new(move |tally| at_random(tally, randoms.clone())));
    }
    for octave in (0..=60).rev() {
        tasks.push(Box::new(move |tally| all_of_octave(tally, octave)));
    }
}

/// Every chain with each tritave up to 6 × octave + 6, from every letter and from what is
/// none.
fn all_of_octave(tally: &mut Tally, octave: u16) {
    for code in CODES {
        let mut is_first = true;
        for tritave in 0..=6 * octave + 6 {
            let layout = GivenLayout::new(code, octave, tritave);
            compare_own_start(tally, &layout, octave);
            for start in starts(code, octave, tritave) {
                let layout = GivenLayout::beginning(code, octave, tritave, start);
                compare_other_start(tally, &layout, octave);
            }
            if is_first && layout.is_accepted() {
                compare_every_reach(tally, &layout, octave);
                is_first = false;
            }
        }
    }
}

/// Every letter from each key of three octaves, one of them below 0, with a key more on both
/// sides; some lists.
fn compare_own_start(tally: &mut Tally, layout: &GivenLayout, octave: u16) {
    let steps = i32::from(octave);
    let keys = match layout.is_accepted() {
        true => -steps - 1..=2 * steps,
        false => -1..=1,
    };
    let keys: Vec<i32> = keys.chain(ENDS).collect();
    layout.compare_nearest(tally, &keys);
    for key in [i32::MIN, -1, 0, steps / 2, steps] {
        for distance in distances(octave) {
            layout.compare_reach(tally, key, distance);
        }
    }
}

/// Every letter from each key of the octave and one more on both sides; two lists.
fn compare_other_start(tally: &mut Tally, layout: &GivenLayout, octave: u16) {
    layout.compare_nearest(tally, &keys_of(layout, octave));
    for distance in [1, octave / 2] {
        layout.compare_reach(tally, -1, distance);
    }
}

/// Lists of each distance up to one more than the octave.
fn compare_every_reach(tally: &mut Tally, layout: &GivenLayout, octave: u16) {
    for key in keys_of(layout, octave) {
        for distance in 0..=octave + 1 {
            layout.compare_reach(tally, key, distance);
        }
    }
}

/// The keys of the octave and one more on both sides, of refused layouts three, and the ends
/// of 32 signed bits.
fn keys_of(layout: &GivenLayout, octave: u16) -> Vec<i32> {
    let keys = match layout.is_accepted() {
        true => -1..=i32::from(octave),
        false => -1..=1,
    };
    keys.chain(ENDS).collect()
}

/// Distances at which something changes: the shortest, those around half the octave, from
/// which on all keys are in reach, and the longest.
fn distances(octave: u16) -> [u16; 7] {
    let half = octave / 2;
    let below = octave.saturating_sub(1) / 2;
    [
        0,
        1,
        below.saturating_sub(1),
        below,
        half,
        half + 1,
        u16::MAX,
    ]
}

/// Accepted layouts of any size, and some that are not.
fn at_random(tally: &mut Tally, mut randoms: Randoms) {
    for _ in 0..4 {
        let layout = accepted_at_random(&mut randoms);
        compare_some(tally, &layout, &mut randoms);
    }
    for _ in 0..100 {
        let (code, octave, tritave) = random_layout(&mut randoms);
        let layout = GivenLayout::new(code, octave, tritave);
        if !layout.is_accepted() {
            compare_some(tally, &layout, &mut randoms);
        }
    }
}

/// Every letter from keys at limits, keys at random and keys opposite to a letter's; three
/// keys at random with some distances.
fn compare_some(tally: &mut Tally, layout: &GivenLayout, randoms: &mut Randoms) {
    let octave = layout.given.octave;
    let any = iter::repeat_with(|| randoms.key()).take(10);
    let keys = any.chain(KEY_LIMITS).chain(opposite_keys(layout));
    layout.compare_nearest(tally, &keys.collect::<Vec<i32>>());
    for _ in 0..3 {
        for distance in distances(octave) {
            layout.compare_reach(tally, randoms.key(), distance);
        }
        let distance = randoms.between(0, octave);
        layout.compare_reach(tally, randoms.key(), distance);
    }
}

/// Keys half an octave away from the middle of each letter's keys, where one of them may be
/// as near as another, and those beside.
fn opposite_keys(layout: &GivenLayout) -> Vec<i32> {
    let Ok(layout) = &layout.reading else {
        return Vec::new();
    };
    let middle = (layout.pergen.cycles - 1) / 2 + layout.pergen.period / 2;
    let of_letter = |letter| {
        let bare = Spelling {
            letter,
            signs: 0,
            stars: 0,
        };
        let first = names::sounded(layout, bare).expect("a letter");
        (first + middle - 2..first + middle + 3).map(fitted::<i32>)
    };
    (0..layout.chain.count()).flat_map(of_letter).collect()
}

#[cfg(test)]
mod tests {
    use reading::Whole;
    use reading::reach;

    use super::*;

    #[test]
    fn keys_equally_near_are_among_the_opposite_ones() {
        // D, D* and D**.
        let layout = GivenLayout::new(1, 36, 57);
        assert!(opposite_keys(&layout).contains(&19));
        let away = |other: Whole| reach::distance(36, 19, other);
        assert_eq!(away(0), away(2));
    }
}
