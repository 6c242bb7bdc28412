//! Lists in the order of the chain and of keys, and the moves of layouts.

use std::iter;

use super::Mode;
use super::Task;
use super::layouts::CODES;
use super::layouts::accepted_at_random;
use super::layouts::at_limits;
use super::layouts::random_layout;
use super::layouts::starts;
use crate::randoms::LIMITS;
use crate::randoms::Randoms;
use crate::subjects::layouts::GivenLayout;
use crate::subjects::layouts::own_start;
use crate::subjects::orders::Orders;
use crate::tally::Tally;

/// The streams of random numbers that are used here.
const STREAM: u64 = 9_000_000;

pub fn plan(tasks: &mut Vec<Task>, mode: Mode, seed: u64) {
    for (index, octave) in LIMITS.into_iter().enumerate() {
        let randoms = Randoms::new(seed, STREAM + index as u64);
        tasks.push(Box::new(move |tally| {
            at_limits(octave, &mut randoms.clone(), |layout, randoms| {
                compare(tally, layout, randoms);
            });
        }));
    }
    for stream in 0..mode.pick(32, 256) {
        let randoms = Randoms::new(seed, STREAM + 10_000 + stream);
        tasks.push(Box::new(move |tally| at_random(tally, randoms.clone())));
    }
    for octave in (0..=60).rev() {
        let randoms = Randoms::new(seed, STREAM + 20_000 + u64::from(octave));
        tasks.push(Box::new(move |tally| {
            all_of_octave(tally, octave, randoms.clone());
        }));
    }
}

/// Every chain with each tritave up to 6 × octave + 6, from every letter and from what is
/// none.
fn all_of_octave(tally: &mut Tally, octave: u16, mut randoms: Randoms) {
    for code in CODES {
        for tritave in 0..=6 * octave + 6 {
            let own = own_start(code).unwrap_or(0);
            for start in iter::once(own).chain(starts(code, octave, tritave)) {
                let layout = GivenLayout::beginning(code, octave, tritave, start);
                compare(tally, &layout, &mut randoms);
            }
        }
    }
}

/// Accepted layouts of any size, and any others.
fn at_random(tally: &mut Tally, mut randoms: Randoms) {
    for _ in 0..4 {
        let layout = accepted_at_random(&mut randoms);
        compare(tally, &layout, &mut randoms);
    }
    for _ in 0..1_000 {
        let (code, octave, tritave) = random_layout(&mut randoms);
        let layout = GivenLayout::new(code, octave, tritave);
        layout.compare_moves(tally);
    }
}

fn compare(tally: &mut Tally, layout: &GivenLayout, randoms: &mut Randoms) {
    layout.compare_moves(tally);
    let orders = Orders::of(layout);
    for list in lists(layout, randoms) {
        orders.compare(tally, &list);
    }
}

/// The keys themselves; longer lists with any entries, and such of which two of three are
/// equal; lists that are too short. Some short lists where the layout is refused.
fn lists(layout: &GivenLayout, randoms: &mut Randoms) -> Vec<Vec<u16>> {
    let octave = match layout.is_accepted() {
        true => usize::from(layout.given.octave),
        false => 4,
    };
    let keys: Vec<u16> = (0..=u16::MAX).take(octave).collect();
    let one_short = keys[1..].to_vec();
    let more = octave + randoms.below(4) as usize;
    let any = iter::repeat_with(|| randoms.any()).take(more).collect();
    let few = [u16::MAX, 0, u16::MAX].into_iter().cycle();
    let few = few.take(octave + 1).collect();
    vec![Vec::new(), one_short, keys, any, few]
}

#[cfg(test)]
mod tests {
    use super::*;

    #[test]
    fn lists_around_the_octave() {
        let mut randoms = Randoms::new(1, 1);
        for (code, octave, tritave) in [(1, 12, 19), (2, 65_534, 65_535)] {
            let layout = GivenLayout::new(code, octave, tritave);
            let octave = usize::from(octave);
            let [empty, one_short, keys, any, few] = &lists(&layout, &mut randoms)[..] else {
                panic!("five lists");
            };
            assert!(empty.is_empty());
            assert_eq!(one_short.len(), octave - 1);
            assert!(keys.is_sorted_by(|key, next| key + 1 == *next));
            assert_eq!(keys.len(), octave);
            assert!((octave..octave + 4).contains(&any.len()));
            assert_eq!(few.len(), octave + 1);
        }
    }
}
