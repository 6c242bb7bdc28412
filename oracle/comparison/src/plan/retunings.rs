//! How far a retuning moves a note.

use reading::LARGEST;
use reading::Whole;
use reading::chains;
use reading::layouts::Layout;

use super::Mode;
use super::Task;
use super::layouts::CODES;
use super::layouts::accepted;
use super::layouts::random_layout;
use super::layouts::random_start;
use crate::randoms::LIMITS;
use crate::randoms::Randoms;
use crate::subjects::layouts::own_start;
use crate::subjects::retunings::GivenRetuning;
use crate::tally::Tally;

/// The streams of random numbers that are used here.
const STREAM: u64 = 11_000_000;

pub fn plan(tasks: &mut Vec<Task>, mode: Mode, seed: u64) {
    for (index, octave) in LIMITS.into_iter().enumerate() {
        let randoms = Randoms::new(seed, STREAM + index as u64);
        tasks.push(Box::new(move |tally| {
            limits_of_octave(tally, octave, randoms.clone());
        }));
    }
    for stream in 0..mode.pick(64, 512) {
        let randoms = Randoms::new(seed, STREAM + 10_000 + stream);
        tasks.push(Box::new(move |tally| at_random(tally, randoms.clone())));
    }
    for octave in (0..=mode.pick(24, 36)).rev() {
        tasks.push(Box::new(move |tally| all_of_octave(tally, octave)));
    }
}

/// Every two tritaves of a chain that make a layout up to 6 × octave + 6, and some that do
/// not: from the chain's own letter, from the others, and from what is none.
fn all_of_octave(tally: &mut Tally, octave: u16) {
    for code in CODES {
        let own = own_start(code).unwrap_or(0);
        let tritaves = tritaves(code, octave, own);
        for from in &tritaves {
            for to in &tritaves {
                let retuning = GivenRetuning::new(code, octave, own, *from, *to);
                retuning.compare_given_spellings(tally);
                compare(tally, &retuning);
                let start = from.wrapping_add(*to) % 11;
                compare(tally, &GivenRetuning::new(code, octave, start, *from, *to));
            }
        }
    }
}

/// The tritaves that make a layout, and the first two that each question refuses.
fn tritaves(code: u16, octave: u16, start: u16) -> Vec<u16> {
    let mut refused = [0; 256];
    (0..=6 * octave + 6)
        .filter(
            |tritave| match Layout::beginning(code, octave, *tritave, start) {
                Ok(_) => true,
                Err(number) => {
                    refused[usize::from(number)] += 1;
                    refused[usize::from(number)] <= 2
                }
            },
        )
        .collect()
}

/// The table, the largest number in it, and spellings with many signs and as many stars as
/// there are cycles, one more and one fewer, in either tuning.
fn compare(tally: &mut Tally, retuning: &GivenRetuning) {
    retuning.compare_table(tally);
    let letters = chains::chain(retuning.given.chain).map_or(0, chains::Chain::count);
    let cycles = match &retuning.reading {
        Ok(reading) => [reading.first.pergen.cycles, reading.second.pergen.cycles],
        Err(_) => [1, 1],
    };
    for letter in [0, letters - 1, letters, LARGEST] {
        for signs in [0, 9, Whole::from(i32::MIN), Whole::from(i32::MAX)] {
            for stars in cycles.map(|count| [count - 1, count, count + 1]).concat() {
                retuning.compare_moved(tally, [letter.max(0), signs, stars]);
            }
        }
    }
}

/// An octave at a limit, with tritaves at limits.
fn limits_of_octave(tally: &mut Tally, octave: u16, mut randoms: Randoms) {
    for code in CODES {
        for from in LIMITS {
            let to = randoms.of(&LIMITS);
            let start = random_start(code, &mut randoms);
            compare(tally, &GivenRetuning::new(code, octave, start, from, to));
        }
    }
}

/// Accepted layouts of any size, with tritaves nearby, at which there often is another.
fn at_random(tally: &mut Tally, mut randoms: Randoms) {
    for _ in 0..8 {
        let (code, octave, from) = accepted(0, || random_layout(&mut randoms));
        for _ in 0..12 {
            let to = nearby(from, &mut randoms);
            let start = random_start(code, &mut randoms);
            let (one, other) = match randoms.below(2) {
                0 => (from, to),
                _ => (to, from),
            };
            let retuning = GivenRetuning::new(code, octave, start, one, other);
            compare(tally, &retuning);
            for _ in 0..20 {
                let letter = randoms.between(0, 9).into();
                let signs = randoms.key().into();
                let stars = randoms.any_length().into();
                retuning.compare_moved(tally, [letter, signs, stars]);
            }
        }
    }
}

/// A number at most 48 away, and mostly one that twelve divides, so that every chain has a
/// generator.
fn nearby(tritave: u16, randoms: &mut Randoms) -> u16 {
    let away = match randoms.below(4) {
        0 => randoms.between(0, 48),
        _ => 12 * randoms.between(0, 4),
    };
    match randoms.below(2) {
        0 => tritave.saturating_sub(away),
        _ => tritave.saturating_add(away),
    }
}
