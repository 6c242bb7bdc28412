//! Stored strips: every code by itself, at every place of a short strip, and strips at
//! random.

use super::Mode;
use super::Task;
use crate::randoms::Randoms;
use crate::subjects::strips;
use crate::tally::Tally;

/// The streams of random numbers that are used here.
const STREAM: u64 = 7_000_000;

/// How many codes the strips have in which each code stands at each place.
const PLACES: usize = 5;

pub fn plan(tasks: &mut Vec<Task>, mode: Mode, seed: u64) {
    tasks.push(Box::new(every_old_code));
    for high in 0..=u8::MAX {
        tasks.push(Box::new(move |tally| every_new_code(tally, high)));
    }
    for stream in 0..mode.pick(64, 512) {
        let randoms = Randoms::new(seed, STREAM + stream);
        tasks.push(Box::new(move |tally| at_random(tally, randoms.clone())));
    }
}

/// The empty strip, each code alone and at each place of a short strip, and all codes
/// in one strip: as many as can be converted, and all.
fn every_old_code(tally: &mut Tally) {
    strips::widen(tally, &[]);
    for code in 0..=u8::MAX {
        strips::widen(tally, &[code]);
        for place in 0..PLACES {
            let mut strip = [0, 2, 1, 255, 102];
            strip[place] = code;
            strips::widen(tally, &strip);
        }
    }
    let convertible: Vec<u8> = (0..=201).chain([255]).collect();
    strips::widen(tally, &convertible);
    let all: Vec<u8> = (0..=u8::MAX).collect();
    strips::widen(tally, &all);
}

/// The same on the way back, for the codes with one high byte.
fn every_new_code(tally: &mut Tally, high: u8) {
    for low in 0..=u8::MAX {
        let code = u16::from_be_bytes([high, low]);
        strips::narrow(tally, &[code]);
        for place in 0..PLACES {
            let mut strip = [0, 2, 1, 65_535, 3];
            strip[place] = code;
            strips::narrow(tally, &strip);
        }
    }
    let all: Vec<u16> = (0..=u8::MAX)
        .map(|low| u16::from_be_bytes([high, low]))
        .collect();
    strips::narrow(tally, &all);
    if high == 0 {
        strips::narrow(tally, &[]);
        strips::narrow(tally, &all[..=201]);
    }
}

/// Strips that can be converted, and such with one other code.
fn at_random(tally: &mut Tally, mut randoms: Randoms) {
    for _ in 0..200 {
        let length = randoms.below(1 << randoms.clone().below(10)) as usize + 1;
        let place = randoms.below(length as u64) as usize;
        let mut old: Vec<u8> = (0..length).map(|_| old_code(&mut randoms)).collect();
        let mut new: Vec<u16> = (0..length).map(|_| new_code(&mut randoms)).collect();
        strips::widen(tally, &old);
        strips::narrow(tally, &new);
        old[place] = randoms.next() as u8;
        new[place] = randoms.limit_or_any();
        strips::widen(tally, &old);
        strips::narrow(tally, &new);
    }
}

/// A code that stands in strips of one-byte codes.
fn old_code(randoms: &mut Randoms) -> u8 {
    match randoms.between(0, 202) {
        202 => u8::MAX,
        code => code as u8,
    }
}

/// One that such a code converts to.
fn new_code(randoms: &mut Randoms) -> u16 {
    match randoms.between(0, 202) {
        202 => u16::MAX,
        code => code,
    }
}

#[cfg(test)]
mod tests {
    use reading::codes;

    use super::*;

    #[test]
    fn codes_that_can_be_converted() {
        let mut randoms = Randoms::new(1, 1);
        for _ in 0..1_000 {
            assert!(codes::widened(&[old_code(&mut randoms)]).is_ok());
            assert!(codes::narrowed(&[new_code(&mut randoms)]).is_ok());
        }
    }
}
