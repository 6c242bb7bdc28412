//! Fractional generators, and records of fractional steps.
//!
//! A walk has up to 65,535 patterns, and most generators of random bits have such a one, since they
//! are far below a 65,536th. They are few; most are of a size at which walks are short.

use reading::fractional::Bits;
use reading::numbers::gcd;

use super::Mode;
use super::Task;
use crate::randoms::LIMITS;
use crate::randoms::Randoms;
use crate::subjects::fractional;
use crate::tally::Tally;

/// The streams of random numbers that are used here.
const STREAM: u64 = 14_000_000;

/// How many 65,536ths one task has.
const EACH: u32 = 1_024;

/// The largest denominator of fractions whose neighbours are all asked for.
const DENOMINATORS: u32 = 64;

pub fn plan(tasks: &mut Vec<Task>, mode: Mode, seed: u64) {
    for stream in 0..mode.pick(16, 128) {
        let randoms = Randoms::new(seed, STREAM + stream);
        tasks.push(Box::new(move |tally| of_any_bits(tally, randoms.clone())));
    }
    for first in (0..65_536).step_by(EACH as usize) {
        let randoms = Randoms::new(seed, STREAM + 1_000 + u64::from(first));
        tasks.push(Box::new(move |tally| {
            whole_parts(tally, first, randoms.clone());
        }));
    }
    for denominator in 1..=DENOMINATORS {
        tasks.push(Box::new(move |tally| near_fractions(tally, denominator)));
    }
    for stream in 0..mode.pick(32, 256) {
        let randoms = Randoms::new(seed, STREAM + 100_000 + stream);
        tasks.push(Box::new(move |tally| of_usual_size(tally, randoms.clone())));
    }
    for stream in 0..mode.pick(32, 256) {
        let randoms = Randoms::new(seed, STREAM + 200_000 + stream);
        tasks.push(Box::new(move |tally| any_children(tally, randoms.clone())));
    }
    tasks.push(Box::new(special_walks));
    for primary_step in special() {
        tasks.push(Box::new(move |tally| special_children(tally, primary_step)));
    }
}

/// The bits of numbers at which something changes, of both signs: 0, the smallest numbers, those
/// around the 53rd part below 1, around 1 and other whole numbers, around 2^52 and 2^53, the largest,
/// the infinite, and several that are no numbers.
fn special() -> Vec<u64> {
    let smallest_normal = f64::MIN_POSITIVE.to_bits();
    let infinity = f64::INFINITY.to_bits();
    let around = [
        smallest_normal,
        f64::EPSILON.to_bits(),
        (f64::EPSILON / 2.0).to_bits(),
        (f64::EPSILON / 4.0).to_bits(),
        (1.0_f64 / 65_536.0).to_bits(),
        0.5_f64.to_bits(),
        1.0_f64.to_bits(),
        2.0_f64.to_bits(),
        65_536.0_f64.to_bits(),
        (1.0 / f64::EPSILON).to_bits(),
        (2.0 / f64::EPSILON).to_bits(),
        infinity,
    ];
    let quiet = f64::NAN.to_bits() & !1;
    let above_0 = around
        .into_iter()
        .flat_map(|bits| [bits - 1, bits, bits + 1])
        .chain([0, 1, 2, 0.1_f64.to_bits(), 0.625_f64.to_bits()])
        .chain([
            1.5_f64.log2().to_bits(),
            (1.0_f64 / 3.0).to_bits(),
            1e-20_f64.to_bits(),
        ])
        .chain([quiet, quiet + 1, quiet - 1, 0x7fff_ffff_ffff_ffff]);
    above_0.flat_map(|bits| [bits, bits | 1 << 63]).collect()
}

fn special_walks(tally: &mut Tally) {
    for generator in special().into_iter().map(f64::from_bits) {
        compare(tally, generator);
    }
}

fn compare(tally: &mut Tally, generator: f64) {
    fractional::walk(tally, generator);
    fractional::walk_into_nothing(tally, generator);
}

/// Each k from a number on, as a part of the octave; and the same part of another octave, up or down.
fn whole_parts(tally: &mut Tally, first: u32, mut randoms: Randoms) {
    for k in first..first + EACH {
        let part = f64::from(k) / 65_536.0;
        compare(tally, part);
        fractional::walk(tally, part + f64::from(randoms.key()));
    }
}

/// The fractions of one denominator, in lowest terms, and their three neighbours on both sides.
fn near_fractions(tally: &mut Tally, denominator: u32) {
    let in_lowest_terms = |numerator: &u32| gcd((*numerator).into(), denominator.into()) == 1;
    for numerator in (1..=denominator).filter(in_lowest_terms) {
        let fraction = f64::from(numerator) / f64::from(denominator);
        for bits in fraction.to_bits() - 3..=fraction.to_bits() + 3 {
            fractional::walk(tally, f64::from_bits(bits));
        }
    }
}

/// Between 0 and 1, and up to some octaves up or down, with all bits of a fraction.
fn of_usual_size(tally: &mut Tally, mut randoms: Randoms) {
    for _ in 0..500 {
        let part = within_octave(&mut randoms);
        compare(tally, part);
        fractional::walk(tally, -part);
        let octaves = f64::from(randoms.any_length());
        fractional::walk(tally, octaves + part);
        fractional::walk(tally, part - octaves);
    }
}

/// From 0 to 1, in steps of 2^-53.
fn within_octave(randoms: &mut Randoms) -> f64 {
    (randoms.next() >> 11) as f64 * (f64::EPSILON / 2.0)
}

fn of_any_bits(tally: &mut Tally, mut randoms: Randoms) {
    for _ in 0..100 {
        compare(tally, f64::from_bits(randoms.next()));
        // Below 1, down to a 65,536th of a 65,536th, where a walk grows long.
        let factor = f64::from_bits((1023 - randoms.below(32)) << 52);
        fractional::walk(tally, within_octave(&mut randoms) * factor);
    }
}

/// Every record of these steps and of counts at limits.
fn special_children(tally: &mut Tally, primary_step: u64) {
    for secondary_step in special() {
        for counts in [
            [1, 1],
            [5, 2],
            [0, 0],
            [65_534, 1],
            [1, 65_535],
            [32_768, 32_768],
        ] {
            let steps = [primary_step, secondary_step];
            fractional::child(tally, Bits { counts, steps });
        }
    }
}

/// Records of any bits, of usual steps, and of one step and its neighbours; counts whose sum is near
/// 65,535 among them.
fn any_children(tally: &mut Tally, mut randoms: Randoms) {
    let special = special();
    for _ in 0..1_500 {
        let any = [randoms.next(), randoms.next()];
        let usual = [(); 2].map(|()| within_octave(&mut randoms).to_bits());
        let near = [usual[0], usual[0] + randoms.below(3)];
        let mixed = [randoms.of(&special), usual[1]];
        for steps in [any, usual, near, mixed, [mixed[1], mixed[0]]] {
            let counts = any_counts(&mut randoms);
            fractional::child(tally, Bits { counts, steps });
        }
    }
}

fn any_counts(randoms: &mut Randoms) -> [u16; 2] {
    let first = randoms.limit_or_any();
    let second = match randoms.below(4) {
        0 => randoms.any(),
        1 => randoms.of(&LIMITS),
        2 => u16::MAX - first,
        _ => (u16::MAX - first).wrapping_add(1),
    };
    [first, second]
}
