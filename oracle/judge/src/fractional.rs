//! Questions to the second part of pergen.rs: patterns with fractional steps, there
//! `Mos<f64, u16>` (W-213).
//!
//! Its counts are numbers of 16 bits, and `child` gives none where their sum would pass
//! them, so a walk ends there as it does here.

use reading::fractional::Bits;
use tune::pergen;

use crate::asking::Answer;
use crate::asking::ask;

pub type Mos = pergen::Mos<f64, u16>;

pub fn bits(mos: Mos) -> Bits {
    Bits {
        counts: [mos.num_primary_steps(), mos.num_secondary_steps()],
        steps: [mos.primary_step(), mos.secondary_step()].map(f64::to_bits),
    }
}

/// Any record. The original has no function that makes one of given counts and steps; one is
/// appended.
pub fn given(pattern: Bits) -> Mos {
    let [primary_count, secondary_count] = pattern.counts;
    let [primary_step, secondary_step] = pattern.steps.map(f64::from_bits);
    pergen::fractional_mos_for_oracle(primary_count, secondary_count, primary_step, secondary_step)
}

pub fn child(mos: Mos) -> Answer<Option<Mos>> {
    ask(|| mos.child())
}

/// The walk from a generator, the genesis first.
pub fn walk(generator: f64) -> Answer<Vec<Bits>> {
    ask(|| {
        let genesis = Mos::new_genesis(generator);
        genesis.children().map(bits).collect()
    })
}

/// Whether a walk is the genesis alone, and neither of its steps a number: what the original
/// answers where a generator is infinite or not a number. Which bits these steps have, IEEE 754
/// leaves open.
pub fn is_of_no_numbers(walk: &[Bits]) -> bool {
    match walk {
        [alone] => {
            let steps = alone.steps.map(f64::from_bits);
            alone.counts == [1, 1] && steps.iter().all(|step| step.is_nan())
        }
        _ => false,
    }
}

#[cfg(test)]
mod tests {
    use super::*;

    #[test]
    fn a_given_pattern_is_what_the_walk_has() {
        let walk = walk(1.5_f64.log2()).unwrap();
        assert_eq!(walk.len(), 43);
        for pair in walk.windows(2) {
            assert_eq!(bits(given(pair[0])), pair[0]);
            assert_eq!(child(given(pair[0])).unwrap().map(bits), Some(pair[1]));
        }
        assert!(child(given(walk[42])).unwrap().is_none());
    }

    #[test]
    fn a_generator_that_is_no_number() {
        for generator in [f64::INFINITY, f64::NEG_INFINITY, f64::NAN, -f64::NAN] {
            assert!(is_of_no_numbers(&walk(generator).unwrap()));
        }
        assert!(!is_of_no_numbers(&walk(0.0).unwrap()));
    }
}
