//! W-213: patterns from a fractional generator.
//!
//! Steps are doubles here too, for the request speaks of them: "each sum and subtraction rounds once",
//! as IEEE 754's do, and the remainder is exact.

use super::LARGEST;
use super::Outcome;
use super::Whole;
use super::ask;
use super::fitted;

/// "A pattern with two counts up to 65,535 and two double-precision steps."
#[derive(Clone, Copy, Debug)]
pub struct Fractional {
    pub primary_count: Whole,
    pub secondary_count: Whole,
    pub primary_step: f64,
    pub secondary_step: f64,
}

/// A pattern as it is compared: "steps equal the Rust's bit for bit".
#[derive(Clone, Copy, Debug, PartialEq, Eq)]
pub struct Bits {
    pub counts: [u16; 2],
    pub steps: [u64; 2],
}

impl Fractional {
    /// "22 when the generator is infinite or not a number, first of all." The genesis: "the first step
    /// is the generator's remainder by 1, with 1 added where that is below 0; the second is 1 minus it".
    pub fn genesis(generator: f64) -> Outcome<Self> {
        ask(22, generator.is_finite())?;
        let remainder = remainder_by_1(generator);
        let first = if remainder < 0.0 {
            remainder + 1.0
        } else {
            remainder
        };
        Ok(Self {
            primary_count: 1,
            secondary_count: 1,
            primary_step: first,
            secondary_step: 1.0 - first,
        })
    }

    /// Any record of counts and steps.
    pub fn given(pattern: Bits) -> Self {
        let [primary_count, secondary_count] = pattern.counts.map(Whole::from);
        let [primary_step, secondary_step] = pattern.steps.map(f64::from_bits);
        Self {
            primary_count,
            secondary_count,
            primary_step,
            secondary_step,
        }
    }

    pub fn bits(self) -> Bits {
        Bits {
            counts: [self.primary_count, self.secondary_count].map(fitted),
            steps: [self.primary_step, self.secondary_step].map(f64::to_bits),
        }
    }

    /// Document 01: "the child adds both counts into the count of the shorter step and replaces the
    /// longer step by the difference. There is none if a step is 0 or both are equal." And: "a walk
    /// also ends where a count would pass 65,535." Where a step is not a number, none is the shorter.
    pub fn child(self) -> Option<Self> {
        let [primary, secondary] = [self.primary_step, self.secondary_step];
        let both = self.primary_count + self.secondary_count;
        if primary == 0.0 || secondary == 0.0 || both > LARGEST {
            None
        } else if primary < secondary {
            Some(Self {
                primary_count: both,
                secondary_step: secondary - primary,
                ..self
            })
        } else if secondary < primary {
            Some(Self {
                secondary_count: both,
                primary_step: primary - secondary,
                ..self
            })
        } else {
            None
        }
    }

    /// The walk of patterns, this one first.
    pub fn children(self) -> impl Iterator<Item = Self> {
        std::iter::successors(Some(self), |pattern| pattern.child())
    }
}

/// What is left of a number without its whole part, with the number's own sign, of a 0 too. The
/// difference is exact: it has no digit that the number has not. The library and the original call C's
/// `fmod` for it, so `%` would be no other judge.
fn remainder_by_1(number: f64) -> f64 {
    (number - number.trunc()).copysign(number)
}

/// The walk from a generator.
pub fn walk(generator: f64) -> Outcome<Vec<Bits>> {
    let genesis = Fractional::genesis(generator)?;
    Ok(genesis.children().map(Fractional::bits).collect())
}

#[cfg(test)]
mod tests {
    use super::super::patterns::Pattern;
    use super::*;

    fn bits(primary_count: u16, secondary_count: u16, primary: f64, secondary: f64) -> Bits {
        Bits {
            counts: [primary_count, secondary_count],
            steps: [primary, secondary].map(f64::to_bits),
        }
    }

    #[test]
    fn the_walk_of_five_eighths() {
        let patterns = [
            bits(1, 1, 0.625, 0.375),
            bits(1, 2, 0.25, 0.375),
            bits(3, 2, 0.25, 0.125),
            bits(3, 5, 0.125, 0.125),
        ];
        for generator in [0.625, 5.625, -0.375, -4.375] {
            assert_eq!(walk(generator).unwrap(), patterns);
        }
    }

    /// Its counts are those of the original's doc example.
    #[test]
    fn the_walk_of_the_fifth() {
        let walk = walk(1.5_f64.log2()).unwrap();
        let counts: Vec<[u16; 2]> = walk.iter().map(|pattern| pattern.counts).collect();
        assert_eq!(counts.len(), 43);
        assert_eq!(counts[..4], [[1, 1], [1, 2], [3, 2], [5, 2]]);
        assert_eq!(counts[42], [47_468, 31_867]);
    }

    #[test]
    fn the_remainder_is_that_of_a_division() {
        let exponents = (0..2_047).map(|exponent: u64| exponent << 52);
        let digits = [0, 1, 0x5_5555_5555_5555, 0x8_0000_0000_0001, (1 << 52) - 1];
        for bits in exponents.flat_map(|exponent| digits.map(|digits| exponent | digits)) {
            for number in [f64::from_bits(bits), -f64::from_bits(bits)] {
                let remainder = number % 1.0;
                assert_eq!(remainder_by_1(number).to_bits(), remainder.to_bits());
            }
        }
    }

    #[test]
    fn whole_numbers_and_just_below_them() {
        let alone = |generator, first, second| {
            assert_eq!(walk(generator), Ok(vec![bits(1, 1, first, second)]));
        };
        alone(0.0, 0.0, 1.0);
        alone(-0.0, -0.0, 1.0);
        alone(1.0, 0.0, 1.0);
        alone(-1.0, -0.0, 1.0);
        alone(f64::MAX, 0.0, 1.0);
        alone(f64::MIN, -0.0, 1.0);
        // The sum with 1 is rounded.
        alone(-1e-20, 1.0, 0.0);
        alone(-f64::from_bits(1), 1.0, 0.0);
        // 1 minus the step is exact.
        let below_one = 1.0_f64.next_down();
        let last = walk(below_one).unwrap()[0];
        assert_eq!(last, bits(1, 1, below_one, f64::EPSILON / 2.0));
    }

    /// "Every step times 65,536 is exactly the whole-number step by document 01's rules, their
    /// widths aside, of period 65,536 and generator k."
    #[test]
    fn whole_parts_go_with_the_walk_of_whole_numbers() {
        for k in 0..65_536_u32 {
            let fractional = Fractional::genesis(f64::from(k) / 65_536.0).unwrap();
            let mut walk = fractional.children();
            for pattern in Pattern::genesis_of(65_536, k.into()).children() {
                let found = walk.next().expect("as many patterns");
                assert_eq!(found.primary_count, pattern.primary_count);
                assert_eq!(found.secondary_count, pattern.secondary_count);
                let steps = [found.primary_step, found.secondary_step];
                let wanted = [pattern.primary_step, pattern.secondary_step];
                // Whole numbers up to 65,536 are doubles.
                assert_eq!(
                    steps.map(|step| step * 65_536.0),
                    wanted.map(|step| step as f64)
                );
            }
            assert!(walk.next().is_none(), "{k}");
        }
    }

    #[test]
    fn a_walk_ends_where_a_count_would_pass_65535() {
        let tiny = f64::from_bits(1);
        let walk = walk(tiny).unwrap();
        assert_eq!(walk.len(), 65_535);
        assert_eq!(walk[65_534], bits(65_535, 1, tiny, 1.0));
    }

    #[test]
    fn question_22() {
        for generator in [f64::INFINITY, f64::NEG_INFINITY, f64::NAN, -f64::NAN] {
            assert_eq!(walk(generator), Err(22));
        }
    }

    #[test]
    fn the_child_of_any_record() {
        let child = |pattern| Fractional::given(pattern).child().map(Fractional::bits);
        let infinity = f64::INFINITY;
        assert_eq!(
            child(bits(3, 4, 0.1, -0.2)),
            Some(bits(3, 7, 0.1 + 0.2, -0.2))
        );
        assert_eq!(
            child(bits(0, 0, infinity, 1.0)),
            Some(bits(0, 0, infinity, 1.0))
        );
        assert_eq!(
            child(bits(65_534, 1, -infinity, 1.0)),
            Some(bits(65_535, 1, -infinity, infinity))
        );
        for none in [
            bits(1, 1, f64::NAN, 1.0),
            bits(1, 1, 1.0, -f64::NAN),
            bits(1, 1, infinity, infinity),
            bits(1, 1, -0.0, 1.0),
            bits(1, 1, infinity, 0.0),
            bits(65_535, 1, 0.5, 0.25),
        ] {
            assert_eq!(child(none), None);
        }
    }
}
