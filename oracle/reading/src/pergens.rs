//! "Pergen and spelling", up to the text of names.

use super::Outcome;
use super::Whole;
use super::ask;
use super::numbers::gcd;

#[derive(Clone, Copy, Debug)]
pub struct Pergen {
    pub period: Whole,
    pub generator: Whole,
    /// n, the greatest common divisor of period and generator.
    pub cycles: Whole,
    /// R = P / n
    pub reduced: Whole,
    pub inverse: Whole,
}

/// A free format, or a layout's.
#[derive(Clone, Copy, Debug)]
pub struct Format {
    pub symbols: Whole,
    pub origin: Whole,
}

/// A key's sharp and flat spelling.
#[derive(Clone, Copy, Debug, PartialEq, Eq)]
pub struct Spellings {
    pub sharp_index: Whole,
    pub sharp_count: Whole,
    pub flat_index: Whole,
    pub flat_count: Whole,
}

impl Pergen {
    /// Question 2: is the period at least 1?
    pub fn new(period: Whole, generator: Whole) -> Outcome<Self> {
        ask(2, period >= 1)?;
        let cycles = gcd(period, generator);
        let reduced = period / cycles;
        Ok(Self {
            period,
            generator,
            cycles,
            reduced,
            inverse: inverse(generator / cycles, reduced),
        })
    }

    pub fn degree(&self, key: Whole) -> Whole {
        let key = self.brought_round(key);
        (self.inverse * (key / self.cycles)).rem_euclid(self.reduced)
    }

    /// The cycle, "absent when n is 1".
    pub fn cycle(&self, key: Whole) -> Option<Whole> {
        let key = self.brought_round(key);
        (self.cycles != 1).then(|| key.rem_euclid(self.cycles))
    }

    /// W-201: "by first bringing the number round the octave with the remainder that
    /// is never negative".
    fn brought_round(&self, key: Whole) -> Whole {
        key.rem_euclid(self.period)
    }

    /// Questions 5 and 6 on a free format, then the spellings of a key.
    pub fn accidentals(&self, format: Format, key: Whole) -> Outcome<Spellings> {
        ask(5, format.symbols >= 1)?;
        ask(6, format.origin < format.symbols)?;
        Ok(self.spellings(format, key))
    }

    pub fn spellings(&self, format: Format, key: Whole) -> Spellings {
        let n = format.symbols;
        let degree = self.degree(key);
        let d = format.origin + degree;
        if self.reduced >= n {
            let sharp = d.rem_euclid(self.reduced);
            let flat = (n - 1 - d).rem_euclid(self.reduced);
            return Spellings {
                sharp_index: sharp % n,
                sharp_count: sharp / n,
                flat_index: n - 1 - flat % n,
                flat_count: flat / n,
            };
        }
        let flat = d - self.reduced;
        Spellings {
            sharp_index: if d >= n { d - self.reduced } else { d },
            sharp_count: 0,
            flat_index: if flat < 0 || degree == 0 { d } else { flat },
            flat_count: 0,
        }
    }

    /// "It sounds key (G × place + stars) mod P of the octave."
    pub fn sounded(&self, place: Whole, stars: Whole) -> Whole {
        (self.generator * place + stars).rem_euclid(self.period)
    }
}

/// "The one number below R whose product with G / n leaves the remainder of 1 on
/// division by R", found by trying them all.
fn inverse(generator: Whole, reduced: Whole) -> Whole {
    let wanted = 1 % reduced;
    let step = generator % reduced;
    let mut product = 0;
    for number in 0..reduced {
        if product == wanted {
            return number;
        }
        product += step;
        if product >= reduced {
            product -= reduced;
        }
    }
    unreachable!("G / n and R have no common divisor")
}

#[cfg(test)]
mod tests {
    use super::*;

    #[test]
    fn the_inverse_is_modulo_the_reduced_period() {
        let pergen = Pergen::new(24, 14).unwrap();
        assert_eq!((pergen.cycles, pergen.reduced, pergen.inverse), (2, 12, 7));
        assert_eq!(Pergen::new(6, 12).unwrap().inverse, 0);
        assert!(Pergen::new(0, 1).is_err());
    }

    #[test]
    fn period_5_generator_3_with_7_symbols() {
        let pergen = Pergen::new(5, 3).unwrap();
        let format = Format {
            symbols: 7,
            origin: 3,
        };
        let indices = |key| {
            let spelt = pergen.accidentals(format, key).unwrap();
            (spelt.sharp_index, spelt.flat_index)
        };
        assert_eq!(indices(1), (5, 0));
        assert_eq!(indices(2), (2, 2));
    }

    #[test]
    fn a_key_is_first_brought_round_the_period() {
        let pergen = Pergen::new(24, 14).unwrap();
        let found = |key| (pergen.degree(key), pergen.cycle(key));
        // Key 23 is 11 × 2 + 1.
        assert_eq!(found(-1), (7 * 11 % 12, Some(1)));
        assert_eq!(found(-24), (0, Some(0)));
        for key in -100..100 {
            assert_eq!(found(key), found(key + 24));
        }
        // 2^31 leaves 8 on division by 24.
        assert_eq!(found(i32::MIN.into()), found(16));
        assert_eq!(found(i32::MAX.into()), found(7));
    }

    #[test]
    fn questions_5_and_6() {
        let refusal = |symbols, origin| {
            let format = Format { symbols, origin };
            Pergen::new(1, 0).unwrap().accidentals(format, 0).err()
        };
        assert_eq!(refusal(0, 0), Some(5));
        assert_eq!(refusal(2, 2), Some(6));
        assert_eq!(refusal(2, 1), None);
    }
}
