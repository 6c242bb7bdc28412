//! Lamp codes of 16 bits (W-207), and how stored codes of one byte become such codes
//! and go back.

use super::Outcome;
use super::Whole;
use super::fitted;
use super::former;
use super::layers::Kind;

/// What a lamp shows. Which enharmonic layer a key is in, it does not show.
#[derive(Clone, Copy, Debug, PartialEq, Eq)]
pub enum Lamp {
    Home,
    Natural,
    Sharp(Whole),
    Flat(Whole),
    Enharmonic,
}

impl From<Kind> for Lamp {
    fn from(kind: Kind) -> Self {
        match kind {
            Kind::Natural => Self::Natural,
            Kind::Sharp(level) => Self::Sharp(level),
            Kind::Flat(level) => Self::Flat(level),
            Kind::Enharmonic(_) => Self::Enharmonic,
        }
    }
}

/// "A code becomes a 16-bit number, one element of the strip: home 0, natural 1, sharp k
/// 2 + 2 × k, flat k 3 + 2 × k, enharmonic 65,535."
pub fn code(lamp: Lamp) -> u16 {
    fitted(match lamp {
        Lamp::Home => 0,
        Lamp::Natural => 1,
        Lamp::Sharp(level) => 2 + 2 * level,
        Lamp::Flat(level) => 3 + 2 * level,
        Lamp::Enharmonic => 65_535,
    })
}

/// "Stored one-byte strips are converted without loss": each code shows what it showed.
/// "17 when an old strip holds a code from 202 to 254."
pub fn widened(strip: &[u8]) -> Outcome<Vec<u16>> {
    let lamps = strip.iter().map(|old| former::lamp(*old));
    lamps.map(|lamp| lamp.map(code).ok_or(17)).collect()
}

/// "Those converted strips go back to the same bytes"; 17 when "a strip on its way back
/// holds a code that no old code converts to".
pub fn narrowed(strip: &[u16]) -> Outcome<Vec<u8>> {
    strip.iter().map(|new| old_code(*new).ok_or(17)).collect()
}

/// The old code that converts to a new one.
fn old_code(new: u16) -> Option<u8> {
    (0..=u8::MAX).find(|old| widened(&[*old]) == Ok(vec![new]))
}

#[cfg(test)]
mod tests {
    use super::*;

    #[test]
    fn codes_of_16_bits() {
        let lamps = [
            Lamp::Home,
            Lamp::Natural,
            Lamp::Sharp(0),
            Lamp::Flat(0),
            Lamp::Sharp(1),
            Lamp::Flat(1),
            Lamp::Sharp(100),
            Lamp::Flat(32_764),
            Lamp::Enharmonic,
        ];
        let codes = [0, 1, 2, 3, 4, 5, 202, 65_531, 65_535];
        assert_eq!(lamps.map(code), codes);
    }

    #[test]
    fn old_codes_and_their_new_ones() {
        let old = [0, 1, 2, 3, 101, 102, 103, 201, 255];
        let new = [0, 1, 2, 4, 200, 3, 5, 201, 65_535];
        assert_eq!(widened(&old), Ok(new.to_vec()));
        assert_eq!(narrowed(&new), Ok(old.to_vec()));
        assert_eq!(widened(&[]), Ok(vec![]));
        assert_eq!(narrowed(&[]), Ok(vec![]));
    }

    #[test]
    fn old_codes_come_back_but_53() {
        for old in 0..=u8::MAX {
            let there = widened(&[old]);
            assert_eq!(there.is_err(), (202..=254).contains(&old), "{old}");
            match there {
                Ok(new) => assert_eq!(narrowed(&new), Ok(vec![old])),
                Err(number) => assert_eq!(number, 17),
            }
        }
    }

    #[test]
    fn new_codes_without_an_old_one() {
        for new in 0..=u16::MAX {
            let back = narrowed(&[new]);
            assert_eq!(back.is_err(), (202..=65_534).contains(&new), "{new}");
            match back {
                Ok(old) => assert_eq!(widened(&old), Ok(vec![new])),
                Err(number) => assert_eq!(number, 17),
            }
        }
    }
}
