//! Lamp codes of one byte, as document 01 has them: what stored strips hold. No call
//! writes them any more (W-207).

use super::Outcome;
use super::ask;
use super::codes::Lamp;
use super::fitted;

/// The codes of a strip's keys. Question 9: "is every sharp and flat layer number of the
/// lamp strip below 100?"
pub fn strip(lamps: &[Lamp]) -> Outcome<Vec<u8>> {
    ask(9, lamps.iter().all(|lamp| is_below_100(*lamp)))?;
    Ok(lamps.iter().map(|lamp| code(*lamp)).collect())
}

fn is_below_100(lamp: Lamp) -> bool {
    match lamp {
        Lamp::Sharp(level) | Lamp::Flat(level) => level < 100,
        Lamp::Home | Lamp::Natural | Lamp::Enharmonic => true,
    }
}

/// "0, home. Other keys ..: natural 1, sharp k 2 + k, flat k 102 + k, enharmonic 255."
fn code(lamp: Lamp) -> u8 {
    fitted(match lamp {
        Lamp::Home => 0,
        Lamp::Natural => 1,
        Lamp::Sharp(level) => 2 + level,
        Lamp::Flat(level) => 102 + level,
        Lamp::Enharmonic => 255,
    })
}

/// What a code shows: none from 202 to 254 stands in a strip.
pub fn lamp(code: u8) -> Option<Lamp> {
    match code {
        0 => Some(Lamp::Home),
        1 => Some(Lamp::Natural),
        2..=101 => Some(Lamp::Sharp((code - 2).into())),
        102..=201 => Some(Lamp::Flat((code - 102).into())),
        202..=254 => None,
        255 => Some(Lamp::Enharmonic),
    }
}

#[cfg(test)]
mod tests {
    use super::*;

    #[test]
    fn layers_up_to_99_have_a_code() {
        let lamps = [
            Lamp::Home,
            Lamp::Natural,
            Lamp::Sharp(0),
            Lamp::Sharp(99),
            Lamp::Flat(0),
            Lamp::Flat(99),
            Lamp::Enharmonic,
        ];
        assert_eq!(strip(&lamps), Ok(vec![0, 1, 2, 101, 102, 201, 255]));
        assert_eq!(strip(&[Lamp::Home, Lamp::Sharp(100)]), Err(9));
        assert_eq!(strip(&[Lamp::Home, Lamp::Flat(100)]), Err(9));
    }

    #[test]
    fn a_code_shows_what_it_was_made_for() {
        for read in 0..=u8::MAX {
            assert!(lamp(read).is_none_or(|lamp| code(lamp) == read));
        }
        assert_eq!((0..=u8::MAX).filter_map(lamp).count(), 203);
    }
}
