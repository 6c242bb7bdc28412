//! Questions about an octave that is divided into n equal steps: `find_by_edo`, and the vals
//! that it goes by.

use reading::Whole;
use reading::edo;
use tune::layout::Genchain;
use tune::layout::IsomorphicLayout;
use tune::pitch::Ratio;
use tune::temperament::Val;

use crate::asking::Answer;
use crate::asking::ask;
use crate::layouts::CHAINS;

/// The primes up to this one have values in the vals of `find_by_edo`.
const PRIME_LIMIT: u8 = 5;

/// The tritave's place among these primes.
const TRITAVE: u8 = 1;

/// One of the layouts that the original lists, in numbers.
#[derive(Clone, Debug)]
pub struct Listed {
    pub code: u16,
    pub tritave: u16,
    /// Its flag `b_val`.
    pub is_second: bool,
    pub layout: IsomorphicLayout,
}

/// What the original lists, in its order.
pub fn find_by_edo(n: u16) -> Answer<Vec<Listed>> {
    let layouts = ask(|| IsomorphicLayout::find_by_edo(n))?;
    Ok(layouts.into_iter().map(listed).collect())
}

fn listed(layout: IsomorphicLayout) -> Listed {
    let code = (0..).zip(CHAINS);
    let code = code
        .filter(|(_, chain)| *chain == layout.genchain())
        .map(|(code, _)| code)
        .next();
    Listed {
        code: code.expect("one of the six chains"),
        tritave: tritave(&layout),
        is_second: layout.b_val(),
        layout,
    }
}

/// The tritave that a layout was made from. The original drops it; the generator tells it.
fn tritave(layout: &IsomorphicLayout) -> u16 {
    let octave = layout.pergen().period();
    let generator = layout.pergen().generator();
    match layout.genchain() {
        Genchain::Mavila9 | Genchain::Meantone7 | Genchain::Meantone5 => octave + generator,
        Genchain::Porcupine8 => 2 * octave - 3 * generator,
        Genchain::Tetracot7 => octave + 4 * generator,
        Genchain::Hanson7 => 6 * (octave - generator),
    }
}

/// The patent val, with which the original begins.
pub fn patent_val(n: u16) -> Val {
    Val::patent(Ratio::octave().divided_into_equal_steps(n), PRIME_LIMIT)
}

/// How many steps the tritave of the patent val is above the ratio 3, as the original finds
/// it by logarithms.
pub fn error_of_tritave(patent: &Val) -> f64 {
    let mut errors = patent.errors_in_steps();
    errors
        .nth(TRITAVE.into())
        .expect("a val has its primes' errors")
}

/// The tritave of the patent val, and of the other val where the original tries one. It has no
/// such call of its own; `find_by_edo` takes these steps.
pub fn tritaves(n: u16) -> Answer<Vec<u16>> {
    ask(|| {
        let patent = patent_val(n);
        let mut tritaves = vec![patent.values()[usize::from(TRITAVE)]];
        if error_of_tritave(&patent).abs() > 1.0 / 3.0 {
            let mut other = patent.clone();
            other.pick_alternative(TRITAVE);
            tritaves.push(other.values()[usize::from(TRITAVE)]);
        }
        tritaves
    })
}

/// The report over all divisions, counted from what the original lists.
pub fn report() -> Answer<String> {
    let mut layouts = Vec::new();
    for n in 1..=edo::LARGEST_DIVISION {
        let listed = find_by_edo(n)?;
        layouts.extend(listed.into_iter().map(|listed| {
            let sharpness = listed.layout.mos().sharpness();
            (listed.code, Whole::from(sharpness))
        }));
    }
    Ok(edo::report_of(&layouts))
}

#[cfg(test)]
mod tests {
    use super::*;
    use crate::layouts;
    use crate::patterns;

    #[test]
    fn a_listed_layout_is_the_one_of_its_numbers() {
        for n in 1..=edo::LARGEST_DIVISION {
            for listed in find_by_edo(n).unwrap() {
                let chain = CHAINS[usize::from(listed.code)];
                let made = layouts::create(chain, n, listed.tritave).unwrap().unwrap();
                let numbers = |layout: &IsomorphicLayout| {
                    let pergen = layout.pergen();
                    let pattern = patterns::numbers(layout.mos());
                    (pergen.period(), pergen.generator(), pattern)
                };
                assert_eq!(numbers(&made), numbers(&listed.layout));
                let choices = tritaves(n).unwrap();
                assert_eq!(listed.tritave, choices[usize::from(listed.is_second)]);
            }
        }
    }

    #[test]
    fn the_cases_of_the_request() {
        assert_eq!(tritaves(12), Ok(vec![19]));
        assert_eq!(tritaves(13), Ok(vec![21, 20]));
        assert_eq!(tritaves(16), Ok(vec![25, 26]));
    }

    #[test]
    fn the_report_of_the_original() {
        assert_eq!(report(), Ok(edo::report()));
    }
}
