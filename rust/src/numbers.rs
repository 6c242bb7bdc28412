//! Numbers, and free pergens with free formats.

use crate::Refused;
use crate::c;

/// The version of the library that is linked: of the header that it is built for.
#[derive(Clone, Copy, Debug, PartialEq, Eq, PartialOrd, Ord, Hash)]
pub struct Version {
    /// Changes where a call, a question's number or an answer is changed or taken away.
    pub major: u16,
    /// Changes where some are added.
    pub minor: u8,
    /// Changes where neither is so.
    pub patch: u8,
}

/// The library's version. Before 7.8.0 the library had no such function.
///
/// ```
/// let version = vetchnoon::version();
/// assert!((version.major, version.minor) >= (7, 8));
/// ```
pub fn version() -> Version {
    let number = c::answered(c::vn_version()).expect("a version is never refused");
    Version {
        major: (number / 65_536) as u16,
        minor: (number / 256 % 256) as u8,
        patch: (number % 256) as u8,
    }
}

/// The greatest common divisor; 1 for 0 and 0.
///
/// ```
/// assert_eq!(vetchnoon::gcd(12, 9), 3);
/// assert_eq!(vetchnoon::gcd(0, 0), 1);
/// ```
pub fn gcd(x: u16, y: u16) -> u16 {
    c::number(c::vn_gcd(x, y)).expect("no pair of numbers is refused")
}

/// The remainder, never negative (2).
///
/// ```
/// assert_eq!(vetchnoon::rem(-4, 12), Ok(8));
/// ```
pub fn rem(numer: i32, denom: u16) -> Result<u16, Refused> {
    c::number(c::vn_rem(numer, denom))
}

/// What follows from a period and a generator.
#[derive(Clone, Copy, Debug, PartialEq, Eq, Hash)]
pub struct Pergen {
    /// The greatest common divisor of both: so many chains of generators reach all keys.
    pub cycles: u16,
    /// The period divided by it: so many keys one chain has.
    pub reduced_period: u16,
    /// So many generators, brought round the period, make as many keys as there are cycles.
    pub inverse: u16,
}

/// Cycles, reduced period and inverse (2).
///
/// ```
/// let pergen = vetchnoon::pergen(12, 9)?;
/// assert_eq!((pergen.cycles, pergen.reduced_period, pergen.inverse), (3, 4, 3));
/// # Ok::<(), vetchnoon::Refused>(())
/// ```
pub fn pergen(period: u16, generator: u16) -> Result<Pergen, Refused> {
    let (_, [cycles, reduced_period, inverse]) = c::written(|out, len| {
        // SAFETY: `written` lends so many elements.
        unsafe { c::vn_pergen(period, generator, out, len) }
    })?;
    Ok(Pergen {
        cycles,
        reduced_period,
        inverse,
    })
}

/// Where a key stands in the chains of generators.
#[derive(Clone, Copy, Debug, PartialEq, Eq, Hash)]
pub struct Generation {
    /// How many generators from its chain's first key, below the reduced period.
    pub degree: u16,
    /// Which chain, from 0; none where there is one chain.
    pub cycle: Option<u16>,
}

/// A key's degree and cycle (2).
///
/// ```
/// use vetchnoon::{Generation, generation};
///
/// assert_eq!(generation(12, 7, 2), Ok(Generation { degree: 2, cycle: None }));
/// assert_eq!(generation(12, 9, 4), Ok(Generation { degree: 3, cycle: Some(1) }));
/// ```
pub fn generation(period: u16, generator: u16, key: i32) -> Result<Generation, Refused> {
    let (_, [degree, has_cycle, cycle]) = c::written(|out, len| {
        // SAFETY: `written` lends so many elements.
        unsafe { c::vn_generation(period, generator, key, out, len) }
    })?;
    Ok(Generation {
        degree,
        cycle: (has_cycle == 1).then_some(cycle),
    })
}

/// A key's two spellings. An index counts along the symbols, or a chain's letters, from 0.
#[derive(Clone, Copy, Debug, PartialEq, Eq, Hash)]
pub struct Accidentals {
    /// The symbol of the spelling with sharps.
    pub sharp_index: u16,
    /// How many sharps it has.
    pub sharp_count: u16,
    /// The symbol of the spelling with flats.
    pub flat_index: u16,
    /// How many flats it has.
    pub flat_count: u16,
}

impl Accidentals {
    /// The numbers in the order in which calls write them.
    pub(crate) fn of([sharp_index, sharp_count, flat_index, flat_count]: [u16; 4]) -> Self {
        Self {
            sharp_index,
            sharp_count,
            flat_index,
            flat_count,
        }
    }
}

/// A key's spellings in a free format: so many symbols, and key 0's among them (2, 5, 6).
///
/// ```
/// use vetchnoon::{Question, Refused, accidentals};
///
/// let spelt = accidentals(12, 7, 7, 3, 1)?; // D# and Eb, where the symbols are F C G D A E B
/// assert_eq!((spelt.sharp_index, spelt.sharp_count), (3, 1));
/// assert_eq!((spelt.flat_index, spelt.flat_count), (5, 1));
/// assert_eq!(accidentals(12, 7, 7, 7, 1), Err(Refused(Question::Origin)));
/// # Ok::<(), Refused>(())
/// ```
pub fn accidentals(
    period: u16,
    generator: u16,
    symbols: u16,
    origin: u16,
    key: i32,
) -> Result<Accidentals, Refused> {
    let (_, numbers) = c::written(|out, len| {
        // SAFETY: `written` lends so many elements.
        unsafe { c::vn_accidentals(period, generator, symbols, origin, key, out, len) }
    })?;
    Ok(Accidentals::of(numbers))
}
