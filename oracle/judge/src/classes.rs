//! The classes of docs/DIFFERENCES.md: inputs on which the original panics, or
//! answers what document 01 does not, what it does there, and the smallest of them.
//!
//! Smallest means first in dictionary order: the first argument as small as can
//! be, then the second, and so on. A comment says why nothing smaller belongs to
//! the class, or that a search finds it.

use std::fmt;
use std::fmt::Debug;

use reading::fractional::Bits;
use tune::layout::IsomorphicLayout;
use tune::pergen::AccidentalsFormat;
use tune::pergen::Mos;

use crate::asking::Answer;
use crate::fractional;
use crate::layouts;
use crate::layouts::CHAINS;
use crate::numbers;
use crate::patterns;
use crate::patterns::Pattern;
use crate::shown::shown;
use crate::spelling;

#[derive(Clone, Copy, Debug, PartialEq, Eq, PartialOrd, Ord)]
pub enum Class {
    DenominatorZero,
    PeriodZero,
    NoSymbols,
    OriginNotBelowSymbols,
    ProductWithInverse,
    GenesisOfPeriodZero,
    CountsBeyond16Bits,
    CoprimeProduct,
    CoprimeSum,
    KeyBeyond32Bits,
    FractionalGenerator,
    OctaveZero,
    OctaveZeroWithoutGenerator,
    NameOfKey,
    LayersOfLayout,
}

/// What the original does on every input of a class. The class excuses this alone.
#[derive(Clone, Copy, Debug, PartialEq, Eq)]
pub enum Shape {
    /// It panics, since a sum, a difference or a product passes its type.
    Overflow,
    /// It panics, since it divides by zero.
    DivisionByZero,
    /// It answers `None`.
    NoAnswer,
    /// It answers; the class names what.
    NamedAnswer,
}

impl Class {
    pub const ALL: [Self; 15] = [
        Self::DenominatorZero,
        Self::PeriodZero,
        Self::NoSymbols,
        Self::OriginNotBelowSymbols,
        Self::ProductWithInverse,
        Self::GenesisOfPeriodZero,
        Self::CountsBeyond16Bits,
        Self::CoprimeProduct,
        Self::CoprimeSum,
        Self::KeyBeyond32Bits,
        Self::FractionalGenerator,
        Self::OctaveZero,
        Self::OctaveZeroWithoutGenerator,
        Self::NameOfKey,
        Self::LayersOfLayout,
    ];

    /// Its name in docs/DIFFERENCES.md.
    pub fn name(self) -> &'static str {
        match self {
            Self::DenominatorZero => "denominator 0",
            Self::PeriodZero => "period 0",
            Self::NoSymbols => "symbol count 0",
            Self::OriginNotBelowSymbols => "origin not below the symbol count",
            Self::ProductWithInverse => "product of inverse and key number beyond 2,147,483,647",
            Self::GenesisOfPeriodZero => "genesis of period 0",
            Self::CountsBeyond16Bits => "`Mos::get_layers`, sum of the counts beyond 65,535",
            Self::CoprimeProduct => "`Mos::coprime`, a product beyond 65,535",
            Self::CoprimeSum => "`Mos::coprime`, the sum beyond 65,535",
            Self::KeyBeyond32Bits => "`Mos::get_key`, the sum beyond 32 signed bits",
            Self::FractionalGenerator => "fractional generator, infinite or not a number",
            Self::OctaveZero => "layout, octave 0",
            Self::OctaveZeroWithoutGenerator => "layout, octave 0, generator not whole or negative",
            Self::NameOfKey => "layout, name of a key",
            Self::LayersOfLayout => "layout, layers",
        }
    }

    pub fn shape(self) -> Shape {
        match self {
            Self::DenominatorZero
            | Self::PeriodZero
            | Self::GenesisOfPeriodZero
            | Self::OctaveZero => Shape::DivisionByZero,
            // The symbol count less 1.
            Self::NoSymbols
            | Self::ProductWithInverse
            | Self::CountsBeyond16Bits
            | Self::CoprimeProduct
            | Self::CoprimeSum
            | Self::KeyBeyond32Bits
            | Self::NameOfKey
            | Self::LayersOfLayout => Shape::Overflow,
            Self::OctaveZeroWithoutGenerator => Shape::NoAnswer,
            Self::OriginNotBelowSymbols | Self::FractionalGenerator => Shape::NamedAnswer,
        }
    }
}

/// A question to the original, by its numbers in the order of its arguments.
#[derive(Clone, Copy, Debug, PartialEq, Eq)]
pub enum Input {
    Quotient(i32, u16),
    Remainder(i32, u16),
    Pergen(u16, u16),
    Generation(u16, u16, u16),
    /// Period, generator, symbol count, origin, key.
    Accidentals(u16, u16, u16, u16, u16),
    Genesis(u16, u16),
    PatternLayers(Pattern),
    Coprime(Pattern),
    Key(Pattern, i16, i16),
    /// The bits of a fractional generator.
    FractionalWalk(u64),
    /// Chain code, octave, tritave.
    Layout(u16, u16, u16),
    /// Chain code, octave, tritave, key.
    NoteName(u16, u16, u16, u16),
    LayoutLayers(u16, u16, u16),
}

/// The smallest inputs of each class. `gcd_u16`, `simplify_u16` and `odd_factors_u16`
/// answer everything; `i32_dr_u` calls the first two functions here.
pub const SMALLEST: [(Class, &[Input]); 15] = [
    (
        Class::DenominatorZero,
        &[Input::Quotient(0, 0), Input::Remainder(0, 0)],
    ),
    (
        Class::PeriodZero,
        &[Input::Pergen(0, 0), Input::Pergen(0, 1)],
    ),
    (Class::NoSymbols, &[Input::Accidentals(1, 0, 0, 0, 0)]),
    (
        Class::OriginNotBelowSymbols,
        &[
            Input::Accidentals(1, 0, 1, 1, 0),
            // The first index that is not below the symbol count: with one symbol R is
            // never below the count, and remainders by the count keep indices below it.
            Input::Accidentals(1, 0, 2, 2, 0),
        ],
    ),
    (
        Class::ProductWithInverse,
        &[
            // A key's number is at most 65,535 and the inverse at most R - 1, so the
            // product passes 2^31 - 1 only from R = 32,770 on, and there only with
            // inverse R - 1 and the last key. R - 1 is the inverse of R - 1.
            Input::Generation(32_770, 32_769, 65_535),
            // Within the octave the product is at most (R - 1) * (R - 1).
            Input::Generation(46_342, 46_341, 46_341),
        ],
    ),
    (Class::GenesisOfPeriodZero, &[Input::Genesis(0, 0)]),
    (
        Class::CountsBeyond16Bits,
        &[
            // One count alone is at most 65,535.
            Input::PatternLayers([1, 65_535, 0, 0]),
            // The first of a size above 0.
            Input::PatternLayers([1, 65_535, 1, 0]),
        ],
    ),
    // The new secondary step is below the primary one, or no longer than it was.
    (Class::CoprimeProduct, &[Input::Coprime([0, 2, 32_769, 0])]),
    (Class::CoprimeSum, &[Input::Coprime([1, 1, 32_769, 0])]),
    (
        Class::KeyBeyond32Bits,
        // Each product fits. With two counts above 0 the steps' sum is at most 65,535,
        // and so the sum of the products fits too.
        &[Input::Key([0, 0, 2, 65_535], i16::MIN, i16::MIN)],
    ),
    (
        Class::FractionalGenerator,
        &[
            // Infinity has the smallest bits, then come those that are no numbers.
            Input::FractionalWalk(f64::INFINITY.to_bits()),
            Input::FractionalWalk(f64::INFINITY.to_bits() + 1),
        ],
    ),
    (Class::OctaveZero, &[Input::Layout(0, 0, 0)]),
    (Class::OctaveZeroWithoutGenerator, &[Input::Layout(3, 0, 1)]),
    // A search finds these layouts, one for each chain that has any: the first with a
    // key that has too large a product with the inverse, and the first with such a key
    // within the octave.
    (
        Class::NameOfKey,
        &[
            Input::NoteName(0, 32_771, 49_156, 65_535),
            Input::NoteName(1, 32_771, 49_156, 65_535),
            Input::NoteName(2, 32_771, 49_156, 65_535),
            Input::NoteName(4, 32_777, 49_165, 65_535),
            Input::NoteName(5, 32_770, 6, 65_535),
        ],
    ),
    (
        Class::LayersOfLayout,
        &[
            Input::LayoutLayers(0, 46_345, 57_931),
            Input::LayoutLayers(1, 46_345, 54_069),
            Input::LayoutLayers(2, 46_345, 54_069),
            Input::LayoutLayers(4, 46_351, 56_651),
            Input::LayoutLayers(5, 46_342, 6),
        ],
    ),
];

impl Input {
    /// What the original answers, in text, or `None`.
    pub fn answer(self) -> Answer<Option<String>> {
        match self {
            Self::Quotient(numer, denom) => text(numbers::quotient(numer, denom)),
            Self::Remainder(numer, denom) => text(numbers::remainder(numer, denom)),
            Self::Pergen(period, generator) => text(spelling::create(period, generator)),
            Self::Generation(period, generator, key) => {
                let pergen = spelling::create(period, generator)?;
                text(spelling::generation(&pergen, key))
            }
            Self::Accidentals(period, generator, num_symbols, genchain_origin, key) => {
                let pergen = spelling::create(period, generator)?;
                let format = AccidentalsFormat {
                    num_symbols,
                    genchain_origin,
                };
                text(spelling::accidentals(&pergen, &format, key))
            }
            Self::Genesis(period, generator) => text(patterns::create_genesis(period, generator)),
            Self::PatternLayers(pattern) => of_pattern(pattern, patterns::layers),
            Self::Coprime(pattern) => of_pattern(pattern, |mos| patterns::coprime(mos).map(sized)),
            Self::Key(pattern, primary, secondary) => {
                of_pattern(pattern, |mos| patterns::key(mos, primary, secondary))
            }
            Self::FractionalWalk(bits) => {
                // Which bits a step has that is no number, is left open.
                let answer = fractional::walk(f64::from_bits(bits))?;
                let steps = |pattern: Bits| (pattern.counts, pattern.steps.map(f64::from_bits));
                text(Ok(answer.into_iter().map(steps).collect::<Vec<_>>()))
            }
            Self::Layout(code, octave, tritave) => of_layout(code, octave, tritave, |layout| {
                Ok(patterns::numbers(layout.mos()))
            }),
            Self::NoteName(code, octave, tritave, key) => {
                of_layout(code, octave, tritave, |layout| {
                    layouts::note_name(layout, key)
                })
            }
            Self::LayoutLayers(code, octave, tritave) => {
                of_layout(code, octave, tritave, layouts::layers)
            }
        }
    }
}

fn text<T: Debug>(answer: Answer<T>) -> Answer<Option<String>> {
    answer.map(|value| Some(shown(&value)))
}

fn of_pattern<T: Debug>(
    pattern: Pattern,
    asked: impl FnOnce(Mos) -> Answer<T>,
) -> Answer<Option<String>> {
    match patterns::create(pattern)? {
        Some(mos) => text(asked(mos)),
        None => Ok(None),
    }
}

/// A pattern with its size, which may have wrapped where overflow is unchecked.
fn sized(mos: Mos) -> (Pattern, u16) {
    (patterns::numbers(mos), mos.size())
}

fn of_layout<T: Debug>(
    code: u16,
    octave: u16,
    tritave: u16,
    asked: impl FnOnce(&IsomorphicLayout) -> Answer<T>,
) -> Answer<Option<String>> {
    match layouts::create(CHAINS[usize::from(code)], octave, tritave)? {
        Some(layout) => text(asked(&layout)),
        None => Ok(None),
    }
}

impl fmt::Display for Input {
    fn fmt(&self, f: &mut fmt::Formatter<'_>) -> fmt::Result {
        match self {
            Self::Quotient(numer, denom) => write!(f, "i32_div_u({numer}, {denom})"),
            Self::Remainder(numer, denom) => write!(f, "i32_rem_u({numer}, {denom})"),
            Self::Pergen(period, generator) => write!(f, "PerGen::new({period}, {generator})"),
            Self::Generation(period, generator, key) => {
                write!(
                    f,
                    "PerGen::new({period}, {generator}), get_generation({key})"
                )
            }
            Self::Accidentals(period, generator, symbols, origin, key) => write!(
                f,
                "PerGen::new({period}, {generator}), symbols {symbols}, origin {origin}, get_accidentals({key})"
            ),
            Self::Genesis(period, generator) => {
                write!(f, "Mos::new_genesis({period}, {generator})")
            }
            Self::PatternLayers(pattern) => write!(f, "Mos {pattern:?}, get_layers()"),
            Self::Coprime(pattern) => write!(f, "Mos {pattern:?}, coprime()"),
            Self::Key(pattern, primary, secondary) => {
                write!(f, "Mos {pattern:?}, get_key({primary}, {secondary})")
            }
            Self::FractionalWalk(bits) => {
                let generator = f64::from_bits(*bits);
                write!(
                    f,
                    "Mos::<f64>::new_genesis({generator}), bits {bits:016x}, children()"
                )
            }
            Self::Layout(code, octave, tritave) => write!(f, "layout {code} {octave} {tritave}"),
            Self::NoteName(code, octave, tritave, key) => {
                write!(f, "layout {code} {octave} {tritave}, get_note_name({key})")
            }
            Self::LayoutLayers(code, octave, tritave) => {
                write!(f, "layout {code} {octave} {tritave}, get_layers()")
            }
        }
    }
}
