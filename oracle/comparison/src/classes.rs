//! To which class of docs/DIFFERENCES.md an input belongs, by exact arithmetic and
//! from the input alone, never from what the two sides answered. An input of two
//! classes belongs to the one that the original comes to first. A key here is the one
//! that the original is asked for, of 16 bits ([`judge::keys::asked_at`]).

use reading::LARGEST;
use reading::Whole;
use reading::layouts::Layout;
use reading::patterns::Pattern;
use reading::pergens::Format;
use reading::pergens::Pergen;
use reading::pergens::Spellings;

pub use judge::classes::Class;

/// A key of a free pergen.
pub fn of_generation(pergen: &Pergen, key: u16) -> Option<Class> {
    product_overflows(pergen, key.into()).then_some(Class::ProductWithInverse)
}

/// A key of a free pergen in a free format.
pub fn of_accidentals(pergen: &Pergen, format: Format, key: u16) -> Option<Class> {
    if product_overflows(pergen, key.into()) {
        Some(Class::ProductWithInverse)
    } else if format.symbols == 0 {
        Some(Class::NoSymbols)
    } else if format.origin >= format.symbols {
        Some(Class::OriginNotBelowSymbols)
    } else {
        None
    }
}

/// The answer that the class "origin not below the symbol count" names: document
/// 01's, had question 6 not been asked, but that the original takes R from no index
/// of degree 0.
pub fn spellings_from_any_origin(pergen: &Pergen, format: Format, key: Whole) -> Spellings {
    let spelt = pergen.spellings(format, key);
    if pergen.reduced < format.symbols && pergen.degree(key) == 0 {
        return Spellings {
            sharp_index: format.origin,
            ..spelt
        };
    }
    spelt
}

/// A key of a layout.
pub fn of_layout_key(layout: &Layout, key: u16) -> Option<Class> {
    product_overflows(&layout.pergen, key.into()).then_some(Class::NameOfKey)
}

/// The layers of a layout: the last key of the octave has the largest product.
pub fn of_layout_layers(layout: &Layout) -> Option<Class> {
    let last = layout.pergen.period - 1;
    product_overflows(&layout.pergen, last).then_some(Class::LayersOfLayout)
}

/// The names of all keys of the octave: again the last has the largest product.
pub fn of_layout_book(layout: &Layout) -> Option<Class> {
    let last = layout.pergen.period - 1;
    product_overflows(&layout.pergen, last).then_some(Class::NameOfKey)
}

fn product_overflows(pergen: &Pergen, key: Whole) -> bool {
    pergen.inverse * (key / pergen.cycles) > Whole::from(i32::MAX)
}

pub fn of_pattern_layers(pattern: Pattern) -> Option<Class> {
    (pattern.steps() > LARGEST).then_some(Class::CountsBeyond16Bits)
}

pub fn of_coprime(pattern: Pattern) -> Option<Class> {
    let coprime = pattern.with_coprime_steps();
    let product = coprime.primary_product().max(coprime.secondary_product());
    if product > LARGEST {
        Some(Class::CoprimeProduct)
    } else if coprime.size() > LARGEST {
        Some(Class::CoprimeSum)
    } else {
        None
    }
}

pub fn of_pattern_key(key: Whole) -> Option<Class> {
    i32::try_from(key)
        .is_err()
        .then_some(Class::KeyBeyond32Bits)
}

/// A chain's layout with octave 0: the original divides by it, unless it finds no
/// generator before.
pub fn of_octave_zero(has_generator: bool) -> Class {
    if has_generator {
        Class::OctaveZero
    } else {
        Class::OctaveZeroWithoutGenerator
    }
}

#[cfg(test)]
mod tests {
    use super::*;

    #[test]
    fn a_key_of_two_classes_belongs_to_the_one_that_comes_first() {
        let class = |period, symbols, origin| {
            let pergen = Pergen::new(period, period - 1).unwrap();
            of_accidentals(&pergen, Format { symbols, origin }, u16::MAX)
        };
        assert_eq!(class(32_770, 7, 7), Some(Class::ProductWithInverse));
        assert_eq!(class(32_769, 7, 7), Some(Class::OriginNotBelowSymbols));
        assert_eq!(class(32_769, 0, 0), Some(Class::NoSymbols));
        assert_eq!(class(32_769, 7, 6), None);
    }

    #[test]
    fn an_origin_that_is_no_symbols_names_an_answer() {
        let indices = |period, generator, symbols, origin, key| {
            let pergen = Pergen::new(period, generator).unwrap();
            let spelt = spellings_from_any_origin(&pergen, Format { symbols, origin }, key);
            [spelt.sharp_index, spelt.flat_index]
        };
        assert_eq!(indices(1, 0, 1, 1, 0), [0, 0]);
        assert_eq!(indices(1, 0, 2, 2, 0), [2, 2]);
        assert_eq!(indices(5, 3, 7, 7, 1), [4, 4]);
    }
}
