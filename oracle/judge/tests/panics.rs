//! Where the original panics: the classes of docs/DIFFERENCES.md and the last
//! inputs before each.

use judge::asking;
use judge::asking::Answer;
use judge::asking::Panicked;
use judge::classes::Class;
use judge::classes::Input;
use judge::classes::SMALLEST;
use judge::classes::Shape;
use judge::layouts;
use judge::layouts::CHAINS;
use judge::numbers;
use judge::patterns;
use judge::patterns::Pattern;
use judge::spelling;
use judge::spelling::Generation;
use tune::layout::Genchain;
use tune::layout::IsomorphicLayout;
use tune::pergen::AccidentalsFormat;
use tune::pergen::Mos;

fn panics<T>(message: &str, place: &str) -> Answer<T> {
    Err(Panicked {
        message: message.to_owned(),
        place: place.to_owned(),
    })
}

fn generation(period: u16, generator: u16, key: u16) -> Answer<Generation> {
    spelling::create(period, generator).and_then(|pergen| spelling::generation(&pergen, key))
}

fn mos(numbers: Pattern) -> Mos {
    patterns::create(numbers)
        .expect("no panic")
        .expect("a size of at most 65,535")
}

/// The shape of an answer. Whether a named answer is the one that its class names,
/// the comparison knows.
fn shape_of<T>(answer: Answer<Option<T>>) -> Option<Shape> {
    match answer {
        Ok(Some(_)) => Some(Shape::NamedAnswer),
        Ok(None) => Some(Shape::NoAnswer),
        Err(panicked) if panicked.is_overflow() => Some(Shape::Overflow),
        Err(panicked) if panicked.is_division_by_zero() => Some(Shape::DivisionByZero),
        Err(_) => None,
    }
}

#[test]
fn overflow_is_a_panic() {
    assert!(asking::overflow_is_checked());
}

#[test]
fn a_panic_is_caught_with_message_and_place() {
    assert_eq!(
        numbers::quotient(1, 0u32),
        panics("attempt to divide by zero", "math.rs line 52")
    );
    assert_eq!(
        numbers::remainder(1, 0u8),
        panics(
            "attempt to calculate the remainder with a divisor of zero",
            "math.rs line 92"
        )
    );
    assert_eq!(
        numbers::divided(1, 0u16),
        panics("attempt to divide by zero", "math.rs line 52")
    );
}

#[test]
fn no_pair_is_too_small_for_gcd_and_lowest_terms() {
    assert_eq!(numbers::gcd(0, 0), Ok(1));
    assert_eq!(numbers::simplified(0, 0), Ok((0, 0)));
    assert_eq!(numbers::odd_factors(0), Ok(0));
}

#[test]
fn quotient_and_remainder_answer_at_the_limits() {
    assert_eq!(numbers::quotient(i32::MIN, 1u32), Ok(i32::MIN));
    assert_eq!(numbers::quotient(i32::MIN, u32::MAX), Ok(-1));
    assert_eq!(numbers::remainder(i32::MIN, u32::MAX), Ok(i32::MAX as u32));
    assert_eq!(numbers::remainder(-1, u16::MAX), Ok(u16::MAX - 1));
}

#[test]
fn the_smallest_inputs_have_the_shape_of_their_class() {
    for (class, inputs) in SMALLEST {
        assert!(!inputs.is_empty());
        for input in inputs {
            assert_eq!(shape_of(input.answer()), Some(class.shape()), "{input}");
        }
    }
    assert_eq!(SMALLEST.map(|(class, _)| class), Class::ALL);
}

#[test]
fn an_origin_that_is_no_symbols_may_give_an_index_that_is_none() {
    let spelt = |num_symbols, genchain_origin| {
        let format = AccidentalsFormat {
            num_symbols,
            genchain_origin,
        };
        let spelt = spelling::create(1, 0)
            .and_then(|pergen| spelling::accidentals(&pergen, &format, 0))
            .expect("no panic");
        [spelt.sharp_index, spelt.flat_index]
    };
    assert_eq!(spelt(1, 1), [0, 0]);
    assert_eq!(spelt(2, 2), [2, 2]);
}

/// The last key has the largest product with the inverse.
#[test]
fn a_search_finds_the_layouts_with_a_key_that_has_no_name() {
    let last_overflows =
        |layout: &IsomorphicLayout| layouts::accidentals(layout, u16::MAX).is_err();
    let found: Vec<Input> = (0..)
        .zip(CHAINS)
        .filter_map(|(code, chain)| {
            let (octave, tritave, layout) = first_layout(chain, 32_770, last_overflows)?;
            let key = (0..=u16::MAX).find(|key| layouts::note_name(&layout, *key).is_err())?;
            Some(Input::NoteName(code, octave, tritave, key))
        })
        .collect();
    assert_eq!(found, smallest(Class::NameOfKey));
}

/// Within the octave the last key has the largest.
#[test]
fn a_search_finds_the_layouts_without_layers() {
    let last_overflows = |layout: &IsomorphicLayout| {
        layouts::accidentals(layout, layout.pergen().period() - 1).is_err()
    };
    let found: Vec<Input> = (0..)
        .zip(CHAINS)
        .filter_map(|(code, chain)| {
            let (octave, tritave, _) = first_layout(chain, 46_342, last_overflows)?;
            Some(Input::LayoutLayers(code, octave, tritave))
        })
        .collect();
    assert_eq!(found, smallest(Class::LayersOfLayout));
}

/// The first layout that `belongs`, by octave and then tritave. A chain that
/// doubles the octave has none with an octave beyond 32,767, and is not searched.
fn first_layout(
    chain: Genchain,
    from_octave: u16,
    belongs: impl Fn(&IsomorphicLayout) -> bool,
) -> Option<(u16, u16, IsomorphicLayout)> {
    if chain == Genchain::Porcupine8 {
        return None;
    }
    (from_octave..=u16::MAX)
        .flat_map(|octave| (0..=u16::MAX).map(move |tritave| (octave, tritave)))
        .find_map(|(octave, tritave)| {
            let layout = layouts::create(chain, octave, tritave).ok()??;
            belongs(&layout).then_some((octave, tritave, layout))
        })
}

fn smallest(class: Class) -> &'static [Input] {
    let of_class = SMALLEST.into_iter().find(|(found, _)| *found == class);
    of_class.expect("every class has smallest inputs").1
}

#[test]
fn every_octave_0_panics_or_gives_none() {
    for chain in CHAINS {
        assert!(layouts::create(chain, 0, 0).is_err());
        for tritave in 1..=100 {
            assert!(!matches!(layouts::create(chain, 0, tritave), Ok(Some(_))));
        }
    }
    assert_eq!(
        layouts::create(Genchain::Meantone7, 0, 19).map(|_| ()),
        panics(
            "attempt to calculate the remainder with a divisor of zero",
            "math.rs line 92"
        )
    );
}

#[test]
fn the_product_with_the_inverse_fits_below_the_smallest_input() {
    for generator in 0..=u16::MAX {
        assert!(generation(32_769, generator, u16::MAX).is_ok());
    }
    for generator in 0..32_769 {
        assert!(generation(32_770, generator, u16::MAX).is_ok());
    }
    assert!(generation(32_770, 32_769, 65_534).is_ok());
    assert_eq!(
        generation(32_770, 32_769, 65_535),
        panics("attempt to multiply with overflow", "pergen.rs line 55")
    );

    for generator in 0..=u16::MAX {
        assert!(generation(46_341, generator, 46_340).is_ok());
    }
    for generator in 0..46_341 {
        assert!(generation(46_342, generator, 46_341).is_ok());
    }
    assert!(generation(46_342, 46_341, 46_340).is_ok());
    assert_eq!(
        generation(65_535, 65_534, 65_535),
        panics("attempt to multiply with overflow", "pergen.rs line 55")
    );
}

#[test]
fn layers_add_both_counts_even_where_unused() {
    let overflow = || panics("attempt to add with overflow", "pergen.rs line 831");
    assert_eq!(patterns::layers(mos([40_000, 40_000, 1, 0])), overflow());
    assert_eq!(patterns::layers(mos([1, 65_535, 0, 0])), overflow());
    assert_eq!(patterns::layers(mos([1, 65_534, 0, 0])), Ok(vec![]));
    assert_eq!(patterns::layers(mos([0, 65_535, 0, 0])), Ok(vec![]));
}

#[test]
fn coprime_overflows_in_its_size() {
    let product = || panics("attempt to multiply with overflow", "pergen.rs line 919");
    let sum = || panics("attempt to add with overflow", "pergen.rs line 918");
    let coprime = |numbers| patterns::coprime(mos(numbers)).map(|mos| mos.size());

    assert_eq!(coprime([1, 60_000, 4, 0]), product());
    assert_eq!(coprime([0, 2, 32_769, 0]), product());
    assert_eq!(coprime([1, 1, 32_769, 0]), sum());
    assert_eq!(coprime([0, 1, 65_535, 0]), Ok(65_534));
    for secondary_step in 0..=32_767 {
        assert!(coprime([0, 2, 32_768, secondary_step]).is_ok());
        assert!(coprime([1, 1, 32_768, secondary_step]).is_ok());
    }
}

#[test]
fn key_overflows_only_where_a_count_is_0() {
    let key = |numbers, primary, secondary| patterns::key(mos(numbers), primary, secondary);
    assert_eq!(
        key([0, 0, 2, 65_535], i16::MIN, i16::MIN),
        panics("attempt to add with overflow", "pergen.rs line 941")
    );
    for numbers in [[0, 0, 1, 65_535], [0, 0, 2, 65_534], [1, 1, 32_768, 32_767]] {
        for primary in [i16::MIN, i16::MAX] {
            for secondary in [i16::MIN, i16::MAX] {
                assert!(key(numbers, primary, secondary).is_ok());
            }
        }
    }
}
