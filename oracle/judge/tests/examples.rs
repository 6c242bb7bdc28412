//! Document 01's bench examples, as far as the original can answer them. Strips,
//! refusal numbers and the key table were added by us.

use judge::layouts;
use judge::patterns;
use judge::patterns::Pattern;
use judge::spelling;
use judge::spelling::Accidentals;
use tune::layout::IsomorphicLayout;
use tune::layout::Layer;
use tune::pergen::AccidentalsFormat;

fn find_layout(code: u16, octave: u16, tritave: u16) -> Option<IsomorphicLayout> {
    let chain = layouts::chain(code).expect("a code of 0 to 5");
    layouts::create(chain, octave, tritave).expect("no panic")
}

fn layout(code: u16, octave: u16, tritave: u16) -> IsomorphicLayout {
    find_layout(code, octave, tritave).expect("a layout")
}

fn pattern(layout: &IsomorphicLayout) -> Pattern {
    patterns::numbers(layout.mos())
}

fn layer_sizes(layout: &IsomorphicLayout) -> Vec<usize> {
    patterns::layer_sizes(&patterns::layers(layout.mos()).expect("no panic"))
}

fn scale_name(layout: &IsomorphicLayout) -> &'static str {
    layouts::scale_name(layout).expect("no panic")
}

fn note_names(layout: &IsomorphicLayout, keys: impl IntoIterator<Item = u16>) -> Vec<String> {
    keys.into_iter()
        .map(|key| layouts::note_name(layout, key).expect("no panic"))
        .collect()
}

#[test]
fn twelve_steps_are_diatonic() {
    let layout = layout(1, 12, 19);
    assert_eq!(pattern(&layout), [5, 2, 2, 1]);
    assert_eq!(scale_name(&layout), "diatonic");
    assert_eq!(
        note_names(&layout, 0..12),
        [
            "D", "D#/Eb", "E", "F", "F#/Gb", "G", "G#/Ab", "A", "A#/Bb", "B", "C", "C#/Db"
        ]
    );
}

#[test]
fn thirty_one_steps_have_five_layers() {
    let layout = layout(1, 31, 49);
    assert_eq!(pattern(&layout), [5, 2, 5, 3]);
    assert_eq!(layer_sizes(&layout), [7, 7, 5, 5, 7]);
}

#[test]
fn nineteen_steps_have_an_enharmonic_layer() {
    assert_eq!(layer_sizes(&layout(1, 19, 30)), [7, 5, 2, 5]);
}

#[test]
fn no_layout_without_a_generator_or_a_pattern() {
    assert!(find_layout(0, 12, 19).is_none());
    assert!(find_layout(3, 12, 19).is_none());
}

#[test]
fn cycles_are_stars_and_parentheses_stay_at_cycle_0() {
    assert_eq!(
        note_names(&layout(1, 24, 38), 1..=3),
        ["D*", "(D#/Eb)", "(D#/Eb)*"]
    );
}

#[test]
fn hanson_in_nineteen_steps() {
    assert_eq!(pattern(&layout(5, 19, 30)), [4, 3, 4, 1]);
}

#[test]
fn more_symbols_than_keys() {
    let pergen = spelling::create(5, 3).expect("no panic");
    let format = AccidentalsFormat {
        num_symbols: 7,
        genchain_origin: 3,
    };
    let spelt = |sharp_index, flat_index| {
        Ok(Accidentals {
            cycle: None,
            sharp_index,
            sharp_count: 0,
            flat_index,
            flat_count: 0,
        })
    };
    assert_eq!(spelling::accidentals(&pergen, &format, 1), spelt(5, 0));
    assert_eq!(spelling::accidentals(&pergen, &format, 2), spelt(2, 2));
}

#[test]
fn seven_steps_are_equalized() {
    let layout = layout(1, 7, 11);
    assert_eq!(scale_name(&layout), "equalized");

    let (n, e) = (Layer::Natural, Layer::Enharmonic(0));
    let octave = [n, n, e, e, e, e, n];
    assert_eq!(layouts::layers(&layout), Ok([octave, octave].concat()));
}

#[test]
fn scale_names_of_other_chains() {
    assert_eq!(scale_name(&layout(3, 15, 24)), "pine");
    assert_eq!(scale_name(&layout(0, 16, 25)), "armotonic");
}

#[test]
fn names_are_given_where_one_byte_strips_had_too_few_codes() {
    let layout = layout(1, 2400, 3800);
    assert_eq!(note_names(&layout, [0, 1]), ["D", "D*"]);
}

#[test]
fn key_0_is_the_letter_d_in_every_chain() {
    let accepted = [
        (0, 16, 25),
        (1, 12, 19),
        (2, 12, 19),
        (3, 15, 24),
        (4, 7, 11),
        (5, 19, 30),
    ];
    for (code, octave, tritave) in accepted {
        assert_eq!(note_names(&layout(code, octave, tritave), [0]), ["D"]);
    }
}
