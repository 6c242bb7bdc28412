//! The inputs that docs/DIFFERENCES.md names, so that every class is met at its
//! smallest, and document 01's bench examples.

use judge::classes::Input;
use judge::classes::SMALLEST;

use super::Task;
use crate::subjects::fractional;
use crate::subjects::layouts::GivenLayout;
use crate::subjects::numbers;
use crate::subjects::patterns;
use crate::subjects::patterns::GivenPattern;
use crate::subjects::pergens::FreePergen;
use crate::subjects::tables;
use crate::tally::Tally;

pub fn plan(tasks: &mut Vec<Task>) {
    for (_, inputs) in SMALLEST {
        for input in inputs {
            tasks.push(Box::new(|tally| compare_input(tally, *input)));
        }
    }
    tasks.push(Box::new(numbers::version));
    tasks.push(Box::new(others_of_classes));
    tasks.push(Box::new(bench_examples));
}

fn compare_input(tally: &mut Tally, input: Input) {
    match input {
        // No call of the library.
        Input::Quotient(..) => (),
        Input::Remainder(numer, denom) => numbers::remainder(tally, numer, denom),
        Input::Pergen(period, generator) => FreePergen::new(period, generator).compare(tally),
        Input::Generation(period, generator, key) => {
            FreePergen::new(period, generator).compare_generation(tally, key.into());
        }
        Input::Accidentals(period, generator, symbols, origin, key) => {
            let pergen = FreePergen::new(period, generator);
            pergen.compare_accidentals(tally, symbols, origin, key.into());
        }
        Input::Genesis(period, generator) => patterns::find(tally, period, generator, 0),
        Input::PatternLayers(pattern) | Input::Coprime(pattern) => {
            GivenPattern::new(pattern).compare(tally);
        }
        Input::Key(pattern, primary, secondary) => {
            GivenPattern::new(pattern).compare_key(tally, primary, secondary);
        }
        Input::FractionalWalk(bits) => fractional::walk(tally, f64::from_bits(bits)),
        Input::Layout(code, octave, tritave) => {
            GivenLayout::new(code, octave, tritave).compare(tally);
        }
        Input::NoteName(code, octave, tritave, key) => {
            let layout = GivenLayout::new(code, octave, tritave);
            layout.compare(tally);
            layout.compare_key(tally, key.into());
        }
        Input::LayoutLayers(code, octave, tritave) => {
            GivenLayout::new(code, octave, tritave).compare_octave(tally);
        }
    }
}

/// A product with the inverse that is too large, in a format and in a name; and the
/// same at a key below 0, which is asked for at such a remainder.
fn others_of_classes(tally: &mut Tally) {
    FreePergen::new(32_770, 32_769).compare_accidentals(tally, 1, 0, 65_535);
    FreePergen::new(46_342, 46_341).compare_generation(tally, -1);
    let layout = GivenLayout::new(5, 46_342, 6);
    layout.compare_key(tally, 46_341);
    layout.compare_key(tally, -1);
}

fn bench_examples(tally: &mut Tally) {
    for (code, octave, tritave) in [
        (1, 12, 19),
        (1, 31, 49),
        (1, 19, 30),
        (0, 12, 19),
        (3, 12, 19),
        (1, 24, 38),
        (5, 19, 30),
        (1, 7, 11),
        (3, 15, 24),
        (0, 16, 25),
        (1, 2400, 3800),
    ] {
        let layout = GivenLayout::new(code, octave, tritave);
        layout.compare(tally);
        layout.compare_octave(tally);
        layout.compare_book(tally);
        for key in -i32::from(octave)..i32::from(octave) {
            layout.compare_key(tally, key);
        }
        tables::print(tally, format!("{code} {octave} {tritave}\n").as_bytes());
    }
    let free = FreePergen::new(5, 3);
    free.compare_accidentals(tally, 7, 3, 1);
    free.compare_accidentals(tally, 7, 3, 2);
    GivenPattern::new([1, 60_000, 4, 0]).compare(tally);
}
