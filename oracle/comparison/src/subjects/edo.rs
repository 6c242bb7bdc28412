//! An octave of n equal steps: its tritaves, its layouts, and the report over all.

use judge::asking::Answer;
use judge::edo::Listed;
use reading::Outcome;
use reading::edo;
use vetchnoon::Refused;

use crate::lending::Element;
use crate::question::Call;
use crate::question::Question;
use crate::raw;
use crate::subjects::layouts::GivenLayout;
use crate::tally::Original;
use crate::tally::Tally;

/// How many numbers a division has at most: three of each of five chains.
const MOST: usize = 15;

/// How many slices are lent that are longer than the output.
const LONGER: usize = 2;

/// Every question about a number of steps.
pub fn compare(tally: &mut Tally, n: u16) {
    compare_tritaves(tally, n);
    let listed = original(n, judge::edo::find_by_edo);
    compare_listing(tally, n, &listed);
    if let Original::Answered(listed) = listed {
        for layout in &listed {
            compare_listed(tally, n, layout);
        }
    }
}

/// The original is asked for the divisions that document 02 names, and no others.
fn original<T>(n: u16, ask: impl FnOnce(u16) -> Answer<T>) -> Original<T> {
    match edo::tritaves(n) {
        Ok(_) => Original::of(ask(n)),
        Err(_) => Original::Silent,
    }
}

fn compare_tritaves(tally: &mut Tally, n: u16) {
    let original = original(n, judge::edo::tritaves);
    let question = Question {
        call: Call::Tritaves,
        arguments: &[n.into()],
    };
    let packaged = vetchnoon::tritaves(n).map(|found| {
        let numbers = std::iter::once(found.nearest).chain(found.second_choice);
        numbers.collect()
    });
    tally.compare_packaged(question, &edo::tritaves(n), packaged);
    let call = |out: &mut [u16]| raw::tritaves(n, out);
    compare_in_every_length(tally, question, edo::tritaves(n), original, call);
}

/// Chain, tritave and flag of each layout, in the original's order.
fn compare_listing(tally: &mut Tally, n: u16, listed: &Original<Vec<Listed>>) {
    let numbers = |code, tritave, is_second: bool| [code, tritave, is_second.into()];
    let reading = edo::layouts(n).map(|listed| {
        let listed = listed.iter();
        listed
            .flat_map(|listed| numbers(listed.code, listed.tritave, listed.is_second))
            .collect()
    });
    let original = listed.then(|listed| {
        let listed = listed.iter();
        let listed =
            listed.flat_map(|listed| numbers(listed.code, listed.tritave, listed.is_second));
        Original::Answered(listed.collect())
    });
    let question = Question {
        call: Call::FindByEdo,
        arguments: &[n.into()],
    };
    compare_packaged_layouts(tally, question, n);
    let call = |out: &mut [u16]| raw::find_by_edo(n, out);
    compare_in_every_length(tally, question, reading, original, call);
}

/// The layouts that the Rust package makes, each with its chain's own start.
fn compare_packaged_layouts(tally: &mut Tally, question: Question, n: u16) {
    let reading = edo::layouts(n).map(|listed| {
        let listed = listed.iter();
        let layouts = listed.map(|listed| {
            let layout = GivenLayout::new(listed.code, n, listed.tritave).given;
            (layout, listed.is_second)
        });
        layouts.collect::<Vec<_>>()
    });
    let packaged = vetchnoon::find_by_edo(n).map(|found| {
        let found = found.iter();
        found
            .map(|found| (found.layout, found.is_second_choice))
            .collect()
    });
    tally.compare_packaged(question, &reading, packaged);
}

/// A layout that the original lists: its numbers, among them the steps whose difference is the
/// sharpness, its scale name, layers, strip and names, by the three numbers that are listed.
fn compare_listed(tally: &mut Tally, n: u16, listed: &Listed) {
    let layout = GivenLayout {
        original: Original::Answered(listed.layout.clone()),
        ..GivenLayout::new(listed.code, n, listed.tritave)
    };
    layout.compare(tally);
    layout.compare_octave(tally);
    layout.compare_book(tally);
}

/// The report, whose counts are made from the original's layouts too.
pub fn compare_report(tally: &mut Tally) {
    let question = Question {
        call: Call::EdoReport,
        arguments: &[],
    };
    let reading = Ok(edo::report().into_bytes());
    let original = Original::of(judge::edo::report().map(String::into_bytes));
    let packaged = vetchnoon::edo_report().as_bytes().to_vec();
    tally.compare_packaged(question, &reading, Ok(packaged));
    compare_in_every_length(tally, question, reading, original, raw::edo_report);
}

/// A call with slices of all lengths from 0 to more than the output has; a refusal with all
/// that might hold an output.
fn compare_in_every_length<T: Element<Read = T>>(
    tally: &mut Tally,
    question: Question,
    reading: Outcome<Vec<T>>,
    original: Original<Vec<T>>,
    call: impl Fn(&mut [T]) -> Result<usize, Refused>,
) {
    let longest = reading.as_ref().map_or(MOST, Vec::len) + LONGER;
    for length in 0..=longest {
        tally.compare_filling_of_length(question, length, &reading, &call);
    }
    tally.compare_filling(question, reading, original, None, call);
}
