//! Patterns from a fractional generator, and the child of any record, bit for bit.

use judge::fractional as original;
use reading::Outcome;
use reading::fractional;
use reading::fractional::Bits;
use vetchnoon::Fractional;

use crate::classes::Class;
use crate::lending::Element;
use crate::question::Call;
use crate::question::Question;
use crate::raw;
use crate::tally::Answers;
use crate::tally::Original;
use crate::tally::Tally;
use crate::tally::outcome;

/// The walk from a generator, and how many patterns it has.
pub fn walk(tally: &mut Tally, generator: f64) {
    let reading = fractional::walk(generator);
    let original = original_walk(generator);
    walk_length(tally, generator, &reading, &original);
    let call = |out: &mut [Fractional]| vetchnoon::fractional_children(generator, out);
    tally.compare_filling(
        Question {
            call: Call::FractionalChildren,
            arguments: &halves(generator.to_bits()),
        },
        reading,
        original,
        (!generator.is_finite()).then_some(Class::FractionalGenerator),
        call,
    );
}

/// The original's walk is counted. What it has for a generator that is infinite or no number, the
/// class names for the walk itself.
fn walk_length(
    tally: &mut Tally,
    generator: f64,
    reading: &Outcome<Vec<Bits>>,
    original: &Original<Vec<Bits>>,
) {
    let question = Question {
        call: Call::FractionalChildrenLen,
        arguments: &halves(generator.to_bits()),
    };
    let answers = Answers {
        library: outcome(vetchnoon::fractional_children_len(generator)),
        reading: reading.as_ref().map(Vec::len).map_err(|number| *number),
        original: match original {
            Original::Named(_) => Original::Silent,
            other => other.then(|walk| Original::Answered(walk.len())),
        },
    };
    tally.compare(question, &answers, None);
}

/// The same into an empty slice.
pub fn walk_into_nothing(tally: &mut Tally, generator: f64) {
    let question = Question {
        call: Call::FractionalChildren,
        arguments: &halves(generator.to_bits()),
    };
    let genesis: Outcome<_> = fractional::Fractional::genesis(generator);
    // A walk has at least one pattern.
    let reading = genesis.map(|genesis| vec![genesis.bits()]);
    let call = |out: &mut [Fractional]| vetchnoon::fractional_children(generator, out);
    tally.compare_filling_of_length(question, 0, &reading, call);
}

/// What the original answers for a generator that is infinite or no number, the class names.
fn original_walk(generator: f64) -> Original<Vec<Bits>> {
    match Original::of(original::walk(generator)) {
        Original::Answered(walk) if original::is_of_no_numbers(&walk) => Original::Named(walk),
        other => other,
    }
}

/// The child of any record, which is handed over by value.
pub fn child(tally: &mut Tally, pattern: Bits) {
    let [primary_count, secondary_count] = pattern.counts;
    let [primary, secondary] = pattern.steps.map(halves);
    let arguments = [
        primary_count.into(),
        secondary_count.into(),
        primary[0],
        primary[1],
        secondary[0],
        secondary[1],
    ];
    let child = fractional::Fractional::given(pattern).child();
    let reading: Outcome<Vec<Bits>> = Ok(child.into_iter().map(|child| child.bits()).collect());
    let original = original::child(original::given(pattern))
        .map(|child| child.into_iter().map(original::bits).collect());
    let [primary_step, secondary_step] = pattern.steps.map(f64::from_bits);
    let given = Fractional {
        primary_count,
        secondary_count,
        primary_step,
        secondary_step,
    };
    let question = Question {
        call: Call::FractionalChild,
        arguments: &arguments,
    };
    let packaged = vetchnoon::fractional_child(given).into_iter();
    let packaged = packaged.map(Element::read).collect();
    tally.compare_packaged(question, &reading, Ok(packaged));
    let call = |out: &mut [Fractional]| raw::fractional_child(given, out);
    tally.compare_filling(question, reading, Original::of(original), None, call);
}

/// The upper and the lower 32 of 64 bits.
fn halves(bits: u64) -> [i64; 2] {
    [bits >> 32, bits & 0xffff_ffff].map(|half| half as i64)
}
