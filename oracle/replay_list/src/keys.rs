//! Keys that the original does not have: below 0, and above 65,535. Document 02 (W-201)
//! brings them round, and the original is asked there.
//!
//! One key's layer and lamp, which no other part of the list asks for, are asked at keys
//! of the octave too.

use std::iter;

use crate::list::is_short_name;
use crate::list::layout;
use crate::list::pergen;
use crate::questions::Layout;
use crate::questions::Question;
use crate::random::Random;

/// Both ends of 32 signed bits, of document 02's range and of 16 bits, and what lies
/// just beyond.
const ENDS: [i32; 14] = [
    i32::MIN,
    i32::MIN + 1,
    -65_537,
    -65_536,
    -65_535,
    -32_769,
    -32_768,
    -1,
    0,
    65_535,
    65_536,
    65_537,
    i32::MAX - 1,
    i32::MAX,
];

/// Of each chain one without cycles; then stars, equalized scales, of which the second
/// has another layer an octave higher, and many layers.
pub const ACCEPTED: [(u16, u16, u16); 11] = [
    (0, 9, 14),
    (1, 12, 19),
    (2, 7, 8),
    (3, 15, 24),
    (4, 34, 54),
    (5, 19, 30),
    (1, 24, 38),
    (1, 14, 22),
    (1, 7, 11),
    (3, 8, 13),
    (1, 31, 49),
];

/// One layout for each refusal 1 to 4.
pub const REFUSED: [(u16, u16, u16); 4] = [(6, 12, 19), (1, 0, 19), (3, 12, 19), (0, 12, 19)];

/// One with 200 cycles, whose strip had no one-byte codes.
pub const MANY_CYCLES: (u16, u16, u16) = (1, 2_400, 3_800);

pub fn all() -> Vec<Question> {
    // Numbers of its own, so that the rest of the list does not depend on this part.
    let mut random = Random::new(0xd134_2543_de82_ef95);
    let mut questions = of_pergens(&mut random);
    questions.extend(of_formats(&mut random));
    questions.extend(of_layouts());
    questions.extend(of_large_layouts(&mut random));
    questions
}

/// Any key of 32 signed bits, with as many small as large ones.
pub fn any_key(random: &mut Random) -> i32 {
    random.bits32().cast_signed() >> random.up_to(31)
}

// ---- free pergens and formats

fn of_pergens(random: &mut Random) -> Vec<Question> {
    let mut questions = Vec::new();
    for period in 0..=6 {
        for generator in 0..=6 {
            let pergen = pergen(period, generator);
            questions.extend((-7..0).map(|key| Question::Generation(pergen, key)));
        }
    }
    for (period, generator) in [(12, 7), (24, 14), (1, 1), (65_535, 2), (65_534, 4), (0, 7)] {
        let pergen = pergen(period, generator);
        questions.extend(ENDS.map(|key| Question::Generation(pergen, key)));
    }
    for _ in 0..200 {
        let pergen = pergen(random.any_size(), random.any_size());
        questions.push(Question::Generation(pergen, any_key(random)));
    }
    questions
}

fn of_formats(random: &mut Random) -> Vec<Question> {
    let mut questions = Vec::new();
    // A reduced period at least the symbol count, and below it.
    for (period, generator) in [(12, 7), (24, 14), (5, 3)] {
        questions.extend((-period..0).chain(ENDS).map(|key| Question::Accidentals {
            pergen: pergen(period as u16, generator),
            num_symbols: 7,
            genchain_origin: 3,
            key,
        }));
    }
    for _ in 0..200 {
        let num_symbols = random.up_to(9);
        questions.push(Question::Accidentals {
            pergen: pergen(random.up_to(14), random.up_to(16)),
            num_symbols,
            genchain_origin: random.up_to(num_symbols),
            key: -i32::from(random.up_to(30)),
        });
    }
    for _ in 0..150 {
        let num_symbols = random.any_size();
        questions.push(Question::Accidentals {
            pergen: pergen(random.any_size(), random.any_size()),
            num_symbols,
            genchain_origin: random.up_to(num_symbols),
            key: any_key(random),
        });
    }
    questions
}

// ---- layouts

/// Every question about one key.
pub fn of_key(layout: Layout, key: i32) -> [Question; 4] {
    [
        Question::Spelling(layout, key),
        Question::Name(layout, key),
        Question::Layer(layout, key),
        Question::Lamp(layout, key),
    ]
}

fn of_layouts() -> Vec<Question> {
    let mut questions = Vec::new();
    for layout in ACCEPTED.map(layout) {
        // Two octaves on both sides: layers and lamps of an equalized scale repeat after two.
        let two = 2 * i32::from(layout.octave);
        questions.extend(
            (-two - 1..0)
                .chain(ENDS)
                .flat_map(|key| of_key(layout, key)),
        );
        questions.extend((0..=two).map(|key| Question::Layer(layout, key)));
        questions.extend((0..=two).map(|key| Question::Lamp(layout, key)));
    }
    for layout in REFUSED.into_iter().chain([MANY_CYCLES]).map(layout) {
        let some = [i32::MIN, -1, 0, 1, i32::MAX];
        questions.extend(some.into_iter().flat_map(|key| of_key(layout, key)));
    }
    questions
}

fn of_large_layouts(random: &mut Random) -> Vec<Question> {
    of_any_size(random, 12, accepted, |random, layout| {
        let octave = i32::from(layout.octave);
        let keys = [-1, -octave, 1 - octave, any_key(random), any_key(random)];
        keys.into_iter()
            .flat_map(|key| of_key(layout, key))
            .collect()
    })
}

/// What is asked of layouts with an octave of any size, so many of each chain; but for long
/// names.
pub fn of_any_size(
    random: &mut Random,
    times: usize,
    choose: impl Fn(&mut Random, u16) -> Layout,
    asked: impl Fn(&mut Random, Layout) -> Vec<Question>,
) -> Vec<Question> {
    let mut questions = Vec::new();
    for code in 0..=5 {
        for _ in 0..times {
            let layout = choose(random, code);
            questions.extend(asked(random, layout));
        }
    }
    questions.retain(|question| match question {
        Question::Name(layout, key) => is_short_name(*layout, *key),
        _ => true,
    });
    questions
}

/// A layout of a chain that is accepted, with an octave of any size.
pub fn accepted(random: &mut Random, code: u16) -> Layout {
    iter::repeat_with(|| layout((code, random.any_size(), random.any_size())))
        .find(|layout| layout.read().is_ok())
        .expect("an endless search")
}

#[cfg(test)]
mod tests {
    use super::*;
    use crate::answers::answer;

    #[test]
    fn key_minus_1_of_the_twelve() {
        let twelve = layout((1, 12, 19));
        let answers = of_key(twelve, -1).each_ref().map(answer);
        let expected = ["1 1 3 1 -\n", "C#/Db\n", "e0\n", "65535\n"];
        assert_eq!(answers, expected.map(|text| Some(text.to_owned())));
    }

    #[test]
    fn an_equalized_scale_repeats_after_two_octaves() {
        let layout = layout((3, 8, 13));
        let answers = [0, -8, -16].map(|key| answer(&Question::Layer(layout, key)));
        assert_eq!(
            answers,
            ["n\n", "e0\n", "n\n"].map(|text| Some(text.to_owned()))
        );
        // Home has no layer's colour, so the keys beside it show the alternation.
        let answers = [0, -8, 1, -7, -15].map(|key| answer(&Question::Lamp(layout, key)));
        assert_eq!(
            answers,
            ["0\n", "0\n", "1\n", "65535\n", "1\n"].map(|text| Some(text.to_owned()))
        );
    }
}
