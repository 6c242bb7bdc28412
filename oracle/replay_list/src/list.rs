//! The list of questions: the bench examples of document 01, small numbers
//! densely, limits, and numbers of every size at random; then keys below 0, other letters
//! on key 0, strips of two octaves, stored strips, distances between keys, retunings, lists in
//! the order of the chain, moves, Scala keyboard mappings, sheets of keys, and patterns from
//! fractional generators.

use std::collections::HashSet;
use std::iter;

use judge::keys::asked_at;
use judge::layouts;
use judge::patterns::Pattern;

use crate::answers::created_layout;
use crate::books;
use crate::conversions;
use crate::edo;
use crate::fractional;
use crate::keys;
use crate::mappings;
use crate::moves;
use crate::orders;
use crate::questions::FreePergen;
use crate::questions::Layout;
use crate::questions::OfLayout;
use crate::questions::OfPattern;
use crate::questions::Question;
use crate::random::Random;
use crate::reach;
use crate::retunings;
use crate::sheets;
use crate::starts;
use crate::strips;

/// The numbers at which an answer is likely to change its form.
const LIMITS: [u16; 9] = [0, 1, 2, 255, 256, 32_767, 32_768, 65_534, 65_535];

/// The longest list and the longest name that are asked for, but for the bench
/// examples and `LONGEST_NAME`.
const LIST_LIMIT: u64 = 400;
const NAME_LIMIT: usize = 300;

/// The layout with the longest name of all, 13,109 bytes.
const LONGEST_NAME: (u16, u16, u16) = (2, 65_534, 65_535);

pub fn all() -> Vec<Question> {
    let mut random = Random::new(0x9e37_79b9_7f4a_7c15);
    let mut questions = bench_examples();
    questions.extend(of_numbers(&mut random));
    questions.extend(of_pergens(&mut random));
    questions.extend(of_patterns(&mut random));
    questions.extend(of_layouts(&mut random));
    questions.extend(tables(&mut random));
    questions.extend(books::all(&mut random));
    questions.extend(edo::all());
    questions.extend(unreadable());
    questions.extend(keys::all());
    questions.extend(starts::all());
    questions.extend(strips::all());
    questions.extend(conversions::all());
    questions.extend(reach::all());
    questions.extend(retunings::all());
    questions.extend(orders::all());
    questions.extend(moves::all());
    questions.extend(mappings::all());
    questions.extend(sheets::all());
    questions.extend(fractional::all());

    let mut asked = HashSet::new();
    questions.retain(|question| asked.insert(question.to_string()));
    questions
}

// ---- document 01, "Bench examples"

fn bench_examples() -> Vec<Question> {
    let asked = OfLayout::Numbers;
    let mut questions: Vec<Question> = [
        (1, 12, 19),
        (1, 31, 49),
        (1, 19, 30),
        (0, 12, 19),
        (3, 12, 19),
        (1, 0, 19),
        (5, 19, 30),
        (1, 7, 11),
        (3, 15, 24),
        (0, 16, 25),
        (1, 2_400, 3_800),
    ]
    .map(|numbers| Question::OfLayout(asked, layout(numbers)))
    .into();
    let sizes = |numbers| Question::OfPattern(OfPattern::LayerSizes, numbers);
    questions.extend([sizes([5, 2, 5, 3]), sizes([5, 2, 3, 2])]);
    let name = |key| Question::Name(layout((1, 24, 38)), key);
    questions.extend([1, 2, 3].map(name));
    let accidentals = |key| Question::Accidentals {
        pergen: pergen(5, 3),
        num_symbols: 7,
        genchain_origin: 3,
        key,
    };
    questions.extend([1, 2].map(accidentals));
    questions.extend(
        [(1, 7, 11), (1, 2_400, 3_800)]
            .map(|numbers| Question::OfLayout(OfLayout::Lamps, layout(numbers))),
    );
    questions.extend(
        [0, 1, 2, 199, 200, 1_000, 2_399, 2_400]
            .map(|key| Question::Name(layout((1, 2_400, 3_800)), key)),
    );
    questions.extend(
        [
            "1 12 19",
            "1 7 11",
            "1 2400 3800",
            "0 12 19",
            "3 12 19",
            "1 0 19",
        ]
        .map(table),
    );
    questions.push(Question::OfPattern(OfPattern::Coprime, [1, 60_000, 4, 0]));
    questions
}

// ---- whole numbers

fn of_numbers(random: &mut Random) -> Vec<Question> {
    let mut questions = Vec::new();
    for (x, y) in pairs(0..=12, 0..=12) {
        questions.push(Question::Gcd(x, y));
    }
    for (x, y) in at_limits() {
        questions.extend([Question::Gcd(x, y), Question::Simplify(x, y)]);
    }
    for x in (0..=32).chain(LIMITS) {
        questions.push(Question::Odd(x));
    }
    for _ in 0..80 {
        let (x, y) = (random.any_size(), random.any_size());
        questions.extend([
            Question::Gcd(x, y),
            Question::Simplify(x, y),
            Question::Odd(x),
        ]);
    }
    questions.extend(divisions(random));
    questions
}

fn divisions(random: &mut Random) -> Vec<Question> {
    let mut questions = Vec::new();
    for numer in -13..=13 {
        for denom in 0..=5 {
            questions.push(Question::Divide16(numer, denom));
            questions.push(Question::Divide32(numer, denom.into()));
        }
    }
    for numer in [i32::MIN, i32::MIN + 1, -1, 0, 1, i32::MAX - 1, i32::MAX] {
        for denom in LIMITS {
            questions.push(Question::Divide16(numer, denom));
        }
        for denom in [0, 1, 2, 65_536, 1 << 31, u32::MAX - 1, u32::MAX] {
            questions.push(Question::Divide32(numer, denom));
        }
    }
    for _ in 0..60 {
        let numer = random.bits32().cast_signed() >> random.up_to(31);
        questions.push(Question::Divide16(numer, random.any_size()));
        questions.push(Question::Divide32(
            numer,
            random.bits32() >> random.up_to(31),
        ));
    }
    questions
}

// ---- free pergens and formats

fn of_pergens(random: &mut Random) -> Vec<Question> {
    let mut questions = Vec::new();
    for (period, generator) in pairs(0..=12, 0..=14).chain(at_limits()) {
        questions.push(Question::Pergen(pergen(period, generator)));
    }
    for (period, generator) in pairs(0..=6, 0..=6) {
        questions.extend((0..=7).map(|key| Question::Generation(pergen(period, generator), key)));
    }
    for _ in 0..200 {
        let pergen = pergen(random.any_size(), random.any_size());
        questions.push(Question::Pergen(pergen));
        questions.push(Question::Generation(pergen, random.any_size().into()));
    }
    for _ in 0..500 {
        let num_symbols = random.up_to(9);
        questions.push(Question::Accidentals {
            pergen: pergen(random.up_to(14), random.up_to(16)),
            num_symbols,
            genchain_origin: random.up_to(num_symbols),
            key: random.up_to(15).into(),
        });
    }
    for _ in 0..200 {
        let num_symbols = random.any_size();
        questions.push(Question::Accidentals {
            pergen: pergen(random.any_size(), random.any_size()),
            num_symbols,
            genchain_origin: random.up_to(num_symbols),
            key: random.any_size().into(),
        });
    }
    questions
}

// ---- patterns

fn of_patterns(random: &mut Random) -> Vec<Question> {
    let mut questions = Vec::new();
    for (period, generator) in pairs(0..=10, 0..=11).chain(at_limits()) {
        questions.push(Question::NewGenesis(pergen(period, generator)));
    }
    for (large, small) in pairs(0..=2, 0..=2).chain(at_limits()) {
        questions.push(Question::NewCollapsed(large, small));
    }
    for numbers in [
        [0, 0, 0, 0],
        [1, 1, 0, 0],
        [1, 1, 1, 0],
        [1, 1, 0, 1],
        [1, 1, 1, 1],
        [5, 2, 2, 1],
        [2, 5, 1, 2],
        [1, 65_535, 0, 1],
        [1, 65_535, 1, 1],
        [65_535, 0, 1, 65_535],
        [255, 255, 128, 129],
        [40_000, 40_000, 1, 0],
        [1, 60_000, 4, 0],
        [0, 2, 32_769, 0],
        [2, 0, 0, 32_769],
        [65_535, 65_535, 65_535, 65_535],
    ] {
        questions.extend(OfPattern::ALL.map(|asked| Question::OfPattern(asked, numbers)));
    }
    for _ in 0..60 {
        let small = [6, 6, 9, 9].map(|most| random.up_to(most));
        questions.extend(OfPattern::ALL.map(|asked| Question::OfPattern(asked, small)));
        let (primary, secondary) = (place(random), place(random));
        questions.push(Question::GetKey(small, primary, secondary));
    }
    for _ in 0..60 {
        let large = large_pattern(random);
        questions.extend(OfPattern::ALL.map(|asked| Question::OfPattern(asked, large)));
        let (primary, secondary) = (place(random), place(random));
        questions.push(Question::GetKey(large, primary, secondary));
    }
    questions.retain(is_short_list);
    questions
}

/// A pattern of any size. About one in four is too large.
fn large_pattern(random: &mut Random) -> Pattern {
    let mut side = || {
        let count = random.any_size();
        let most = random.one_of(&[32_767, 32_767, 65_535]) / count.max(1);
        (count, random.up_to(most))
    };
    let (primary_count, primary_step) = side();
    let (secondary_count, secondary_step) = side();
    [primary_count, secondary_count, primary_step, secondary_step]
}

fn place(random: &mut Random) -> i16 {
    random.up_to(u16::MAX).cast_signed() >> random.up_to(15)
}

/// The lists are at most as long as the reduced size, or as the counts and steps
/// let a walk be.
fn is_short_list(question: &Question) -> bool {
    let Question::OfPattern(asked, pattern) = question else {
        return true;
    };
    let [a, b, p, s] = pattern.map(u64::from);
    let (counts, steps) = (a + b, p + s);
    match asked {
        OfPattern::Children | OfPattern::LayerSizes => steps <= LIST_LIMIT,
        OfPattern::Parents => counts <= LIST_LIMIT,
        OfPattern::Layers => counts * steps <= LIST_LIMIT,
        _ => true,
    }
}

// ---- layouts

fn of_layouts(random: &mut Random) -> Vec<Question> {
    let mut questions: Vec<Question> = (0..=6).chain(LIMITS).map(Question::Chain).collect();
    for code in 0..=6 {
        for octave in 0..=40 {
            questions.extend(small_layouts(random, code, octave));
        }
        for _ in 0..30 {
            questions.extend(refused_layout(random, code));
        }
    }
    for code in 0..=5 {
        for _ in 0..25 {
            questions.extend(large_layout(random, code));
        }
        questions.extend(at_limits().map(|(octave, tritave)| {
            Question::OfLayout(OfLayout::Numbers, layout((code, octave, tritave)))
        }));
    }
    questions.push(Question::Name(layout(LONGEST_NAME), longest_key()));
    questions
}

/// Up to four layouts of an octave that are accepted, and one that is chosen blindly.
fn small_layouts(random: &mut Random, code: u16, octave: u16) -> Vec<Question> {
    let most = 3 * octave + 12;
    let mut accepted: Vec<Layout> = (0..=most)
        .map(|tritave| layout((code, octave, tritave)))
        .filter(|layout| layout.read().is_ok())
        .collect();
    while 4 < accepted.len() {
        let last = u16::try_from(accepted.len() - 1).expect("few layouts");
        accepted.remove(random.up_to(last).into());
    }

    let mut questions = vec![Question::OfLayout(
        OfLayout::Numbers,
        layout((code, octave, random.up_to(most))),
    )];
    for (number, layout) in accepted.into_iter().enumerate() {
        if number == 0 {
            questions.extend(OfLayout::ALL.map(|asked| Question::OfLayout(asked, layout)));
        } else {
            questions.push(Question::OfLayout(OfLayout::Numbers, layout));
            let key = random.up_to(2 * octave).into();
            questions.extend([Question::Spelling(layout, key), Question::Name(layout, key)]);
        }
    }
    questions
}

/// Any layout, most often a refused one, asked all questions.
fn refused_layout(random: &mut Random, code: u16) -> Vec<Question> {
    let layout = layout((code, random.up_to(400), random.up_to(800)));
    if layout.read().is_ok() {
        return vec![Question::OfLayout(OfLayout::Numbers, layout)];
    }
    let key = random.up_to(400).into();
    let asked = random.one_of(&OfLayout::ALL);
    vec![
        Question::OfLayout(asked, layout),
        random_key_question(random, layout, key),
    ]
}

fn random_key_question(random: &mut Random, layout: Layout, key: i32) -> Question {
    match random.up_to(1) {
        0 => Question::Spelling(layout, key),
        _ => Question::Name(layout, key),
    }
}

/// An accepted layout with an octave of any size, and some of its keys.
fn large_layout(random: &mut Random, code: u16) -> Vec<Question> {
    let layout = iter::repeat_with(|| layout((code, random.any_size(), random.any_size())))
        .find(|layout| layout.read().is_ok())
        .expect("an endless search");
    let mut questions = vec![Question::OfLayout(OfLayout::Numbers, layout)];
    let last = layout.octave - 1;
    let keys = [1, last, random.up_to(last), random.up_to(last), u16::MAX].map(i32::from);
    questions.extend(keys.map(|key| Question::Spelling(layout, key)));
    questions.extend(
        keys.into_iter()
            .filter(|key| is_short_name(layout, *key))
            .map(|key| Question::Name(layout, key)),
    );
    if u64::from(layout.octave) <= LIST_LIMIT {
        questions.push(Question::OfLayout(OfLayout::KeyLayers, layout));
        questions.push(Question::OfLayout(OfLayout::Lamps, layout));
    }
    questions
}

pub fn is_short_name(layout: Layout, key: i32) -> bool {
    name_length(layout, key).is_some_and(|length| length <= NAME_LIMIT)
}

/// How long a key's name is, where the original has one.
fn name_length(layout: Layout, key: i32) -> Option<usize> {
    let key = asked_at(key, layout.octave);
    let original = created_layout(layout).ok()?;
    layouts::note_name(&original, key)
        .ok()
        .map(|name| name.len())
}

/// The key with the longest name, the first of them.
fn longest_key() -> i32 {
    let (code, octave, tritave) = LONGEST_NAME;
    let chain = layouts::chain(code).expect("a code of 0 to 5");
    let layout = layouts::create(chain, octave, tritave)
        .expect("no panic")
        .expect("a layout");
    let length = |key: &u16| layouts::note_name(&layout, *key).map_or(0, |name| name.len());
    let longest = (0..octave).rev().max_by_key(length);
    longest.expect("a key").into()
}

// ---- key tables

fn tables(random: &mut Random) -> Vec<Question> {
    let mut questions: Vec<Question> = [
        "",
        " ",
        "1",
        "1 12",
        "1 12 ",
        "1 12 19 ",
        " 1 12 19",
        "1  12 19",
        "1 12 19 1",
        "+1 12 19",
        "1 -12 19",
        "1 12 1x",
        "1 12 /",
        "1 12 :",
        "1 4096 65536",
        "1 4097 6500",
        "65536 12 19",
        "000001 12 19",
        "1 000012 19",
        "1 12 123456",
        "one 12 19",
        "1,12,19",
        "1\t12 19",
        "1 12 19\r",
        "00001 00012 00019",
        "6 12 19",
        "65535 4096 65535",
        "6 0 0",
        "0 0 0",
        "3 0 1",
        "1 12 11",
        "2 12 0",
        "3 12 25",
        "4 12 18",
        "5 12 75",
        "5 12 78",
        "1 6 9",
        "4 12 20",
        "1 4096 6144",
        "0 4096 6500",
        "2 4096 8191",
    ]
    .map(table)
    .into();
    for code in 0..=5 {
        for most in [12, 40, 100] {
            let layout =
                iter::repeat_with(|| layout((code, random.up_to(most), random.up_to(200))))
                    .find(|layout| layout.read().is_ok())
                    .expect("an endless search");
            questions.push(Question::Table(layout.to_string()));
        }
    }
    questions
}

// ---- lines that are no question

fn unreadable() -> Vec<Question> {
    [
        "",
        " ",
        "gcd",
        "gcd ",
        "gcd 1",
        "gcd 1 ",
        "gcd 1 2 3",
        "gcd 1 2 ",
        "gcd  1 2",
        " gcd 1 2",
        "gcd 1 65536",
        "gcd 1 -2",
        "gcd 1 99999999999999999999999",
        "gcdx 1 2",
        "gc 1 2",
        "table",
        "divide16 2147483648 1",
        "divide16 -2147483649 1",
        "divide16 -0 1",
        "divide16 1 65536",
        "divide32 1 4294967296",
        "get_key 1 1 1 -1 1",
        "get_key 1 1 1 1 32768 0",
        "get_key 1 1 1 1 -32769 0",
        "child 5 2 2",
        "layout 1 12",
        "layout 1 12 19 1",
        "name 1 12 19",
        "name 1 12 19 2147483648",
        "name 1 12 19 -2147483649",
        "name 1 12 19 -0",
        "name 1 12 19 -",
        "name 1 12 19 - 1",
        "name 1 12 19 -1 ",
        "name 1 12 19 -1 0",
        "name 1 12 -1",
        "name 1 -12 19 0",
        "spelling 1 12 19 +1",
        "layout_from 1 12 19",
        "layout_from 1 12 19 1 0",
        "layout_from 1 12 19 65536",
        "layout_from 1 12 19 -1",
        "layout_fro 1 12 19 1",
        "layout_from_from 1 12 19 1",
        "names_from 1 12 19 ",
        "name_from 1 12 19 1",
        "name_from 1 12 19 1 2147483648",
        "name_from 1 12 19 1 0 0",
        "name_from 1 12 19 -1 0",
        "name_from",
        "lamps_from 1 12 19",
        "find_from 1 12 19 1",
        "book_from 1 12 19",
        "12 lamps_from 1 12 19",
        "chain_from 1",
        "chain_from 1 3",
        "generation_from 12 7 1",
        "find_in_from 1 0",
        "table_from 1 12 19 3",
        "from 1 12 19 1",
        "_from 1 12 19 1",
        "layer 1 12 19",
        "layer 1 12 19 0x",
        "lamp 1 12 65536 0",
        "lamp 1 12 19 -4294967295",
        "generation 12 -7 1",
        "generation 12 7",
        "accidentals 12 7 7 3",
        "accidentals 12 7 7 -3 1",
        "12",
        "12 ",
        "12 12 lamps 1 12 19",
        "12  lamps 1 12 19",
        "65536 lamps 1 12 19",
        "-1 lamps 1 12 19",
        "12lamps 1 12 19",
        "book 1 12",
        "find 1 12 19",
        "find 1 12 19 2147483648",
        "find 1 12 -1",
        "find_in",
        "find_in 2147483648 1 0 0 0",
        "find_in -2147483649 1 0 0 0",
        "find_in -0 1 0 0 0",
        "find_in 0 256 0 0 0",
        "find_in 0 1 0 0 0 ",
        "find_in 0 1 0 0 -1",
        "widen 256",
        "widen 0 -1",
        "widen 0 ",
        "widen  0",
        "widen 0 x",
        "widenx 0",
        "narrow 65536",
        "narrow 0 -1",
        "narrow 0 ",
        "narrow  0",
        "narrow_from 0",
        "65536 narrow 0",
        "nearest",
        "nearest 1 12 19 3 0",
        "nearest 1 12 19 3 0 ",
        "nearest 1 12 19 3 0 3 ",
        "nearest 1 12 19 3 0 3 0",
        "nearest 1 12 19 3 0 65536",
        "nearest 1 12 19 3 0 -1",
        "nearest 1 12 19 3 2147483648 3",
        "nearest 1 12 19 -1 0 3",
        "nearest_from 1 12 19 3 0 3",
        "reach 1 12 19 3 0",
        "reach 1 12 19 3 -2147483649 0",
        "reach 1 12 19 3 0 65536",
        "reach 1 12 19 3 0 1 1",
        "reach 1 65536 19 3 0 1",
        "65536 reach 1 12 19 3 0 1",
        "to_chain_order",
        "to_chain_order 1 12 19",
        "to_chain_order 1 7 11 3 0 1 2 3 4 5 65536",
        "to_chain_order 1 7 11 3 0 1 2 3 4 5 -6",
        "to_chain_order 1 7 11 3 0 1 2 3 4 5 6 ",
        "to_chain_order 1 7 11 -3 0 1 2 3 4 5 6",
        "to_chain_order_from 1 7 11 3 0 1 2 3 4 5 6",
        "to_key_order 1 7 11",
        "to_key_order 1 7 11 3  0 1 2 3 4 5 6",
        "to_key_orde 1 7 11 3 0 1 2 3 4 5 6",
        "65536 to_key_order 1 7 11 3 0 1 2 3 4 5 6",
        "moves 1 12 19",
        "moves 1 12 19 3 ",
        "moves 1 12 19 3 0",
        "moves_from 1 12 19 3",
        "write_moves 1 12 19",
        "write_moves 1 12 19 -3",
        "genesis_moves 12",
        "genesis_moves 12 7 0",
        "nth_moves 12 7",
        "nth_moves 12 7 -1",
        "nth_moves 12 7 4294967296",
        "nth_moves 12 7 0 0",
        "walk_moves 12",
        "walk_moves 12 -7",
        "walk_moves 12 65536",
        "walk_moves 12 7 ",
        "-1 walk_moves 12 7",
    ]
    .map(Question::Unreadable)
    .into()
}

// ---- shorter words

pub fn layout((code, octave, tritave): (u16, u16, u16)) -> Layout {
    Layout {
        code,
        octave,
        tritave,
        start: None,
    }
}

/// The same layout from another letter, or from what is none.
pub fn from(start: u16, layout: Layout) -> Layout {
    Layout {
        start: Some(start),
        ..layout
    }
}

pub fn pergen(period: u16, generator: u16) -> FreePergen {
    FreePergen { period, generator }
}

fn table(line: &str) -> Question {
    Question::Table(line.to_owned())
}

pub fn pairs(
    first: impl Iterator<Item = u16>,
    second: impl Iterator<Item = u16> + Clone,
) -> impl Iterator<Item = (u16, u16)> {
    first.flat_map(move |x| second.clone().map(move |y| (x, y)))
}

pub fn at_limits() -> impl Iterator<Item = (u16, u16)> {
    pairs(LIMITS.into_iter(), LIMITS.into_iter())
}

#[cfg(test)]
mod tests {
    use super::*;
    use crate::answers::answer;

    #[test]
    fn every_refusal_is_met() {
        let answers: Vec<String> = all().iter().filter_map(answer).collect();
        // No call asks 9 any more.
        for number in (1..=8).chain(10..=22) {
            let refusal = ["refused", &number.to_string()];
            let met = |answer: &String| answer.split_whitespace().take(2).eq(refusal);
            assert!(answers.iter().any(met), "{number}");
        }
    }
}
