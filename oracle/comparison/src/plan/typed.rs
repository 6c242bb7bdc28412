//! Typed names: those that are written, spellings that no cap bears, and texts that are none.

use reading::Whole;
use reading::names;
use reading::names::Spelling;

use super::Mode;
use super::Task;
use super::layouts::CODES;
use super::layouts::accepted_at_random;
use super::layouts::random_layout;
use super::layouts::starts;
use crate::randoms::Randoms;
use crate::subjects::layouts::GivenLayout;
use crate::subjects::typed::written;
use crate::tally::Tally;

/// The streams of random numbers that are used here.
const STREAM: u64 = 15_000_000;

/// Layouts of few keys: the twelve, quarter tones, signs that are exchanged, without cycles and
/// with three, an equalized scale, one of two cycles, and letters of two bytes.
pub const SMALL: [(u16, u16, u16); 8] = [
    (1, 12, 19),
    (1, 24, 38),
    (2, 7, 8),
    (2, 21, 24),
    (1, 7, 11),
    (1, 14, 22),
    (0, 16, 25),
    (0, 32, 50),
];

/// What stands in names beside letters, the signs of other layouts too, and what never does.
const MARKS: &[u8] = b"#b-+*/() H";

pub fn plan(tasks: &mut Vec<Task>, mode: Mode, seed: u64) {
    for stream in 0..mode.pick(32, 256) {
        let randoms = Randoms::new(seed, STREAM + stream);
        tasks.push(Box::new(move |tally| large(tally, randoms.clone())));
    }
    for (code, octave, tritave) in SMALL {
        for first in 0..=u8::MAX {
            if alphabet(code).contains(&first) {
                tasks.push(Box::new(move |tally| {
                    short_texts(tally, &GivenLayout::new(code, octave, tritave), first);
                }));
            }
        }
        tasks.push(Box::new(move |tally| {
            few_letters(tally, &GivenLayout::new(code, octave, tritave), mode);
        }));
        tasks.push(Box::new(move |tally| {
            single_changes(tally, &GivenLayout::new(code, octave, tritave));
        }));
    }
    for octave in (0..=mode.pick(20, 60)).rev() {
        tasks.push(Box::new(move |tally| all_of_octave(tally, octave)));
    }
    // A million texts in a long run.
    for stream in 0..mode.pick(64, 1_024) {
        let randoms = Randoms::new(seed, STREAM + 10_000 + stream);
        tasks.push(Box::new(move |tally| at_random(tally, randoms.clone())));
    }
}

/// Every chain with each tritave up to 6 × octave + 6: every name of the octave, from the chain's
/// own letter and from the others, and spellings that no cap bears.
fn all_of_octave(tally: &mut Tally, octave: u16) {
    for code in CODES {
        for tritave in 0..=6 * octave + 6 {
            let layout = GivenLayout::new(code, octave, tritave);
            if !layout.is_accepted() {
                layout.compare_typed(tally, b"D");
                layout.compare_typed(tally, b"");
                continue;
            }
            all_names(tally, &layout);
            unborne_spellings(tally, &layout);
            for start in starts(code, octave, tritave) {
                let layout = GivenLayout::beginning(code, octave, tritave, start);
                all_names(tally, &layout);
                layout.compare_typed(tally, b"D");
            }
        }
    }
}

fn all_names(tally: &mut Tally, layout: &GivenLayout) {
    for key in 0..layout.given.octave {
        layout.compare_name_back(tally, key);
        layout.compare_spellings_back(tally, key);
    }
}

/// Every letter with more signs than a name has, and with stars up to two too many.
fn unborne_spellings(tally: &mut Tally, given: &GivenLayout) {
    let Ok(layout) = &given.reading else {
        return;
    };
    let cycles = layout.pergen.cycles;
    for letter in 0..layout.chain.count() {
        for signs in [0, 1, 2, 5, 40, -1, -2, -5, -40] {
            for stars in [0, cycles - 1, cycles, cycles + 1] {
                let spelling = Spelling {
                    letter,
                    signs,
                    stars,
                };
                given.compare_typed(tally, written(layout, spelling).as_bytes());
            }
        }
    }
}

/// The bytes of a chain's letters, and the marks.
fn alphabet(code: u16) -> Vec<u8> {
    let chain = reading::chains::chain(code).expect("a chain");
    let mut bytes: Vec<u8> = chain.letters.concat().into_bytes();
    bytes.extend(MARKS);
    bytes.sort_unstable();
    bytes.dedup();
    bytes
}

/// All texts of up to four bytes of the alphabet that begin with one of them; beside the first,
/// the text of no bytes.
fn short_texts(tally: &mut Tally, layout: &GivenLayout, first: u8) {
    let alphabet = alphabet(layout.given.chain);
    if first == alphabet[0] {
        layout.compare_typed(tally, b"");
    }
    every_text(&[first], &alphabet, 3, &mut |text| {
        layout.compare_typed(tally, text);
    });
}

/// Every text that begins so and goes on with up to `more` bytes of an alphabet.
fn every_text(begun: &[u8], alphabet: &[u8], more: usize, compare: &mut impl FnMut(&[u8])) {
    compare(begun);
    if more == 0 {
        return;
    }
    let mut longer = begun.to_vec();
    for byte in alphabet {
        longer.push(*byte);
        every_text(&longer, alphabet, more - 1, compare);
        longer.pop();
    }
}

/// All texts of up to five bytes, in a long run seven, of one letter, the two signs, a star, a
/// slash and parentheses: there are whole names of two spellings among them.
fn few_letters(tally: &mut Tally, layout: &GivenLayout, mode: Mode) {
    let Ok(accepted) = &layout.reading else {
        return;
    };
    let (sharp, flat) = names::signs(accepted);
    let alphabet = ["D", sharp, flat, "*", "/", "(", ")"].concat().into_bytes();
    let longest = mode.pick(5, 7);
    every_text(b"", &alphabet, longest, &mut |text| {
        layout.compare_typed(tally, text);
    });
}

/// Each name of the octave with every byte changed for each of the alphabet, left out, and put in
/// anywhere; every beginning, and every end.
fn single_changes(tally: &mut Tally, layout: &GivenLayout) {
    let Ok(accepted) = &layout.reading else {
        return;
    };
    let alphabet = alphabet(layout.given.chain);
    for key in 0..layout.given.octave {
        let name = names::name(accepted, key.into()).into_bytes();
        for place in 0..=name.len() {
            layout.compare_typed(tally, &name[..place]);
            layout.compare_typed(tally, &name[place..]);
            for byte in &alphabet {
                let mut longer = name.clone();
                longer.insert(place, *byte);
                layout.compare_typed(tally, &longer);
                if place < name.len() {
                    longer.remove(place + 1);
                    layout.compare_typed(tally, &longer);
                }
            }
            if place < name.len() {
                let mut shorter = name.clone();
                shorter.remove(place);
                layout.compare_typed(tally, &shorter);
            }
        }
    }
}

/// Accepted layouts of any size: names, which may be long, the same with a byte changed, and
/// spellings of many signs and stars.
fn large(tally: &mut Tally, mut randoms: Randoms) {
    let given = accepted_at_random(&mut randoms);
    given.compare_typed(tally, b"D");
    // The layout was accepted; its start may be none.
    let Ok(layout) = &given.reading else {
        return;
    };
    for _ in 0..8 {
        let key = randoms.below(given.given.octave.into()) as u16;
        given.compare_name_back(tally, key);
        given.compare_spellings_back(tally, key);
        let name = names::name(layout, key.into()).into_bytes();
        given.compare_typed(tally, &changed(name, &mut randoms));
        let spelling = random_spelling(layout, &mut randoms);
        given.compare_typed(tally, written(layout, spelling).as_bytes());
    }
}

/// A text of which one byte is another.
fn changed(mut text: Vec<u8>, randoms: &mut Randoms) -> Vec<u8> {
    let place = randoms.below(text.len() as u64) as usize;
    text[place] = randoms.of(MARKS);
    text
}

/// Any letter, with up to 65,535 signs, and stars of which some are too many.
pub fn random_spelling(layout: &reading::layouts::Layout, randoms: &mut Randoms) -> Spelling {
    let signs = Whole::from(randoms.any_length());
    Spelling {
        letter: randoms.below(layout.chain.count() as u64).into(),
        signs: if randoms.below(2) == 0 { signs } else { -signs },
        stars: randoms.below(layout.pergen.cycles as u64 + 2).into(),
    }
}

/// A thousand texts about a small layout or any other, accepted or not.
fn at_random(tally: &mut Tally, mut randoms: Randoms) {
    for _ in 0..10 {
        let (code, octave, tritave) = match randoms.below(4) {
            0 => random_layout(&mut randoms),
            _ => randoms.of(&SMALL),
        };
        let layout = GivenLayout::new(code, octave, tritave);
        for _ in 0..100 {
            layout.compare_typed(tally, &random_text(&layout, &mut randoms));
        }
    }
}

/// Random bytes; bytes of which names are made; and parts of names, one after another.
pub fn random_text(layout: &GivenLayout, randoms: &mut Randoms) -> Vec<u8> {
    let parts = randoms.below(12) as usize;
    match randoms.below(4) {
        0 => randoms.bytes(parts),
        1 => {
            let alphabet = alphabet(layout.given.chain.min(5));
            (0..parts).map(|_| randoms.of(&alphabet)).collect()
        }
        _ => (0..parts)
            .flat_map(|_| random_part(layout, randoms))
            .collect(),
    }
}

/// A letter, a run of one sign or of stars, a slash, a parenthesis.
fn random_part(given: &GivenLayout, randoms: &mut Randoms) -> Vec<u8> {
    let Ok(layout) = &given.reading else {
        return b"D".to_vec();
    };
    let (sharp, flat) = names::signs(layout);
    let times = randoms.below(4) as usize;
    match randoms.below(8) {
        0..=2 => randoms.of(layout.chain.letters).as_bytes().to_vec(),
        3 => sharp.repeat(times).into_bytes(),
        4 => flat.repeat(times).into_bytes(),
        5 => "*".repeat(times).into_bytes(),
        6 => b"/".to_vec(),
        _ => randoms.of(&["(", ")", "", " "]).as_bytes().to_vec(),
    }
}

#[cfg(test)]
mod tests {
    use super::*;

    #[test]
    fn the_small_layouts_have_what_is_said_of_them() {
        let numbers = SMALL.map(|(code, octave, tritave)| {
            let layout = GivenLayout::new(code, octave, tritave);
            let accepted = layout.reading.expect("an accepted layout");
            let sharpness = accepted.pattern.sharpness().signum();
            (accepted.pergen.cycles, sharpness)
        });
        let expected = [
            (1, 1),
            (2, 1),
            (1, -1),
            (3, -1),
            (1, 0),
            (2, 0),
            (1, 1),
            (2, 1),
        ];
        assert_eq!(numbers, expected);
    }

    #[test]
    fn every_text_of_two_bytes() {
        let mut texts = Vec::new();
        every_text(b"", b"xy", 2, &mut |text| texts.push(text.to_vec()));
        assert_eq!(texts.len(), 1 + 2 + 4);
    }
}
