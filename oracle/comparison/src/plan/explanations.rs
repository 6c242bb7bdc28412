//! Explanations of two typed spellings.

use reading::names::Spelling;

use super::Mode;
use super::Task;
use super::layouts::CODES;
use super::layouts::accepted_at_random;
use super::layouts::random_layout;
use super::layouts::starts;
use super::typed::SMALL;
use super::typed::random_spelling;
use super::typed::random_text;
use crate::randoms::Randoms;
use crate::subjects::layouts::GivenLayout;
use crate::subjects::typed::written;
use crate::tally::Tally;

/// The streams of random numbers that are used here.
const STREAM: u64 = 16_000_000;

pub fn plan(tasks: &mut Vec<Task>, mode: Mode, seed: u64) {
    for stream in 0..mode.pick(32, 256) {
        let randoms = Randoms::new(seed, STREAM + stream);
        tasks.push(Box::new(move |tally| large(tally, randoms.clone())));
    }
    for (code, octave, tritave) in SMALL {
        tasks.push(Box::new(move |tally| {
            small(tally, &GivenLayout::new(code, octave, tritave));
        }));
    }
    for octave in (0..=mode.pick(16, 36)).rev() {
        tasks.push(Box::new(move |tally| all_of_octave(tally, octave)));
    }
    for stream in 0..mode.pick(64, 1_024) {
        let randoms = Randoms::new(seed, STREAM + 10_000 + stream);
        tasks.push(Box::new(move |tally| at_random(tally, randoms.clone())));
    }
}

/// The texts of every letter with each of these numbers of signs, without stars, with as many
/// as the cycles have room for, and with one too many.
fn texts(given: &GivenLayout, signs: &[i128]) -> Vec<String> {
    let Ok(layout) = &given.reading else {
        return vec!["D".to_owned()];
    };
    let cycles = layout.pergen.cycles;
    let mut texts = Vec::new();
    for letter in 0..layout.chain.count() {
        for signs in signs {
            for stars in [0, cycles - 1, cycles] {
                let spelling = Spelling {
                    letter,
                    signs: *signs,
                    stars,
                };
                texts.push(written(layout, spelling));
            }
        }
    }
    texts.push(String::new());
    texts.dedup();
    texts
}

fn every_two(tally: &mut Tally, layout: &GivenLayout, texts: &[String]) {
    for first in texts {
        for second in texts {
            layout.compare_explained(tally, first.as_bytes(), second.as_bytes());
        }
    }
}

/// Every two spellings with up to four signs, and with some more.
fn small(tally: &mut Tally, layout: &GivenLayout) {
    let signs = [0, 1, 2, 3, 4, 12, 24, -1, -2, -3, -4, -12, -24];
    every_two(tally, layout, &texts(layout, &signs));
}

/// Every chain with each tritave up to 6 × octave + 6, from the chain's own letter and from
/// another: every two spellings with a sign, or none.
fn all_of_octave(tally: &mut Tally, octave: u16) {
    for code in CODES {
        for tritave in 0..=6 * octave + 6 {
            let layout = GivenLayout::new(code, octave, tritave);
            every_two(tally, &layout, &texts(&layout, &[0, 1, -1]));
            let others = starts(code, octave, tritave);
            let start = others[usize::from(tritave) % others.len()];
            let layout = GivenLayout::beginning(code, octave, tritave, start);
            every_two(tally, &layout, &texts(&layout, &[0, 1]));
        }
    }
}

/// Accepted layouts of any size: spellings of many signs and stars.
fn large(tally: &mut Tally, mut randoms: Randoms) {
    let given = accepted_at_random(&mut randoms);
    given.compare_explained(tally, b"D", b"D");
    // The layout was accepted; its start may be none.
    let Ok(layout) = &given.reading else {
        return;
    };
    for _ in 0..16 {
        let [first, second] =
            [(); 2].map(|()| written(layout, random_spelling(layout, &mut randoms)));
        given.compare_explained(tally, first.as_bytes(), second.as_bytes());
        given.compare_explained(tally, first.as_bytes(), first.as_bytes());
    }
}

/// Two texts, of which one or both may be no spelling, about any layout.
fn at_random(tally: &mut Tally, mut randoms: Randoms) {
    for _ in 0..10 {
        let (code, octave, tritave) = match randoms.below(4) {
            0 => random_layout(&mut randoms),
            _ => randoms.of(&SMALL),
        };
        let layout = GivenLayout::new(code, octave, tritave);
        for _ in 0..50 {
            let texts = [(); 2].map(|()| match (&layout.reading, randoms.below(4)) {
                (Ok(accepted), 1..) => {
                    let spelling = random_spelling(accepted, &mut randoms);
                    let few = Spelling {
                        signs: spelling.signs % 40,
                        stars: spelling.stars % 4,
                        ..spelling
                    };
                    written(accepted, few).into_bytes()
                }
                _ => random_text(&layout, &mut randoms),
            });
            let [first, second] = &texts;
            layout.compare_explained(tally, first, second);
        }
    }
}
