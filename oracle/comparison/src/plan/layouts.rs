//! Layouts.

use reading::LARGEST;
use reading::Outcome;
use reading::Whole;
use reading::chains;
use reading::fitted;
use reading::names::Spelling;

use super::Mode;
use super::Task;
use crate::randoms::LIMITS;
use crate::randoms::Randoms;
use crate::subjects::layouts::GivenLayout;
use crate::subjects::layouts::own_start;
use crate::tally::Tally;

/// The six chains, and codes that are none.
pub const CODES: [u16; 9] = [0, 1, 2, 3, 4, 5, 6, 7, 65_535];

/// The streams of random numbers that are used here.
const STREAM: u64 = 1_000_000;

pub fn plan(tasks: &mut Vec<Task>, mode: Mode, seed: u64) {
    for (index, (large, start)) in whole_layouts(mode, seed).into_iter().enumerate() {
        let randoms = Randoms::new(seed, STREAM + index as u64);
        tasks.push(Box::new(move |tally| {
            whole(tally, large, start, randoms.clone());
        }));
    }
    for octave in (0..=mode.pick(72, 160)).rev() {
        tasks.push(Box::new(move |tally| all_of_octave(tally, octave)));
    }
    for octave in (0..=40).rev() {
        tasks.push(Box::new(move |tally| all_starts_of_octave(tally, octave)));
    }
    for octave in (5..=100).rev() {
        tasks.push(Box::new(move |tally| equalized_of_octave(tally, octave)));
    }
    for (index, octave) in LIMITS.into_iter().enumerate() {
        let randoms = Randoms::new(seed, STREAM + 10_000 + index as u64);
        tasks.push(Box::new(move |tally| {
            limits_of_octave(tally, octave, randoms.clone());
        }));
    }
    for octave in (5..=mode.pick(16, 28)).rev() {
        tasks.push(Box::new(move |tally| strips_at_limit(tally, octave)));
    }
    for (code, octave, tritave) in MANY_LAYERS {
        tasks.push(Box::new(move |tally| {
            GivenLayout::new(code, octave, tritave).compare_octave(tally);
        }));
    }
    for stream in 0..mode.pick(256, 2_048) {
        let randoms = Randoms::new(seed, STREAM + 20_000 + stream);
        tasks.push(Box::new(move |tally| at_random(tally, randoms.clone())));
    }
}

/// Every chain with each tritave up to 6 × octave + 6, and every key of three octaves,
/// one of them below 0, with a key more on both sides and the ends of 32 signed bits.
fn all_of_octave(tally: &mut Tally, octave: u16) {
    for code in CODES {
        for tritave in 0..=6 * octave + 6 {
            let layout = GivenLayout::new(code, octave, tritave);
            layout.compare(tally);
            layout.compare_octave(tally);
            layout.compare_book(tally);
            let octaves = match layout.is_accepted() {
                true => -i32::from(octave) - 1..=2 * i32::from(octave),
                false => -1..=1,
            };
            for key in octaves.chain([i32::MIN, i32::MAX]) {
                layout.compare_key(tally, key);
            }
            compare_small_spellings(tally, &layout);
        }
    }
}

/// The same layouts from every letter and from what is none: every key of the octave and
/// the next one on both sides, with the ends of 32 signed bits.
fn all_starts_of_octave(tally: &mut Tally, octave: u16) {
    for code in CODES {
        for tritave in 0..=6 * octave + 6 {
            for start in starts(code, octave, tritave) {
                let layout = GivenLayout::beginning(code, octave, tritave, start);
                layout.compare(tally);
                layout.compare_octave(tally);
                layout.compare_book(tally);
                let keys = match layout.is_accepted() {
                    true => -1..=i32::from(octave),
                    false => -1..=1,
                };
                for key in keys.chain([i32::MIN, i32::MAX]) {
                    layout.compare_key(tally, key);
                }
                compare_small_spellings(tally, &layout);
            }
        }
    }
}

/// All starts of an accepted layout but the chain's own, and three numbers that are
/// none; some where another question has the answer no before.
pub fn starts(code: u16, octave: u16, tritave: u16) -> Vec<u16> {
    let layout = GivenLayout::new(code, octave, tritave);
    let letters: Outcome<u16> = layout.read(|layout| fitted(layout.chain.count()));
    match letters {
        Ok(letters) => (0..=letters)
            .chain([letters + 1, u16::MAX])
            .filter(|start| own_start(code) != Ok(*start))
            .collect(),
        Err(_) => vec![1, 9, u16::MAX],
    }
}

/// All letters, one beyond and the largest number, up to two signs of each kind and as
/// many flats as can be asked for, and stars up to one that is too many.
fn compare_small_spellings(tally: &mut Tally, layout: &GivenLayout) {
    let letters = layout.read(|layout| layout.chain.count()).unwrap_or(0);
    let cycles = layout.read(|layout| layout.pergen.cycles).unwrap_or(0);
    for letter in (0..=letters).chain([LARGEST]) {
        for signs in [0, 1, 2, -1, -2, i32::MIN] {
            for stars in [0, cycles - 1, cycles, cycles + 1] {
                let spelling = Spelling {
                    letter,
                    signs: signs.into(),
                    stars: stars.max(0),
                };
                layout.compare_sounded(tally, spelling);
            }
        }
    }
}

/// Layers and strip, of two octaves, of every equalized scale from every letter.
fn equalized_of_octave(tally: &mut Tally, octave: u16) {
    for code in 0..=5 {
        for tritave in 0..=6 * octave + 6 {
            let layout = GivenLayout::new(code, octave, tritave);
            if layout.read(|layout| layout.pattern.sharpness()) != Ok(0) {
                continue;
            }
            let own = own_start(code).into_iter();
            for start in own.chain(starts(code, octave, tritave)) {
                GivenLayout::beginning(code, octave, tritave, start).compare_octave(tally);
            }
        }
    }
}

/// An octave with each tritave at a limit, for every chain.
fn limits_of_octave(tally: &mut Tally, octave: u16, mut randoms: Randoms) {
    for code in CODES {
        for tritave in LIMITS {
            compare_some(tally, code, octave, tritave, &mut randoms);
        }
    }
}

/// Layouts whose strips had no one-byte codes: document 01's with 200 cycles, the most
/// cycles that equalized scales of three chains have, and the largest sharp and flat
/// layers, with an even and with an odd number of layers.
pub const MANY_LAYERS: [(u16, u16, u16); 6] = [
    (1, 2400, 3800),
    (0, 42_129, 65_534),
    (1, 41_699, 65_527),
    (2, 40_955, 65_528),
    (2, 65_534, 65_535),
    (5, 65_535, 6),
];

/// Small layouts times the numbers that bring their count of layers close to the
/// 202 with which a strip just had one-byte codes.
fn strips_at_limit(tally: &mut Tally, octave: u16) {
    for code in 0..=5 {
        for tritave in 0..=3 * octave {
            let count = GivenLayout::new(code, octave, tritave).read(|layout| layout.layer_count());
            let Ok(count) = count.map(fitted::<u16>) else {
                continue;
            };
            for times in 198u16.div_ceil(count)..=206 / count {
                let (octave, tritave) = (octave * times, tritave * times);
                GivenLayout::new(code, octave, tritave).compare_octave(tally);
                let start = times % 10;
                GivenLayout::beginning(code, octave, tritave, start).compare_octave(tally);
            }
        }
    }
}

/// Layouts that are likely to be accepted, and others.
fn at_random(tally: &mut Tally, mut randoms: Randoms) {
    for _ in 0..1_000 {
        let (code, octave, tritave) = random_layout(&mut randoms);
        compare_some(tally, code, octave, tritave, &mut randoms);
    }
}

pub fn random_layout(randoms: &mut Randoms) -> (u16, u16, u16) {
    let code = randoms.between(0, 5);
    match randoms.below(4) {
        0 => (code, randoms.any(), randoms.any()),
        1 => {
            let octave = randoms.any_length().max(1);
            (code, octave, likely_tritave(code, octave, randoms))
        }
        2 => {
            let octave = randoms.any();
            (code, octave, likely_tritave(code, octave, randoms))
        }
        _ => with_cycles(code, randoms),
    }
}

/// A small layout with octave and tritave times the same number, which gives cycles.
fn with_cycles(code: u16, randoms: &mut Randoms) -> (u16, u16, u16) {
    let octave = randoms.between(5, 60);
    let tritave = likely_tritave(code, octave, randoms);
    let times = randoms.between(1, u16::MAX / octave.max(tritave));
    (code, octave * times, tritave * times)
}

/// A tritave that gives a generator within the octave; any where there is none.
fn likely_tritave(code: u16, octave: u16, randoms: &mut Randoms) -> u16 {
    let generator = Whole::from(randoms.between(0, octave));
    let octave = Whole::from(octave);
    let tritave = match code {
        0..=2 => octave + generator,
        3 => 2 * octave - 3 * generator,
        4 => octave + 4 * generator,
        _ => 6 * (octave - generator),
    };
    u16::try_from(tritave).unwrap_or_else(|_| randoms.any())
}

/// The layout itself with its own start or another, thirteen keys and nine spellings.
fn compare_some(tally: &mut Tally, code: u16, octave: u16, tritave: u16, randoms: &mut Randoms) {
    let start = random_start(code, randoms);
    let layout = GivenLayout::beginning(code, octave, tritave, start);
    layout.compare(tally);
    let steps = i32::from(octave);
    let around_0 = [-steps, -1, 0, 1, steps - 1, steps];
    let at_ends = [i32::MIN, 65_535, i32::MAX];
    for key in around_0.into_iter().chain(at_ends) {
        layout.compare_key(tally, key);
    }
    for _ in 0..4 {
        layout.compare_key(tally, randoms.key());
    }
    for _ in 0..9 {
        let spelling = random_spelling(&layout, randoms);
        layout.compare_sounded(tally, spelling);
    }
}

/// The chain's own start, any other, or at times what is none.
pub fn random_start(code: u16, randoms: &mut Randoms) -> u16 {
    match randoms.below(8) {
        0..4 => own_start(code).unwrap_or(0),
        4..7 => randoms.between(0, 9),
        _ => randoms.limit_or_any(),
    }
}

/// Mostly a spelling, with any number of signs; at times none.
fn random_spelling(layout: &GivenLayout, randoms: &mut Randoms) -> Spelling {
    let cycles = layout.read(|layout| layout.pergen.cycles).unwrap_or(1);
    let signs = (randoms.next() as i32) >> randoms.below(32);
    let signs = randoms.of(&[signs, !signs, i32::MAX, i32::MIN, i32::MIN + 1]);
    Spelling {
        letter: randoms.between(0, 9).into(),
        signs: signs.into(),
        stars: (Whole::from(randoms.any()) % cycles) + Whole::from(randoms.below(8) == 0),
    }
}

/// Large layouts: one cycle, four, a hundred, and code 3's largest octave.
const LARGE: [(u16, u16, u16); 4] = [
    (1, 311, 493),
    (1, 4096, 6492),
    (2, 1200, 1900),
    (3, 32_767, 52_427),
];

/// The layout with the longest names, of up to 39,325 bytes; its book has 215,331,622.
const LONGEST_NAMES: (u16, u16, u16) = (2, 65_534, 65_535);

/// The layout with the longest book, of 307,321,697 bytes.
const LONGEST_BOOK: (u16, u16, u16) = (5, 65_534, 56_172);

/// Layouts of which every key is compared, each with a start: the chain's own, or any.
fn whole_layouts(mode: Mode, seed: u64) -> Vec<((u16, u16, u16), u16)> {
    let mut large = LARGE.to_vec();
    if mode == Mode::Long {
        large.extend([LONGEST_NAMES, LONGEST_BOOK]);
    }
    let mut layouts: Vec<_> = large.into_iter().map(with_own_start).collect();
    let mut randoms = Randoms::new(seed, STREAM - 1);
    layouts.extend(LARGE.map(|layout| with_any_start(layout, &mut randoms)));
    for _ in 0..mode.pick(16, 100) {
        let layout = accepted(300, || random_layout(&mut randoms));
        layouts.push(with_own_start(layout));
        let layout = accepted(300, || random_layout(&mut randoms));
        layouts.push(with_any_start(layout, &mut randoms));
    }
    for _ in 0..mode.pick(3, 20) {
        let layout = accepted(0, || large_layout(&mut randoms));
        layouts.push(with_own_start(layout));
        let layout = accepted(0, || large_layout(&mut randoms));
        layouts.push(with_any_start(layout, &mut randoms));
    }
    layouts
}

fn with_own_start(layout: (u16, u16, u16)) -> ((u16, u16, u16), u16) {
    (layout, own_start(layout.0).expect("a chain"))
}

fn with_any_start(layout: (u16, u16, u16), randoms: &mut Randoms) -> ((u16, u16, u16), u16) {
    let letters = chains::chain(layout.0).expect("a chain").count();
    (layout, randoms.below(letters as u64) as u16)
}

/// The first accepted one of the chosen layouts that has at least so many keys.
pub fn accepted(least: u16, mut choose: impl FnMut() -> (u16, u16, u16)) -> (u16, u16, u16) {
    loop {
        let (code, octave, tritave) = choose();
        if octave >= least && GivenLayout::new(code, octave, tritave).is_accepted() {
            return (code, octave, tritave);
        }
    }
}

/// An accepted layout of any size, from a start at random.
pub fn accepted_at_random(randoms: &mut Randoms) -> GivenLayout {
    let (code, octave, tritave) = accepted(0, || random_layout(randoms));
    let start = random_start(code, randoms);
    GivenLayout::beginning(code, octave, tritave, start)
}

/// An octave with each tritave at a limit, for every chain, from a start at random.
pub fn at_limits(
    octave: u16,
    randoms: &mut Randoms,
    mut compare: impl FnMut(&GivenLayout, &mut Randoms),
) {
    for code in CODES {
        for tritave in LIMITS {
            let start = random_start(code, randoms);
            let layout = GivenLayout::beginning(code, octave, tritave, start);
            compare(&layout, randoms);
        }
    }
}

/// A layout so large that the original's product of inverse and key may overflow
/// within the octave.
fn large_layout(randoms: &mut Randoms) -> (u16, u16, u16) {
    let code = randoms.between(0, 5);
    let octave = randoms.between(46_342, u16::MAX);
    (code, octave, likely_tritave(code, octave, randoms))
}

/// Everything about a layout: its numbers, layers, strip, book, every key, and another
/// of each note.
fn whole(
    tally: &mut Tally,
    (code, octave, tritave): (u16, u16, u16),
    start: u16,
    mut randoms: Randoms,
) {
    compare_some(tally, code, octave, tritave, &mut randoms);
    let layout = GivenLayout::beginning(code, octave, tritave, start);
    layout.compare(tally);
    layout.compare_octave(tally);
    layout.compare_book(tally);
    for key in 0..i32::from(octave) {
        layout.compare_key(tally, key);
        layout.compare_key(tally, same_note(key, octave, &mut randoms));
    }
}

/// A key that is whole octaves, up or down, away from a key of the octave.
fn same_note(key: i32, octave: u16, randoms: &mut Randoms) -> i32 {
    let (key, octave) = (Whole::from(key), Whole::from(octave));
    let most = Whole::from(i32::MAX) / octave;
    let octaves = Whole::from(randoms.below(2 * most as u64)) - most;
    fitted(key + octaves * octave)
}

#[cfg(test)]
mod tests {
    use super::*;

    #[test]
    fn another_key_of_a_note_is_whole_octaves_away() {
        let mut randoms = Randoms::new(1, 1);
        for octave in [1, 2, 12, 65_535] {
            for key in [0, i32::from(octave) - 1] {
                let others = [(); 100].map(|()| same_note(key, octave, &mut randoms));
                assert!(others.iter().any(|other| *other < 0));
                assert!(others.iter().any(|other| *other > key));
                let same = |other: &i32| other.rem_euclid(octave.into()) == key;
                assert!(others.iter().all(same));
            }
        }
    }

    #[test]
    fn the_large_layouts_are_accepted() {
        let large = LARGE.into_iter().chain([LONGEST_NAMES, LONGEST_BOOK]);
        for (code, octave, tritave) in large.chain(MANY_LAYERS) {
            assert!(GivenLayout::new(code, octave, tritave).is_accepted());
        }
    }

    #[test]
    fn the_longest_names_do_not_make_the_longest_book() {
        let length = |(code, octave, tritave)| {
            let layout = GivenLayout::new(code, octave, tritave);
            vetchnoon::book_len(layout.given)
        };
        assert_eq!(length(LONGEST_NAMES), Ok(215_331_622));
        assert_eq!(length(LONGEST_BOOK), Ok(307_321_697));
    }
}
