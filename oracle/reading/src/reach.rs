//! W-203: the nearest key that a letter names, and the keys in reach of a key.

use super::Outcome;
use super::Whole;
use super::ask;
use super::fitted;
use super::layouts::Layout;
use super::names;

/// The "distance round the octave" of two keys, of any octave: the shorter way.
pub fn distance(octave: Whole, one: Whole, other: Whole) -> Whole {
    let up = (other - one).rem_euclid(octave);
    let down = (one - other).rem_euclid(octave);
    up.min(down)
}

/// Whether a "name is that bare letter, with any stars".
pub fn is_bare(name: &str, letter: &str) -> bool {
    let behind = name.strip_prefix(letter);
    behind.is_some_and(|stars| stars.bytes().all(|byte| byte == b'*'))
}

/// The keys of the octave that a letter names, given the names of all.
pub fn keys_of(letter: &str, names: &[String]) -> Vec<u16> {
    let keys = (0..=u16::MAX).zip(names);
    keys.filter(|(_, name)| is_bare(name, letter))
        .map(|(key, _)| key)
        .collect()
}

/// Of the given keys, which rise, that "at the least distance round the octave. Of two
/// equally near, the lower number is answered."
pub fn nearest(octave: Whole, keys: &[u16], key: i32) -> Option<u16> {
    let away = |other: &u16| distance(octave, key.into(), (*other).into());
    // The first of several least ones.
    keys.iter().copied().min_by_key(away)
}

/// The names of the octave's keys.
pub fn octave_of_names(layout: &Layout) -> Vec<String> {
    let keys = 0..fitted(layout.pergen.period);
    keys.map(|key| names::name(layout, key)).collect()
}

/// The letter itself, or 16 "when the letter's place is not below the number of letters".
pub fn letter(layout: &Layout, place: u16) -> Outcome<&'static str> {
    ask(16, Whole::from(place) < layout.chain.count())?;
    Ok(layout.chain.letters[usize::from(place)])
}

/// "Given a key and a letter's place in the chain, answer the key of 0 to octave − 1 whose
/// name is that bare letter, with any stars, at the least distance round the octave."
pub fn nearest_natural(layout: &Layout, key: i32, place: u16) -> Outcome<u16> {
    let keys = keys_of(letter(layout, place)?, &octave_of_names(layout));
    let nearest = nearest(layout.pergen.period, &keys, key);
    Ok(nearest.expect("each letter names a key"))
}

/// "All keys of 0 to octave − 1 within distance d of a key, counted the same way, each once,
/// rising."
pub fn keys_in_reach(layout: &Layout, key: i32, within: u16) -> Vec<u16> {
    let octave = layout.pergen.period;
    (0..octave)
        .filter(|other| distance(octave, key.into(), *other) <= within.into())
        .map(fitted)
        .collect()
}

#[cfg(test)]
mod tests {
    use super::*;

    fn nearest_in((code, octave, tritave): (u16, u16, u16), key: i32, place: u16) -> Outcome<u16> {
        nearest_natural(&Layout::new(code, octave, tritave)?, key, place)
    }

    #[test]
    fn distances() {
        assert_eq!(distance(12, 0, 11), 1);
        assert_eq!(distance(12, 0, 6), 6);
        assert_eq!(distance(12, -13, 36), 1);
        assert_eq!(distance(1, 5, -7), 0);
    }

    #[test]
    fn bare_letters() {
        for name in ["D", "D*", "D***"] {
            assert!(is_bare(name, "D"));
            assert!(!is_bare(name, "E"));
        }
        for name in ["D#", "Db", "D+", "D-*", "D#/Eb", "(D#/Eb)", "(D#/Eb)*", "E"] {
            assert!(!is_bare(name, "D"));
        }
    }

    #[test]
    fn the_nearest_d() {
        let twelve = (1, 12, 19);
        assert_eq!(
            [1, 7, 13, -1].map(|key| nearest_in(twelve, key, 3)),
            [Ok(0); 4]
        );
        assert_eq!(nearest_in(twelve, -14, 0), Ok(3));
        // D and D*.
        let nearest = [2, 12, 13, -1].map(|key| nearest_in((1, 24, 38), key, 3));
        assert_eq!(nearest, [Ok(1), Ok(1), Ok(0), Ok(0)]);
    }

    #[test]
    fn the_lower_of_two_equally_near() {
        // D, D* and D**: 19 is 17 from the first and from the last.
        let nearest = [18, 19, 20].map(|key| nearest_in((1, 36, 57), key, 3));
        assert_eq!(nearest, [Ok(2), Ok(0), Ok(0)]);
    }

    #[test]
    fn the_letter_is_asked_about_last() {
        assert_eq!(nearest_in((1, 12, 19), 0, 6), Ok(9));
        assert_eq!(nearest_in((1, 12, 19), 0, 7), Err(16));
        assert_eq!(nearest_in((0, 12, 19), 0, 9), Err(4));
    }

    #[test]
    fn the_largest_octave() {
        let names = vec!["D".to_owned(); 65_535];
        assert_eq!(keys_of("D", &names).last(), Some(&65_534));
    }

    #[test]
    fn reaches() {
        let twelve = Layout::new(1, 12, 19).unwrap();
        let reach = |key, within| keys_in_reach(&twelve, key, within);
        assert_eq!(reach(5, 2), [3, 4, 5, 6, 7]);
        assert_eq!(reach(-1, 2), [0, 1, 9, 10, 11]);
        assert_eq!(reach(2, 5), [0, 1, 2, 3, 4, 5, 6, 7, 9, 10, 11]);
        assert_eq!(reach(2, 6).len(), 12);
        assert_eq!(reach(i32::MIN, u16::MAX).len(), 12);
        assert_eq!(reach(i32::MAX, 0), [7]);
    }
}
