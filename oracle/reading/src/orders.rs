//! W-214: the entries of keys in the order of the chain, and in the order of keys again.

use super::Outcome;
use super::Whole;
use super::ask;
use super::layouts::Layout;

/// "Key i goes to cycle × reduced period + degree, with absent cycle as 0."
fn place(cycle: Option<Whole>, reduced: Whole, degree: Whole) -> Whole {
    cycle.unwrap_or(0) * reduced + degree
}

/// Where each key of the octave goes.
pub fn places(layout: &Layout) -> Vec<usize> {
    let pergen = &layout.pergen;
    (0..pergen.period)
        .map(|key| place(pergen.cycle(key), pergen.reduced, pergen.degree(key)) as usize)
        .collect()
}

/// The list in which each key's entry went to its place. The list has an entry for each key,
/// and may have more.
pub fn along(places: &[usize], list: &[u16]) -> Vec<u16> {
    let mut chain = vec![0; places.len()];
    for (place, entry) in places.iter().zip(list) {
        chain[*place] = *entry;
    }
    chain
}

/// The list that went to these places: each key's entry is where the key goes.
pub fn back(places: &[usize], list: &[u16]) -> Vec<u16> {
    places.iter().map(|place| list[*place]).collect()
}

/// "Rearrange a list of octave many 16-bit entries"; "if either is shorter than the octave,
/// question 10 says no". The second list is asked about where it is lent.
pub fn to_chain_order(layout: &Layout, list: &[u16]) -> Outcome<Vec<u16>> {
    holds_octave(layout, list)?;
    Ok(along(&places(layout), list))
}

/// "The inverse restores the list exactly."
pub fn to_key_order(layout: &Layout, list: &[u16]) -> Outcome<Vec<u16>> {
    holds_octave(layout, list)?;
    Ok(back(&places(layout), list))
}

pub fn holds_octave(layout: &Layout, list: &[u16]) -> Outcome<()> {
    ask(10, list.len() as Whole >= layout.pergen.period)
}

#[cfg(test)]
mod tests {
    use super::*;

    fn keys(octave: u16) -> Vec<u16> {
        (0..octave).collect()
    }

    #[test]
    fn a_chain_of_fifths() {
        let twelve = Layout::new(1, 12, 19).unwrap();
        let chain = to_chain_order(&twelve, &keys(12)).unwrap();
        assert_eq!(chain, [0, 7, 2, 9, 4, 11, 6, 1, 8, 3, 10, 5]);
    }

    #[test]
    fn one_cycle_after_the_other() {
        let quarter_tones = Layout::new(1, 24, 38).unwrap();
        let chain = to_chain_order(&quarter_tones, &keys(24)).unwrap();
        let even = [0, 14, 4, 18, 8, 22, 12, 2, 16, 6, 20, 10];
        assert_eq!(chain[..12], even);
        assert_eq!(chain[12..], even.map(|key| key + 1));
    }

    #[test]
    fn each_way_undoes_the_other() {
        for (octave, tritave) in [(12, 19), (24, 38), (31, 49), (7, 11), (36, 57)] {
            let layout = Layout::new(1, octave, tritave).unwrap();
            // Some entries twice.
            let list: Vec<u16> = keys(octave).iter().map(|key| key / 2 + 65_000).collect();
            let there = to_chain_order(&layout, &list).unwrap();
            assert_eq!(to_key_order(&layout, &there).as_ref(), Ok(&list));
            let back = to_key_order(&layout, &list).unwrap();
            assert_eq!(to_chain_order(&layout, &back).as_ref(), Ok(&list));
        }
    }

    #[test]
    fn shorter_and_longer_lists() {
        let twelve = Layout::new(1, 12, 19).unwrap();
        for order in [to_chain_order, to_key_order] {
            assert_eq!(order(&twelve, &keys(11)), Err(10));
            assert_eq!(order(&twelve, &keys(13)), order(&twelve, &keys(12)));
        }
    }
}
