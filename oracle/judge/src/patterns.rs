//! Questions to the second part of pergen.rs: step patterns, there `Mos<u16, u16>`.

use tune::pergen::Mos;

use crate::asking::Answer;
use crate::asking::ask;

/// The four numbers of a pattern: primary count, secondary count, primary step,
/// secondary step.
pub type Pattern = [u16; 4];

/// The numbers that follow from a pattern.
#[derive(Clone, Copy, Debug, PartialEq, Eq)]
pub struct Derived {
    pub size: u16,
    pub num_steps: u32,
    pub sharpness: i32,
    pub num_cycles: u16,
    pub reduced_size: u16,
}

pub fn numbers(mos: Mos) -> Pattern {
    [
        mos.num_primary_steps(),
        mos.num_secondary_steps(),
        mos.primary_step(),
        mos.secondary_step(),
    ]
}

/// A given pattern, or `None` where the original finds its size too large.
pub fn create([a, b, p, s]: Pattern) -> Answer<Option<Mos>> {
    ask(|| Mos::new(a, b, p, s))
}

pub fn create_genesis(period: u16, generator: u16) -> Answer<Mos> {
    ask(|| Mos::<u16>::new_genesis(period, generator))
}

pub fn create_collapsed(num_large_steps: u16, num_small_steps: u16) -> Answer<Mos> {
    ask(|| Mos::<u16>::new_collapsed(num_large_steps, num_small_steps))
}

pub fn derived(mos: Mos) -> Answer<Derived> {
    ask(|| Derived {
        size: mos.size(),
        num_steps: mos.num_steps(),
        sharpness: mos.sharpness(),
        num_cycles: mos.num_cycles(),
        reduced_size: mos.reduced_size(),
    })
}

pub fn child(mos: Mos) -> Answer<Option<Mos>> {
    ask(|| mos.child())
}

pub fn parent(mos: Mos) -> Answer<Option<Mos>> {
    ask(|| mos.parent())
}

/// The walk of patterns, `mos` first.
pub fn children(mos: Mos) -> Answer<Vec<Mos>> {
    ask(|| mos.children().collect())
}

/// The walk back, `mos` first.
pub fn parents(mos: Mos) -> Answer<Vec<Mos>> {
    ask(|| mos.parents().collect())
}

pub fn genesis(mos: Mos) -> Answer<Mos> {
    ask(|| mos.genesis())
}

pub fn dual(mos: Mos) -> Answer<Mos> {
    ask(|| mos.dual())
}

pub fn mirror(mos: Mos) -> Answer<Mos> {
    ask(|| mos.mirror())
}

pub fn coprime(mos: Mos) -> Answer<Mos> {
    ask(|| mos.coprime())
}

pub fn layers(mos: Mos) -> Answer<Vec<u16>> {
    ask(|| mos.get_layers())
}

pub fn key(mos: Mos, primary: i16, secondary: i16) -> Answer<i32> {
    ask(|| mos.get_key(primary, secondary))
}

/// The moves of a pattern of a walk: octaves and generators of its primary step, then of its
/// secondary one. The original has none (W-214). All steps of its pattern are one octave and
/// no generators; so with a determinant of −1 a primary step has as many generators as there
/// are secondary steps, and a secondary one minus as many as there are primary steps. What
/// is left of a step has to be whole octaves, else there is no answer.
pub fn moves(mos: Mos, octave: u16, generator: u16) -> Option<[i32; 4]> {
    let [primary_count, secondary_count, primary_step, secondary_step] =
        numbers(mos).map(i64::from);
    let octaves = |step: i64, generators: i64| {
        let rest = step - generators * i64::from(generator);
        let whole = rest % i64::from(octave) == 0;
        whole.then(|| rest / i64::from(octave))
    };
    let moves = [
        octaves(primary_step, secondary_count)?,
        secondary_count,
        octaves(secondary_step, -primary_count)?,
        -primary_count,
    ];
    Some(moves.map(|number| i32::try_from(number).expect("numbers of 16 bits, and one quotient")))
}

/// How often each layer's number stands in the list, the natural layer first.
pub fn layer_sizes(layers: &[u16]) -> Vec<usize> {
    layers
        .chunk_by(|number, next| number == next)
        .map(<[u16]>::len)
        .collect()
}

#[cfg(test)]
mod tests {
    use super::*;

    #[test]
    fn the_moves_of_a_walk() {
        let walk = |octave, generator| {
            let walk = children(create_genesis(octave, generator).unwrap()).unwrap();
            let moves = walk.into_iter().map(|mos| moves(mos, octave, generator));
            moves.collect::<Option<Vec<_>>>().unwrap()
        };
        assert_eq!(walk(12, 7)[0], [0, 1, 1, -1]);
        assert_eq!(walk(12, 7)[3], [-1, 2, 3, -5]);
        assert_eq!(walk(12, 19)[3], [-3, 2, 8, -5]);
        assert_eq!(walk(1, 65_535), [[-65_535, 1, 65_536, -1]]);
    }

    #[test]
    fn a_pattern_of_another_walk_has_none() {
        let diatonic = create([5, 2, 2, 1]).unwrap().unwrap();
        assert_eq!(moves(diatonic, 12, 7), Some([-1, 2, 3, -5]));
        assert_eq!(moves(diatonic, 12, 5), None);
    }
}
