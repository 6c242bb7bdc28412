//! Questions to the first part of pergen.rs: a free pergen and a free format.

use tune::pergen;
use tune::pergen::AccidentalsFormat;
use tune::pergen::PerGen;

use crate::asking::Answer;
use crate::asking::ask;

/// The numbers of a pergen that follow from its period and generator.
#[derive(Clone, Copy, Debug, PartialEq, Eq)]
pub struct Derived {
    pub num_cycles: u16,
    pub reduced_period: u16,
    pub inverse: u16,
}

/// A key's place in the chain of generators. The original's record of this name
/// cannot be compared or copied out of a panic, hence ours.
#[derive(Clone, Copy, Debug, PartialEq, Eq)]
pub struct Generation {
    pub cycle: Option<u16>,
    pub degree: u16,
}

/// A key's sharp and flat spelling, for the same reason.
#[derive(Clone, Copy, Debug, PartialEq, Eq)]
pub struct Accidentals {
    pub cycle: Option<u16>,
    pub sharp_index: u16,
    pub sharp_count: u16,
    pub flat_index: u16,
    pub flat_count: u16,
}

pub fn create(period: u16, generator: u16) -> Answer<PerGen> {
    ask(|| PerGen::new(period, generator))
}

pub fn derived(pergen: &PerGen) -> Answer<Derived> {
    ask(|| Derived {
        num_cycles: pergen.num_cycles(),
        reduced_period: pergen.reduced_period(),
        inverse: inverse(pergen),
    })
}

/// The inverse is a private field. Key number n, the number of cycles, is one
/// step along the chain within cycle 0, so its degree is the inverse times one.
fn inverse(pergen: &PerGen) -> u16 {
    pergen.get_generation(pergen.num_cycles()).degree
}

pub fn generation(pergen: &PerGen, key: u16) -> Answer<Generation> {
    ask(|| pergen.get_generation(key).into())
}

pub fn accidentals(pergen: &PerGen, format: &AccidentalsFormat, key: u16) -> Answer<Accidentals> {
    ask(|| pergen.get_accidentals(format, key).into())
}

impl From<pergen::Generation> for Generation {
    fn from(original: pergen::Generation) -> Self {
        Self {
            cycle: original.cycle,
            degree: original.degree,
        }
    }
}

impl From<pergen::Accidentals> for Accidentals {
    fn from(original: pergen::Accidentals) -> Self {
        Self {
            cycle: original.cycle,
            sharp_index: original.sharp_index,
            sharp_count: original.sharp_count,
            flat_index: original.flat_index,
            flat_count: original.flat_count,
        }
    }
}
