//! "The six chains" and the scale names.

use super::LARGEST;
use super::Outcome;
use super::Whole;
use super::ask;

/// A row of document 01's table, with the names of its scales.
#[derive(Debug)]
pub struct Chain {
    pub name: &'static str,
    pub letters: &'static [&'static str],
    /// The place, from 0, of the letter of key 0, where a layout names no other.
    pub start: Whole,
    generator: Generator,
    /// The scale's name where the sharpness is above 0, and where it is below.
    scales: [&'static str; 2],
}

/// The table's column of generators.
#[derive(Debug)]
enum Generator {
    /// tritave − octave
    Fifth,
    /// (2 × octave − tritave) / 3
    ThirdOfFourth,
    /// (tritave − octave) / 4
    QuarterOfFifth,
    /// octave − tritave / 6
    OctaveLessSixthOfTritave,
}

static CHAINS: [Chain; 6] = [
    Chain {
        name: "Mavila[9]",
        letters: &["β", "F", "C", "G", "D", "A", "E", "B", "φ"],
        start: 4,
        generator: Generator::Fifth,
        scales: ["armotonic", "balzano"],
    },
    Chain {
        name: "Meantone[7]",
        letters: &["F", "C", "G", "D", "A", "E", "B"],
        start: 3,
        generator: Generator::Fifth,
        scales: ["diatonic", "antidiatonic"],
    },
    Chain {
        name: "Meantone[5]",
        letters: &["C", "G", "D", "A", "E"],
        start: 2,
        generator: Generator::Fifth,
        scales: ["antipentic", "pentic"],
    },
    Chain {
        name: "Porcupine[8]",
        letters: &["A", "B", "C", "D", "E", "F", "G", "H"],
        start: 3,
        generator: Generator::ThirdOfFourth,
        scales: ["pine", "antipine"],
    },
    Chain {
        name: "Tetracot[7]",
        letters: &["A", "B", "C", "D", "E", "F", "G"],
        start: 3,
        generator: Generator::QuarterOfFifth,
        scales: ["archeotonic", "onyx"],
    },
    Chain {
        name: "Hanson[7]",
        letters: &["C", "A", "F", "D", "B", "G", "E"],
        start: 3,
        generator: Generator::OctaveLessSixthOfTritave,
        scales: ["smitonic", "mosh"],
    },
];

/// Question 1: is the chain code 0 to 5?
pub fn chain(code: u16) -> Outcome<&'static Chain> {
    CHAINS.get(usize::from(code)).ok_or(1)
}

impl Chain {
    /// The number of letters.
    pub fn count(&self) -> Whole {
        self.letters.len() as Whole
    }

    /// Question 3: "whole and not negative, every subtraction included, and for
    /// code 3 is 2 × octave at most 65,535?"
    pub fn generator(&self, octave: Whole, tritave: Whole) -> Outcome<Whole> {
        match self.generator {
            Generator::Fifth => not_negative(tritave - octave),
            Generator::ThirdOfFourth => {
                ask(3, 2 * octave <= LARGEST)?;
                whole(not_negative(2 * octave - tritave)?, 3)
            }
            Generator::QuarterOfFifth => whole(not_negative(tritave - octave)?, 4),
            Generator::OctaveLessSixthOfTritave => not_negative(octave - whole(tritave, 6)?),
        }
    }

    pub fn scale_name(&self, sharpness: Whole) -> &'static str {
        match sharpness {
            0 => "equalized",
            1.. => self.scales[0],
            _ => self.scales[1],
        }
    }
}

fn not_negative(number: Whole) -> Outcome<Whole> {
    ask(3, number >= 0)?;
    Ok(number)
}

fn whole(numer: Whole, denom: Whole) -> Outcome<Whole> {
    ask(3, numer % denom == 0)?;
    Ok(numer / denom)
}
