//! W-214: the board's moves in octaves and generators.

use super::Outcome;
use super::Whole;
use super::ask;
use super::fitted;
use super::layouts::Layout;
use super::patterns::Pattern;

/// "As a two by two table of whole numbers, octaves first": octaves and generators of the
/// primary move, and of the secondary one.
#[derive(Clone, Copy, Debug, PartialEq, Eq)]
pub struct Moves {
    pub primary: [Whole; 2],
    pub secondary: [Whole; 2],
}

impl Moves {
    /// "The genesis has −q, 1 and 1 + q, −1, where q is the generator div the octave."
    fn at_genesis(octave: Whole, generator: Whole) -> Self {
        let q = generator.div_euclid(octave);
        Self {
            primary: [-q, 1],
            secondary: [1 + q, -1],
        }
    }

    /// Those of the pattern's child: "a child takes the shorter step's row from the longer's".
    fn of_child(self, pattern: Pattern) -> Self {
        if pattern.primary_step < pattern.secondary_step {
            return Self {
                secondary: less(self.secondary, self.primary),
                ..self
            };
        }
        Self {
            primary: less(self.primary, self.secondary),
            ..self
        }
    }

    pub fn numbers(self) -> [i32; 4] {
        let [octaves, generators] = self.primary;
        let [more_octaves, more_generators] = self.secondary;
        [octaves, generators, more_octaves, more_generators].map(fitted)
    }
}

fn less([octaves, generators]: [Whole; 2], row: [Whole; 2]) -> [Whole; 2] {
    [octaves - row[0], generators - row[1]]
}

/// Each pattern of the walk from the genesis, with its moves.
fn walk(octave: Whole, generator: Whole) -> impl Iterator<Item = (Pattern, Moves)> {
    let genesis = Pattern::genesis_of(octave, generator);
    let first = (genesis, Moves::at_genesis(octave, generator));
    std::iter::successors(Some(first), |(pattern, moves)| {
        Some((pattern.child()?, moves.of_child(*pattern)))
    })
}

/// The moves "for each pattern of the walk". Question 2: is the period at least 1?
pub fn of_walk(period: u16, generator: u16) -> Outcome<Vec<i32>> {
    ask(2, period >= 1)?;
    let walk = walk(period.into(), generator.into());
    Ok(walk.flat_map(|(_, moves)| moves.numbers()).collect())
}

/// The moves of a layout's own pattern.
pub fn of_layout(layout: &Layout) -> Moves {
    let pergen = layout.pergen;
    let mut walk = walk(pergen.period, pergen.generator);
    let own = walk.find(|(pattern, _)| pattern.steps() == layout.chain.count());
    own.expect("question 4 has the answer yes").1
}

#[cfg(test)]
mod tests {
    use super::*;

    #[test]
    fn the_moves_of_twelve_steps() {
        let twelve = Layout::new(1, 12, 19).unwrap();
        assert_eq!(of_layout(&twelve).numbers(), [-1, 2, 3, -5]);
    }

    #[test]
    fn a_generator_above_the_octave() {
        // Two octaves more than 3.
        let five = Layout::new(2, 5, 18).unwrap();
        assert_eq!(of_layout(&five).numbers(), [-5, 2, 8, -3]);
        assert_eq!(of_walk(1, 65_535), Ok(vec![-65_535, 1, 65_536, -1]));
        assert_eq!(of_walk(6, 12), Ok(vec![-2, 1, 3, -1]));
        assert_eq!(of_walk(0, 12), Err(2));
    }

    /// What the request says of every pattern.
    #[test]
    fn rows_give_steps_and_the_determinant_stays() {
        for octave in 1..60 {
            for generator in 0..4 * octave {
                for (pattern, moves) in walk(octave, generator) {
                    let step = |[octaves, generators]: [Whole; 2]| {
                        octaves * octave + generators * generator
                    };
                    assert_eq!(step(moves.primary), pattern.primary_step);
                    assert_eq!(step(moves.secondary), pattern.secondary_step);
                    let [[a, b], [c, d]] = [moves.primary, moves.secondary];
                    assert_eq!(a * d - b * c, -1);
                }
            }
        }
    }
}
