//! W-212: how far a retuning moves a note.

use super::Outcome;
use super::Whole;
use super::ask;
use super::fitted;
use super::layouts::Layout;
use super::names;
use super::names::Spelling;
use super::reach::distance;

/// "Up to eight sharps or flats", "from eight flats to eight sharps".
pub const MOST_SIGNS: Whole = 8;

/// "Two accepted layouts of one chain, octave and start".
#[derive(Debug)]
pub struct Retuning {
    pub first: Layout,
    pub second: Layout,
}

impl Retuning {
    /// "These three handed in once"; "the first layout's questions go before the second's".
    pub fn new(code: u16, octave: u16, start: u16, from: u16, to: u16) -> Outcome<Self> {
        Ok(Self {
            first: Layout::beginning(code, octave, from, start)?,
            second: Layout::beginning(code, octave, to, start)?,
        })
    }

    /// "How many steps round the octave, the shorter way, the sounded key moves", of "a spelling
    /// whose stars are below both cycle counts": 16, then 21.
    pub fn moved(&self, spelling: Spelling) -> Outcome<Whole> {
        let Self { first, second } = self;
        ask(16, spelling.letter < first.chain.count())?;
        let cycles = first.pergen.cycles.min(second.pergen.cycles);
        ask(21, spelling.stars < cycles)?;
        let before = names::sounded(first, spelling)?;
        let after = names::sounded(second, spelling)?;
        Ok(distance(first.pergen.period, before, after))
    }

    /// "A table over all letters .., letter by letter along the chain".
    pub fn table(&self) -> Vec<u16> {
        let letters = 0..self.first.chain.count();
        letters.flat_map(|letter| self.row(letter)).collect()
    }

    fn row(&self, letter: Whole) -> impl Iterator<Item = u16> {
        (-MOST_SIGNS..=MOST_SIGNS).map(move |signs| {
            let spelling = Spelling {
                letter,
                signs,
                stars: 0,
            };
            fitted(self.moved(spelling).expect("a letter of the chain"))
        })
    }

    /// "The largest move in it".
    pub fn largest(&self) -> u16 {
        self.table().into_iter().max().expect("a chain has letters")
    }
}

#[cfg(test)]
mod tests {
    use super::*;

    /// "Meantone[5] from 49 to 50 tritave steps in 31": C G D A E, from D.
    fn lesson() -> Retuning {
        Retuning::new(2, 31, 2, 49, 50).unwrap()
    }

    fn spelt(letter: Whole, signs: Whole, stars: Whole) -> Spelling {
        Spelling {
            letter,
            signs,
            stars,
        }
    }

    #[test]
    fn a_lesson() {
        let moved = |letter, signs| lesson().moved(spelt(letter, signs, 0));
        assert_eq!(moved(2, 0), Ok(0));
        assert_eq!(moved(3, 0), Ok(1));
        // 20 places are 20 steps one way, and 11 the other.
        assert_eq!(moved(2, 4), Ok(11));
        assert_eq!(moved(5, 0), Err(16));
    }

    #[test]
    fn the_table_of_a_lesson() {
        let table = lesson().table();
        assert_eq!(table.len(), 5 * 17);
        // D, from eight flats to eight sharps.
        let row = [9, 4, 1, 6, 11, 15, 10, 5, 0, 5, 10, 15, 11, 6, 1, 4, 9];
        assert_eq!(table[2 * 17..3 * 17], row);
        assert_eq!(lesson().largest(), 15);
    }

    #[test]
    fn stars_are_below_both_counts() {
        let stars = |from, to| {
            let retuning = Retuning::new(1, 24, 3, from, to).unwrap();
            [0, 1, 2].map(|stars| retuning.moved(spelt(3, 1, stars)))
        };
        assert_eq!(stars(38, 34), [Ok(4), Ok(4), Err(21)]);
        assert_eq!(stars(38, 37), [Ok(7), Err(21), Err(21)]);
        assert_eq!(stars(37, 38), [Ok(7), Err(21), Err(21)]);
    }

    #[test]
    fn the_first_layout_is_asked_about_first() {
        let refusal = |octave, start, from, to| Retuning::new(2, octave, start, from, to).err();
        assert_eq!(refusal(4, 9, 6, 3), Some(4));
        assert_eq!(refusal(4, 9, 3, 6), Some(3));
        assert_eq!(refusal(31, 5, 49, 30), Some(18));
        assert_eq!(refusal(31, 4, 49, 30), Some(3));
    }
}
