//! How far a retuning moves a note.
//!
//! The original has no such calls. It tells which spellings a key has, in both tunings, and so
//! how far each of these is moved; all others are the reading's alone.

use std::collections::BTreeMap;

use judge::layouts;
use reading::Outcome;
use reading::Whole;
use reading::fitted;
use reading::names::Spelling;
use reading::reach::distance;
use reading::retunings;

use crate::question::Call;
use crate::question::Question;
use crate::subjects::keys;
use crate::subjects::layouts::GivenLayout;
use crate::tally::Answers;
use crate::tally::Original;
use crate::tally::Tally;
use crate::tally::outcome;

/// Five numbers, with what the reading makes of them.
pub struct GivenRetuning {
    pub given: vetchnoon::Retuning,
    pub reading: Outcome<retunings::Retuning>,
    arguments: [i64; 5],
}

impl GivenRetuning {
    pub fn new(code: u16, octave: u16, start: u16, from: u16, to: u16) -> Self {
        Self {
            given: vetchnoon::Retuning {
                chain: code,
                octave,
                start,
                from_tritave: from,
                to_tritave: to,
            },
            reading: retunings::Retuning::new(code, octave, start, from, to),
            arguments: [code, octave, start, from, to].map(i64::from),
        }
    }

    fn read<T>(&self, answer: impl FnOnce(&retunings::Retuning) -> T) -> Outcome<T> {
        match &self.reading {
            Ok(retuning) => Ok(answer(retuning)),
            Err(number) => Err(*number),
        }
    }

    /// The table and the largest number in it.
    pub fn compare_table(&self, tally: &mut Tally) {
        let question = self.asking(Call::MoveTable);
        let call = |out: &mut [u16]| vetchnoon::move_table(self.given, out);
        let table = self.read(retunings::Retuning::table);
        tally.compare_filling(question, table, Original::Silent, None, call);

        let answers = Answers {
            library: outcome(vetchnoon::largest_move(self.given)),
            reading: self.read(retunings::Retuning::largest),
            original: Original::Silent,
        };
        tally.compare(self.asking(Call::LargestMove), &answers, None);
    }

    /// Any spelling, or what is none.
    pub fn compare_moved(&self, tally: &mut Tally, spelt: [Whole; 3]) {
        self.compare_move(tally, spelling(spelt), Original::Silent);
    }

    /// Every spelling that the original gives to a key of the octave in both tunings: it moves
    /// from the one key to the other.
    pub fn compare_given_spellings(&self, tally: &mut Tally) {
        let vetchnoon::Retuning {
            chain,
            octave,
            start,
            from_tritave,
            to_tritave,
        } = self.given;
        let before = keys_by_spelling(&GivenLayout::beginning(chain, octave, from_tritave, start));
        let after = keys_by_spelling(&GivenLayout::beginning(chain, octave, to_tritave, start));
        for (spelt, key) in before {
            let Some(other) = after.get(&spelt) else {
                continue;
            };
            let moved = distance(octave.into(), key.into(), (*other).into());
            self.compare_move(tally, spelling(spelt), Original::Answered(fitted(moved)));
        }
    }

    fn compare_move(&self, tally: &mut Tally, spelling: Spelling, original: Original<u16>) {
        let Spelling {
            letter,
            signs,
            stars,
        } = spelling;
        let answers = Answers {
            library: outcome(vetchnoon::moved(self.given, keys::packaged(spelling))),
            reading: match &self.reading {
                Ok(retuning) => retuning.moved(spelling).map(fitted),
                Err(number) => Err(*number),
            },
            original,
        };
        let [code, octave, start, from, to] = self.arguments;
        let [letter, signs, stars] = [letter, signs, stars].map(fitted::<i64>);
        let arguments = [code, octave, start, from, to, letter, signs, stars];
        let question = Question {
            call: Call::Moved,
            arguments: &arguments,
        };
        tally.compare(question, &answers, None);
    }

    fn asking(&self, call: Call) -> Question<'_> {
        Question {
            call,
            arguments: &self.arguments,
        }
    }
}

/// A letter's index, its signs, sharps above 0, and its stars.
fn spelling([letter, signs, stars]: [Whole; 3]) -> Spelling {
    Spelling {
        letter,
        signs,
        stars,
    }
}

/// The key of each spelling that the original gives to a key of the octave.
fn keys_by_spelling(layout: &GivenLayout) -> BTreeMap<[Whole; 3], u16> {
    let mut keys = BTreeMap::new();
    let Original::Answered(original) = &layout.original else {
        return keys;
    };
    for key in 0..layout.given.octave {
        let Ok(given) = layouts::accidentals(original, key) else {
            continue;
        };
        let stars = given.cycle.unwrap_or(0).into();
        let sharps = Whole::from(given.sharp_count);
        let flats = Whole::from(given.flat_count);
        keys.insert([given.sharp_index.into(), sharps, stars], key);
        keys.insert([given.flat_index.into(), -flats, stars], key);
    }
    keys
}
