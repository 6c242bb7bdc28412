//! Typed names: the spelling that a text is, and the key that it names.
//!
//! The original reads no names. It writes them, and each leads back to the key for which it wrote
//! it; all other texts are read by the reading alone.

use judge::layouts;
use reading::Outcome;
use reading::Whole;
use reading::fitted;
use reading::names;
use reading::names::Spelling;
use reading::typed;

use crate::question::Call;
use crate::question::Question;
use crate::raw;
use crate::subjects::layouts::GivenLayout;
use crate::tally::Answers;
use crate::tally::Original;
use crate::tally::Tally;
use crate::tally::outcome;

/// A letter's index, signs and stars.
const SPELLING: usize = 3;

impl GivenLayout {
    /// A text, whatever bytes it has: as a spelling, and as a name.
    pub fn compare_typed(&self, tally: &mut Tally, text: &[u8]) {
        self.compare_spelling(tally, text);
        self.compare_found(tally, text, Original::Silent);
    }

    /// The name of a key, as the original writes it, leads back to the key. Where the original
    /// has no name for it, the reading's does.
    pub fn compare_name_back(&self, tally: &mut Tally, key: u16) {
        let Ok(layout) = &self.reading else {
            return;
        };
        let original = match &self.original {
            Original::Answered(original) => layouts::note_name(original, key).ok(),
            _ => None,
        };
        let (name, answer) = match original {
            Some(name) => (name, Original::Answered(key)),
            None => (names::name(layout, key.into()), Original::Silent),
        };
        self.compare_spelling(tally, name.as_bytes());
        self.compare_found(tally, name.as_bytes(), answer);
    }

    /// Both spellings of a key, each alone and as two in either order.
    pub fn compare_spellings_back(&self, tally: &mut Tally, key: u16) {
        let Ok(layout) = &self.reading else {
            return;
        };
        let spelt = layout.spellings(key.into());
        let stars = layout.pergen.cycle(key.into()).unwrap_or(0);
        let sharp = Spelling {
            letter: spelt.sharp_index,
            signs: spelt.sharp_count,
            stars,
        };
        let flat = Spelling {
            letter: spelt.flat_index,
            signs: -spelt.flat_count,
            stars,
        };
        for spelling in [sharp, flat] {
            self.compare_typed_as(tally, &written(layout, spelling), key);
        }
        for (first, second) in [(sharp, flat), (flat, sharp)] {
            self.compare_typed_as(tally, &both_written(layout, first, second), key);
        }
    }

    /// A text that names a key.
    fn compare_typed_as(&self, tally: &mut Tally, text: &str, key: u16) {
        self.compare_spelling(tally, text.as_bytes());
        let answers = Answers {
            library: outcome(vetchnoon::find_key(self.given, text.as_bytes())),
            reading: Ok(key),
            original: Original::Silent,
        };
        let arguments = self.arguments_and(text.as_bytes());
        tally.compare(finding(&arguments), &answers, None);
    }

    fn compare_spelling(&self, tally: &mut Tally, text: &[u8]) {
        let reading: Outcome<Vec<i64>> = match &self.reading {
            Ok(layout) => typed::spelling(layout, text).map(|spelling| {
                let Spelling {
                    letter,
                    signs,
                    stars,
                } = spelling;
                [letter, signs, stars].map(fitted).to_vec()
            }),
            Err(number) => Err(*number),
        };
        let arguments = self.arguments_and(text);
        let question = Question {
            call: Call::ReadSpelling,
            arguments: &arguments,
        };
        let packaged = vetchnoon::read_spelling(self.given, text).map(|spelling| {
            vec![
                spelling.letter.into(),
                spelling.signs,
                spelling.stars.into(),
            ]
        });
        tally.compare_packaged(question, &reading, packaged);
        let call = |out: &mut [i64]| raw::read_spelling(self.given, text, out);
        tally.compare_filling_in_room(question, SPELLING, reading, Original::Silent, None, call);
    }

    fn compare_found(&self, tally: &mut Tally, text: &[u8], original: Original<u16>) {
        let answers = Answers {
            library: outcome(vetchnoon::find_key(self.given, text)),
            reading: match &self.reading {
                Ok(layout) => typed::key(layout, text).map(fitted),
                Err(number) => Err(*number),
            },
            original,
        };
        let arguments = self.arguments_and(text);
        tally.compare(finding(&arguments), &answers, None);
    }

    /// The layout, then the bytes of a text.
    fn arguments_and(&self, text: &[u8]) -> Vec<i64> {
        let bytes = text.iter().map(|byte| i64::from(*byte));
        self.arguments.into_iter().chain(bytes).collect()
    }
}

fn finding(arguments: &[i64]) -> Question<'_> {
    Question {
        call: Call::FindKey,
        arguments,
    }
}

/// A spelling as it is typed.
pub fn written(layout: &reading::layouts::Layout, spelling: Spelling) -> String {
    names::letter_and_signs(layout, spelling) + &stars(spelling.stars)
}

/// Two spellings of one key as they are typed.
fn both_written(layout: &reading::layouts::Layout, first: Spelling, second: Spelling) -> String {
    let [one, other] = [first, second].map(|spelling| names::letter_and_signs(layout, spelling));
    match layout.pergen.cycles {
        1 => format!("{one}/{other}"),
        _ => format!("({one}/{other}){}", stars(first.stars)),
    }
}

fn stars(count: Whole) -> String {
    "*".repeat(count as usize)
}
