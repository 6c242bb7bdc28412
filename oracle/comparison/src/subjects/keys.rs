//! Keys of a layout: spellings, names, and what spellings sound.

use judge::keys::asked_at;
use judge::layouts;
use reading::Outcome;
use reading::Whole;
use reading::fitted;
use reading::names;
use reading::names::Spelling;

use crate::classes;
use crate::classes::Class;
use crate::question::Call;
use crate::question::Question;
use crate::raw;
use crate::subjects::layouts::GivenLayout;
use crate::subjects::pergens;
use crate::tally::Answers;
use crate::tally::Original;
use crate::tally::Tally;
use crate::tally::outcome;

impl GivenLayout {
    /// Every question about one key.
    pub fn compare_key(&self, tally: &mut Tally, key: i32) {
        self.compare_accidentals(tally, key);
        self.compare_name(tally, key);
        self.compare_printed_spellings(tally, key);
    }

    fn compare_accidentals(&self, tally: &mut Tally, key: i32) {
        let reading = self.read(|layout| pergens::spellings(layout.spellings(key)));
        let original = self.original.then(|layout| {
            let answer = layouts::accidentals(layout, self.asked_at(key));
            Original::of(answer.map(pergens::original_spellings))
        });
        let arguments = self.arguments_with(key);
        let question = Question {
            call: Call::LayoutAccidentals,
            arguments: &arguments,
        };
        let packaged = vetchnoon::layout_accidentals(self.given, key);
        let packaged = packaged.map(pergens::packaged_spellings);
        tally.compare_packaged(question, &reading, packaged);
        let call = |out: &mut [u16]| raw::layout_accidentals(self.given, key, out);
        tally.compare_filling(question, reading, original, self.key_class(key), call);
    }

    fn compare_name(&self, tally: &mut Tally, key: i32) {
        let reading = self.read(|layout| names::name(layout, key).into_bytes());
        let original = self
            .original
            .then(|layout| Original::of(layouts::note_name(layout, self.asked_at(key))));
        let arguments = self.arguments_with(key);

        let length = Answers {
            library: outcome(vetchnoon::note_name_len(self.given, key)),
            reading: reading.as_ref().map(Vec::len).map_err(|number| *number),
            original: original.then(|name| Original::Answered(name.len())),
        };
        let question = Question {
            call: Call::NoteNameLen,
            arguments: &arguments,
        };
        let class = self.key_class(key);
        tally.compare(question, &length, class);

        let question = Question {
            call: Call::NoteName,
            arguments: &arguments,
        };
        let original = original.then(|name| Original::Answered(name.as_bytes().to_vec()));
        let call = |out: &mut [u8]| vetchnoon::note_name(self.given, key, out);
        tally.compare_filling(question, reading, original, class, call);
    }

    /// "Each spelling in the key's name sounds that key." The expected key is the
    /// key itself here, and not the formula's.
    fn compare_printed_spellings(&self, tally: &mut Tally, key: i32) {
        let Ok(layout) = &self.reading else {
            return;
        };
        let octave = layout.pergen.period;
        for spelling in names::printed(layout, key) {
            let answers = Answers {
                library: self.sounded(spelling),
                reading: Ok(fitted(Whole::from(key).rem_euclid(octave))),
                original: Original::Silent,
            };
            let arguments = self.arguments_of(spelling);
            tally.compare(sounding(&arguments), &answers, None);
        }
    }

    /// Any spelling, or what is none, against the formula.
    pub fn compare_sounded(&self, tally: &mut Tally, spelling: Spelling) {
        let answers = Answers {
            library: self.sounded(spelling),
            reading: match &self.reading {
                Ok(layout) => names::sounded(layout, spelling).map(fitted),
                Err(number) => Err(*number),
            },
            original: Original::Silent,
        };
        let arguments = self.arguments_of(spelling);
        tally.compare(sounding(&arguments), &answers, None);
    }

    fn sounded(&self, spelling: Spelling) -> Outcome<u16> {
        outcome(vetchnoon::sounded_key(self.given, packaged(spelling)))
    }

    /// The key that the original is asked for.
    fn asked_at(&self, key: i32) -> u16 {
        asked_at(key, self.given.octave)
    }

    pub fn arguments_with(&self, key: i32) -> [i64; 5] {
        let [code, octave, tritave, start] = self.arguments;
        [code, octave, tritave, start, key.into()]
    }

    fn arguments_of(&self, spelling: Spelling) -> [i64; 7] {
        let [code, octave, tritave, start] = self.arguments;
        [
            code,
            octave,
            tritave,
            start,
            fitted(spelling.letter),
            fitted(spelling.signs),
            fitted(spelling.stars),
        ]
    }

    fn key_class(&self, key: i32) -> Option<Class> {
        self.class(|layout| classes::of_layout_key(layout, self.asked_at(key)))
    }
}

/// A spelling, as the Rust package has it.
pub fn packaged(spelling: Spelling) -> vetchnoon::Spelling {
    vetchnoon::Spelling {
        letter: fitted(spelling.letter),
        signs: fitted(spelling.signs),
        stars: fitted(spelling.stars),
    }
}

fn sounding(arguments: &[i64; 7]) -> Question<'_> {
    Question {
        call: Call::SoundedKey,
        arguments,
    }
}
