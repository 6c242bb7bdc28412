//! Distances between a layout's keys: the nearest key of a letter, and the keys in reach.
//!
//! The original has neither call. Its names tell which keys are a letter's, and these are
//! searched as the reading's are; lists of keys in reach are the reading's alone.

use judge::layouts;
use reading::Outcome;
use reading::Whole;
use reading::fitted;
use reading::reach;

use crate::classes;
use crate::question::Call;
use crate::question::Question;
use crate::subjects::layouts::GivenLayout;
use crate::tally::Answers;
use crate::tally::Original;
use crate::tally::Tally;
use crate::tally::outcome;

/// Keys from which a letter that is none is asked for.
const FEW: &[i32] = &[i32::MIN, -1, 0, 1, i32::MAX];

impl GivenLayout {
    /// The nearest key of every letter from each of the keys; of one beyond and of the largest
    /// number from a few.
    pub fn compare_nearest(&self, tally: &mut Tally, keys: &[i32]) {
        let names = self.read(reach::octave_of_names);
        let original = self
            .original
            .then(|layout| Original::of(layouts::note_names(layout)));
        let letters: u16 = self
            .read(|layout| fitted(layout.chain.count()))
            .unwrap_or(0);
        for place in 0..letters {
            self.compare_letter(tally, place, keys, &names, &original);
        }
        for place in [letters, u16::MAX] {
            self.compare_letter(tally, place, FEW, &names, &original);
        }
    }

    fn compare_letter(
        &self,
        tally: &mut Tally,
        place: u16,
        keys: &[i32],
        names: &Outcome<Vec<String>>,
        original: &Original<Vec<String>>,
    ) {
        let letter = match &self.reading {
            Ok(layout) => reach::letter(layout, place),
            Err(number) => Err(*number),
        };
        let keys_of = |names: &Vec<String>| letter.map(|letter| reach::keys_of(letter, names));
        let reading = names.as_ref().map_err(|number| *number).and_then(keys_of);
        let original = original.then(|names| match keys_of(names) {
            Ok(keys) => Original::Answered(keys),
            // The original has no places of letters.
            Err(_) => Original::Silent,
        });
        for key in keys {
            self.compare_nearest_of(tally, *key, place, &reading, &original);
        }
    }

    /// One question, given the keys of the letter.
    fn compare_nearest_of(
        &self,
        tally: &mut Tally,
        key: i32,
        place: u16,
        reading: &Outcome<Vec<u16>>,
        original: &Original<Vec<u16>>,
    ) {
        let octave = Whole::from(self.given.octave);
        let nearest = |keys: &Vec<u16>| reach::nearest(octave, keys, key);
        let answers = Answers {
            library: outcome(vetchnoon::nearest_natural(self.given, key, place)),
            reading: match reading {
                Ok(keys) => Ok(nearest(keys).expect("each letter names a key")),
                Err(number) => Err(*number),
            },
            original: original.then(|keys| Original::of_option(Ok(nearest(keys)))),
        };
        let arguments = self.arguments_with_key_and(key, place);
        let question = Question {
            call: Call::NearestNatural,
            arguments: &arguments,
        };
        tally.compare(question, &answers, self.class(classes::of_layout_book));
    }

    /// The keys within a distance of a key.
    pub fn compare_reach(&self, tally: &mut Tally, key: i32, distance: u16) {
        let reading = self.read(|layout| reach::keys_in_reach(layout, key, distance));
        let arguments = self.arguments_with_key_and(key, distance);
        let question = Question {
            call: Call::KeysInReach,
            arguments: &arguments,
        };
        let call = |out: &mut [u16]| vetchnoon::keys_in_reach(self.given, key, distance, out);
        tally.compare_filling(question, reading, Original::Silent, None, call);
    }

    fn arguments_with_key_and(&self, key: i32, last: u16) -> [i64; 6] {
        let [code, octave, tritave, start] = self.arguments;
        [code, octave, tritave, start, key.into(), last.into()]
    }
}
