//! Scala keyboard mappings: the file of a layout, and reading texts that may be any bytes.
//!
//! The original has neither. Its layers tell which keys are natural, and so make the file of
//! its layouts; texts are read by the reading alone.

use judge::layouts;
use reading::Outcome;
use reading::mappings;

use crate::classes;
use crate::question::Call;
use crate::question::Question;
use crate::subjects::layouts::GivenLayout;
use crate::tally::Answers;
use crate::tally::Original;
use crate::tally::Tally;
use crate::tally::outcome;

/// How much room is lent where a text is refused, so that a call might have begun to write.
const SOME_ROOM: usize = 3;

impl GivenLayout {
    /// The file, its length, and the file read again.
    pub fn compare_mapping(&self, tally: &mut Tally) {
        let file = self.read(mappings::file);
        self.compare_file_length(tally, &file);
        self.compare_file(tally, file.clone());
        self.compare_text(tally, &file.unwrap_or_default());
    }

    fn compare_file_length(&self, tally: &mut Tally, file: &Outcome<Vec<u8>>) {
        let answers = Answers {
            library: outcome(vetchnoon::kbm_len(self.given)),
            reading: file.as_ref().map(Vec::len).map_err(|number| *number),
            original: Original::Silent,
        };
        tally.compare(self.asking(Call::KbmLen), &answers, None);
    }

    fn compare_file(&self, tally: &mut Tally, file: Outcome<Vec<u8>>) {
        let original = self
            .original
            .then(|layout| Original::of(layouts::mapping(layout)));
        let class = self.class(classes::of_layout_layers);
        let call = |out: &mut [u8]| vetchnoon::kbm(self.given, out);
        tally.compare_filling(self.asking(Call::Kbm), file, original, class, call);
    }

    /// The keys that a text maps.
    pub fn compare_text(&self, tally: &mut Tally, text: &[u8]) {
        let reading = match self.reading {
            Ok(_) => mappings::keys(self.given.octave, text),
            Err(number) => Err(number),
        };
        let bytes = text.iter().map(|byte| i64::from(*byte));
        let arguments: Vec<i64> = self.arguments.into_iter().chain(bytes).collect();
        let question = Question {
            call: Call::KbmRead,
            arguments: &arguments,
        };
        let room = reading.as_ref().map_or(SOME_ROOM, Vec::len);
        let call = |out: &mut [u16]| vetchnoon::kbm_read(self.given, text, out);
        tally.compare_filling_in_room(question, room, reading, Original::Silent, None, call);
    }
}
