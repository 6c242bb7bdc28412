//! Why two typed spellings are one key, or two: the numbers, and the sentences.
//!
//! The original explains nothing; the reading answers.

use reading::Outcome;
use reading::Whole;
use reading::fitted;
use reading::typed;
use reading::typed::Explanation;
use reading::typed::Verdict;

use crate::question::Call;
use crate::question::Question;
use crate::raw;
use crate::subjects::layouts::GivenLayout;
use crate::tally::Answers;
use crate::tally::Original;
use crate::tally::Tally;
use crate::tally::outcome;

/// Places, stars, keys, how far apart, the reduced period, the verdict.
const NUMBERS: usize = 9;

/// How much room is lent where a text is refused, so that a call might have begun to write.
const SOME_ROOM: usize = 3;

impl GivenLayout {
    /// Everything that is said of two texts, whatever bytes they have.
    pub fn compare_explained(&self, tally: &mut Tally, first: &[u8], second: &[u8]) {
        let arguments = self.arguments_and_both(first, second);
        let asking = |call| Question {
            call,
            arguments: &arguments,
        };
        let explained = self.read_of_both(typed::explanation, first, second);
        let packaged = vetchnoon::explain(self.given, first, second);
        tally.compare_packaged(
            asking(Call::Explain),
            &explained.as_ref().map(in_package).map_err(|number| *number),
            packaged,
        );
        let numbers = explained.map(|explained| explained.numbers().map(fitted).to_vec());
        let call = |out: &mut [i64]| raw::explain(self.given, first, second, out);
        let question = asking(Call::Explain);
        tally.compare_filling_in_room(question, NUMBERS, numbers, Original::Silent, None, call);

        let text = self
            .read_of_both(typed::text, first, second)
            .map(String::into_bytes);
        let answers = Answers {
            library: outcome(vetchnoon::explain_text_len(self.given, first, second)),
            reading: text.as_ref().map(Vec::len).map_err(|number| *number),
            original: Original::Silent,
        };
        tally.compare(asking(Call::ExplainTextLen), &answers, None);
        let room = text.as_ref().map_or(SOME_ROOM, Vec::len);
        let call = |out: &mut [u8]| vetchnoon::explain_text(self.given, first, second, out);
        let question = asking(Call::ExplainText);
        tally.compare_filling_in_room(question, room, text, Original::Silent, None, call);
    }

    fn read_of_both<T>(
        &self,
        answer: impl FnOnce(&reading::layouts::Layout, &[u8], &[u8]) -> Outcome<T>,
        first: &[u8],
        second: &[u8],
    ) -> Outcome<T> {
        match &self.reading {
            Ok(layout) => answer(layout, first, second),
            Err(number) => Err(*number),
        }
    }

    /// The layout, the length of the first text, then the bytes of both.
    fn arguments_and_both(&self, first: &[u8], second: &[u8]) -> Vec<i64> {
        let bytes = first.iter().chain(second).map(|byte| i64::from(*byte));
        let lengths = [first.len() as i64];
        self.arguments
            .into_iter()
            .chain(lengths)
            .chain(bytes)
            .collect()
    }
}

/// An explanation, as the Rust package has it.
fn in_package(explained: &Explanation) -> vetchnoon::Explanation {
    let standing = |which: usize| vetchnoon::Standing {
        place: fitted(explained.places[which]),
        stars: fitted(explained.stars[which]),
        key: fitted(explained.keys[which]),
    };
    vetchnoon::Explanation {
        first: standing(0),
        second: standing(1),
        apart: fitted::<u64>(explained.apart as Whole),
        reduced_period: fitted(explained.reduced),
        verdict: match explained.verdict {
            Verdict::OneKey => vetchnoon::Verdict::OneKey,
            Verdict::TwoOnOneChain => vetchnoon::Verdict::TwoOnOneChain,
            Verdict::TwoOnDifferentChains => vetchnoon::Verdict::TwoOnDifferentChains,
        },
    }
}
