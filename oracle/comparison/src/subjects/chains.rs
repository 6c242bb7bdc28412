//! The six chains: letters, names and starts.

use judge::layouts;
use reading::Outcome;
use reading::chains::chain;
use reading::fitted;

use crate::question::Call;
use crate::question::Question;
use crate::raw;
use crate::subjects::layouts::own_start;
use crate::tally::Answers;
use crate::tally::Original;
use crate::tally::Tally;
use crate::tally::outcome;

/// Every question about a chain code.
pub fn compare(tally: &mut Tally, code: u16) {
    compare_letters(tally, code);
    compare_name(tally, code);
    compare_start(tally, code);
}

/// The original keeps its letters and starts to itself; its key names show them.
fn compare_letters(tally: &mut Tally, code: u16) {
    let reading: Outcome<Vec<u16>> = chain(code).map(|chain| {
        let letters = chain.letters.iter().flat_map(|letter| letter.chars());
        letters
            .map(|letter| fitted(u32::from(letter).into()))
            .collect()
    });
    let question = Question {
        call: Call::ChainLetters,
        arguments: &[code.into()],
    };
    let packaged = vetchnoon::chain_letters(code);
    let packaged = packaged.map(|letters| letters.iter().map(|letter| *letter as u16).collect());
    tally.compare_packaged(question, &reading, packaged);
    let call = |out: &mut [u16]| raw::chain_letters(code, out);
    tally.compare_filling(question, reading, Original::Silent, None, call);
}

fn compare_name(tally: &mut Tally, code: u16) {
    let reading = chain(code).map(|chain| chain.name.as_bytes().to_vec());
    let original = match layouts::chain(code) {
        Some(chain) => Original::Answered(chain.to_string().into_bytes()),
        None => Original::Silent,
    };
    let question = Question {
        call: Call::ChainName,
        arguments: &[code.into()],
    };
    let packaged = vetchnoon::chain_name(code).map(|name| name.as_bytes().to_vec());
    tally.compare_packaged(question, &reading, packaged);
    let call = |out: &mut [u8]| raw::chain_name(code, out);
    tally.compare_filling(question, reading, original, None, call);
}

/// The start itself, and the layout that the Rust package makes without one.
fn compare_start(tally: &mut Tally, code: u16) {
    let answers = Answers {
        library: outcome(vetchnoon::start(code)),
        reading: own_start(code),
        original: Original::Silent,
    };
    let question = Question {
        call: Call::Start,
        arguments: &[code.into()],
    };
    let made = own_start(code).map(|start| vetchnoon::Layout {
        chain: code,
        octave: 12,
        tritave: 19,
        start,
    });
    tally.compare_packaged(question, &made, vetchnoon::Layout::new(code, 12, 19));
    tally.compare(question, &answers, None);
}
