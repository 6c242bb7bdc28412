//! Stored strips of one-byte codes, and strips on their way back to such codes (document
//! 02, W-207). The reading of its sentences answers; the original has no codes.

use reading::codes;

use crate::books::around;
use crate::books::in_room;
use crate::keys;
use crate::list::layout;
use crate::questions::Question;

/// So many codes of one byte stand in a line of at most 512 bytes.
const CODES_OF_A_LINE: usize = 100;

/// Codes that no old code converts to: both ends, and such that have an old code's low
/// byte, or are what one would become by another rule.
const NO_OLD_CODES: [u16; 22] = [
    202, 203, 204, 205, 254, 255, 256, 257, 258, 357, 400, 401, 456, 457, 509, 510, 511, 512,
    32_768, 65_280, 65_533, 65_534,
];

pub fn all() -> Vec<Question> {
    let mut questions = every_code();
    questions.extend(refused());
    questions.extend(of_layouts());
    questions.extend(rooms());
    questions
}

/// Every old code that can be converted, and every new one.
fn every_code() -> Vec<Question> {
    let old: Vec<u8> = (0..=201).chain([255]).collect();
    let new: Vec<u16> = (0..=201).chain([65_535]).collect();
    let there = old.chunks(CODES_OF_A_LINE).map(widen);
    there
        .chain(new.chunks(CODES_OF_A_LINE).map(narrow))
        .collect()
}

/// Every code that is refused on its way there, some on their way back; first, last and
/// between others; in no room too.
fn refused() -> Vec<Question> {
    let mut questions: Vec<Question> = (202..=254).map(|code| widen(&[1, code])).collect();
    questions.extend(NO_OLD_CODES.map(|code| narrow(&[1, code])));
    for strip in [[202, 0, 255], [0, 254, 255], [0, 255, 230]] {
        questions.extend(around(3, &widen(&strip)));
    }
    for strip in [[202, 0, 65_535], [0, 65_534, 65_535], [0, 65_535, 255]] {
        questions.extend(around(3, &narrow(&strip)));
    }
    questions
}

/// Strips as they were stored, there and back.
fn of_layouts() -> Vec<Question> {
    let stored = keys::ACCEPTED.map(layout).into_iter().map(|layout| {
        let read = layout.read().expect("an accepted layout");
        read.former_strip().expect("few layers")
    });
    stored
        .flat_map(|strip| {
            let wide = codes::widened(&strip).expect("a strip's codes");
            [widen(&strip), narrow(&wide)]
        })
        .collect()
}

/// Slices around a strip's length; nothing in nothing.
fn rooms() -> Vec<Question> {
    let old = [0, 102, 2, 255, 1, 201, 101];
    let new = [0, 3, 2, 65_535, 1, 201, 200];
    let nothing = [widen(&[]), narrow(&[])];
    let in_none = nothing.each_ref().map(|question| in_room(0, question));
    [around(7, &widen(&old)), around(7, &narrow(&new))]
        .concat()
        .into_iter()
        .chain(nothing)
        .chain(in_none)
        .collect()
}

fn widen(strip: &[u8]) -> Question {
    Question::Widen(strip.to_vec())
}

fn narrow(strip: &[u16]) -> Question {
    Question::Narrow(strip.to_vec())
}

#[cfg(test)]
mod tests {
    use super::*;
    use crate::answers::answer;

    #[test]
    fn refusals() {
        for question in refused() {
            assert_eq!(answer(&question).as_deref(), Some("refused 17\n"));
        }
    }

    #[test]
    fn every_code_is_converted() {
        let lines: Vec<String> = every_code().iter().filter_map(answer).collect();
        let codes = lines.iter().flat_map(|line| line.split_whitespace());
        assert_eq!(codes.count(), 2 * 203);
        assert!(lines.iter().all(|line| !line.starts_with("refused")));
    }
}
