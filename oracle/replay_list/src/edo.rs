//! Layouts from the number of steps alone (document 02, W-202). The original lists them by its
//! logarithms; the reading says which numbers of steps, and which chains, are refused.

use judge::edo;
use judge::edo::Listed;
use judge::layouts;
use judge::words;
use judge::words::words;
use reading::edo::LARGEST_DIVISION;

use crate::answers::Text;
use crate::answers::given;
use crate::answers::list_text;
use crate::books::around;
use crate::books::in_room;
use crate::questions::Question;

/// Numbers of steps that are none; in eight bits some of them would be one.
const REFUSED: [u16; 8] = [0, 401, 402, 511, 512, 4_096, 32_768, 65_535];

/// Of these every chain is asked about, and codes that are none; 153, 102 and 204 are where
/// logarithms come nearest to deciding otherwise.
const EACH_CHAIN: [u16; 8] = [102, 153, 171, 204, 257, 311, 399, 400];

pub fn all() -> Vec<Question> {
    let mut questions = Vec::new();
    for n in 1..=LARGEST_DIVISION {
        questions.extend([Question::Tritaves(n), Question::FindByEdo(n)]);
    }
    for n in (1..=40).chain(EACH_CHAIN) {
        questions.extend((0..=5).map(|code| Question::FindChainByEdo(n, code)));
    }
    for n in [4, 12, 13, 16, 400] {
        let numbers = 3 * reading::edo::layouts(n).expect("n is 1 to 400").len();
        questions.extend(around(numbers, &Question::FindByEdo(n)));
    }
    questions.push(Question::EdoReport);
    questions.extend(around(reading::edo::report().len(), &Question::EdoReport));
    questions.extend(refused());
    questions.extend(unreadable());
    questions
}

/// 15 before 1 and before 10; 1 before 3 and 4.
fn refused() -> Vec<Question> {
    let mut questions = Vec::new();
    for n in REFUSED {
        let listing = Question::FindByEdo(n);
        questions.extend([Question::Tritaves(n), in_room(0, &listing), listing]);
        questions.extend([1, 6].map(|code| Question::FindChainByEdo(n, code)));
    }
    for n in [1, 12, 13] {
        questions.extend([6, 256, 65_535].map(|code| Question::FindChainByEdo(n, code)));
    }
    questions
}

fn unreadable() -> Vec<Question> {
    [
        "tritaves",
        "tritaves ",
        "tritaves 65536",
        "tritaves -1",
        "tritaves 12 ",
        "tritaves 12 0",
        "tritavesx 12",
        "tritave 12",
        "find_by_edo",
        "find_by_edo 65536",
        "find_by_edo 12 1",
        "find_by_edo x",
        "65536 find_by_edo 12",
        "find_chain_by_edo 12",
        "find_chain_by_edo 12 ",
        "find_chain_by_edo 12 1 ",
        "find_chain_by_edo 12 1 3",
        "find_chain_by_edo 12 65536",
        "edo_report ",
        "edo_report 12",
        "edo_reports",
        "edo",
        "65536 edo_report",
    ]
    .map(Question::Unreadable)
    .into()
}

/// The tritave, and the second choice where there is one.
pub fn tritaves(n: u16) -> Text {
    reading::edo::tritaves(n)?;
    given(edo::tritaves(n)).map(words)
}

/// Chain code, tritave, and 1 for the second choice, else 0, of each layout.
pub fn layouts(n: u16) -> Text {
    reading::edo::layouts(n)?;
    let listed = given(edo::find_by_edo(n))?;
    let numbers = listed.iter();
    let numbers = numbers.flat_map(|listed| [listed.code, listed.tritave, flag(listed)]);
    Ok(list_text(numbers.collect()))
}

/// One chain's layout: its numbers, the start among them, 1 for the second choice, else 0, and
/// its pattern.
pub fn layout_of_chain(n: u16, code: u16) -> Text {
    let read = reading::edo::layout_of_chain(n, code).map(|_| ());
    // The original is not asked where no chain or no division is named.
    if let Err(number @ (1 | 15)) = read {
        return Err(number.into());
    }
    let listed = given(edo::find_by_edo(n))?.into_iter();
    match (read, listed.into_iter().find(|listed| listed.code == code)) {
        (Ok(()), Some(listed)) => layout_text(n, &listed),
        (Err(number), None) => Err(number.into()),
        (read, listed) => unreachable!(
            "{n} {code}: document 02 says {read:?}; the original has a layout: {}",
            listed.is_some()
        ),
    }
}

fn layout_text(n: u16, listed: &Listed) -> Text {
    let start = given(layouts::accidentals(&listed.layout, 0))?.sharp_index;
    Ok(format!(
        "{} {n} {} {start} {} {}",
        listed.code,
        listed.tritave,
        flag(listed),
        words::pattern(listed.layout.mos())
    ))
}

fn flag(listed: &Listed) -> u16 {
    listed.is_second.into()
}

#[cfg(test)]
mod tests {
    use super::*;
    use crate::answers::answer;

    fn answered(question: &Question) -> String {
        answer(question).expect("no overflow")
    }

    #[test]
    fn thirteen_steps() {
        assert_eq!(answered(&Question::Tritaves(13)), "21 20\n");
        let listing = Question::FindByEdo(13);
        assert_eq!(answered(&listing), "0 20 1 1 20 1 2 21 0 4 21 0\n");
        assert_eq!(answered(&in_room(11, &listing)), "refused 10\n");
        let chain = |code| answered(&Question::FindChainByEdo(13, code));
        assert_eq!(chain(1), "1 13 20 3 1 5 2 1 4\n");
        assert_eq!(chain(3), "refused 3\n");
    }

    #[test]
    fn no_layouts() {
        assert_eq!(answered(&Question::FindByEdo(4)), "-\n");
        assert_eq!(answered(&in_room(0, &Question::FindByEdo(4))), "-\n");
    }

    #[test]
    fn the_report() {
        assert_eq!(answered(&Question::EdoReport), reading::edo::report());
        assert_eq!(answered(&in_room(56, &Question::EdoReport)), "refused 10\n");
    }

    #[test]
    fn every_refusal_is_one() {
        for question in refused() {
            let answer = answered(&question);
            assert!(answer.starts_with("refused "), "{question}");
        }
    }
}
