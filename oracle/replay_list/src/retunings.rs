//! How far a retuning moves a note (document 02, W-212). The original has no such calls, and the
//! reading answers.

use reading::Whole;
use reading::names::Spelling;

use crate::answers::Text;
use crate::answers::list_text;
use crate::books::around;
use crate::books::in_room;
use crate::keys;
use crate::questions::Question;
use crate::questions::Retuning;
use crate::random::Random;
use crate::starts::letters;

/// Meantone[5] in 31 steps, from 49 to 50, and back; Meantone[7] of two cycles, and of two and
/// one; each other chain.
const ACCEPTED: [[u16; 5]; 9] = [
    [2, 31, 2, 49, 50],
    [2, 31, 0, 50, 49],
    [1, 24, 3, 38, 34],
    [1, 24, 6, 38, 37],
    [0, 16, 4, 25, 23],
    [3, 15, 2, 24, 27],
    [4, 34, 1, 54, 50],
    [5, 19, 3, 30, 36],
    [1, 311, 5, 493, 492],
];

/// Refused with 1, 2, 3, 4 and 18 of the first layout, then with 3 and 4 of the second.
const REFUSED: [[u16; 5]; 8] = [
    [6, 0, 9, 0, 0],
    [2, 0, 9, 0, 0],
    [2, 4, 9, 3, 6],
    [2, 4, 9, 6, 3],
    [2, 31, 5, 49, 30],
    [1, 31, 7, 49, 50],
    [2, 31, 4, 49, 30],
    [1, 31, 6, 49, 50],
];

pub fn all() -> Vec<Question> {
    // Numbers of its own, so that the rest of the list does not depend on this part.
    let mut random = Random::new(0x8ebc_6af0_9c88_c6e3);
    let mut questions = Vec::new();
    for retuning in ACCEPTED.map(retuning) {
        questions.extend(of_accepted(retuning, &mut random));
    }
    for retuning in REFUSED.map(retuning) {
        let table = Question::MoveTable(retuning);
        questions.extend([in_room(0, &table), table, Question::LargestMove(retuning)]);
        questions.extend([0, 9].map(|letter| Question::Moved(retuning, letter, 0, 9)));
    }
    questions.extend(unreadable());
    questions
}

fn retuning([code, octave, start, from, to]: [u16; 5]) -> Retuning {
    Retuning {
        code,
        octave,
        start,
        from,
        to,
    }
}

/// The table, in rooms around its length too, its largest number, and spellings.
fn of_accepted(retuning: Retuning, random: &mut Random) -> Vec<Question> {
    let count = letters(retuning.code);
    let table = Question::MoveTable(retuning);
    let mut questions = around(17 * usize::from(count), &table);
    questions.extend([table, Question::LargestMove(retuning)]);
    for letter in 0..=count {
        for (signs, stars) in [(0, 0), (9, 0), (-9, 1), (i32::MIN, 0), (i32::MAX, 2)] {
            questions.push(Question::Moved(retuning, letter, signs, stars));
        }
        let signs = keys::any_key(random);
        questions.push(Question::Moved(retuning, letter, signs, 0));
    }
    questions.push(Question::Moved(retuning, u16::MAX, 0, u16::MAX));
    questions
}

fn unreadable() -> Vec<Question> {
    [
        "moved",
        "moved 2 31 2 49 50",
        "moved 2 31 2 49 50 2",
        "moved 2 31 2 49 50 2 0",
        "moved 2 31 2 49 50 2 0 ",
        "moved 2 31 2 49 50 2 0 0 ",
        "moved 2 31 2 49 50 2 0 0 0",
        "moved 2 31 2 49 50 2 2147483648 0",
        "moved 2 31 2 49 50 2 -2147483649 0",
        "moved 2 31 2 49 50 2 -0 0",
        "moved 2 31 2 49 50 2 0 65536",
        "moved 2 31 2 49 50 -2 0 0",
        "moved 2 31 2 49 65536 2 0 0",
        "move_table 2 31 2 49",
        "move_table 2 31 2 49 50 ",
        "move_table 2 31 2 49 50 0",
        "move_table 2 31 2 49 -50",
        "65536 move_table 2 31 2 49 50",
        "largest_move 2 31 2 49",
        "largest_move 2 31 2 49 50 0",
        "largest_moves 2 31 2 49 50",
    ]
    .map(Question::Unreadable)
    .into()
}

pub fn moved(retuning: Retuning, letter: u16, signs: i32, stars: u16) -> Text {
    let spelling = Spelling {
        letter: letter.into(),
        signs: Whole::from(signs),
        stars: stars.into(),
    };
    Ok(retuning.read()?.moved(spelling)?.to_string())
}

pub fn table(retuning: Retuning) -> Text {
    Ok(list_text(retuning.read()?.table()))
}

pub fn largest(retuning: Retuning) -> Text {
    Ok(retuning.read()?.largest().to_string())
}

#[cfg(test)]
mod tests {
    use super::*;
    use crate::answers::answered;

    #[test]
    fn a_lesson() {
        let lesson = retuning(ACCEPTED[0]);
        let (line, steps) = answered(Question::Moved(lesson, 2, 4, 0));
        assert_eq!(
            (&line[..], &steps[..]),
            ("moved 2 31 2 49 50 2 4 0", "11\n")
        );
        let (line, most) = answered(Question::LargestMove(lesson));
        assert_eq!(
            (&line[..], &most[..]),
            ("largest_move 2 31 2 49 50", "15\n")
        );
    }

    #[test]
    fn each_is_accepted_or_refused_as_it_is_listed() {
        for accepted in ACCEPTED.map(retuning) {
            assert!(accepted.read().is_ok(), "{accepted}");
        }
        let refusals = REFUSED.map(|numbers| retuning(numbers).read().err());
        assert_eq!(refusals, [1, 2, 3, 4, 18, 18, 3, 4].map(Some));
    }
}
