//! Sheets of keys (document 02, W-208). The original has no such call, and is asked for each key by
//! itself. The program `replay` lends four records, and prints them whether they were filled or
//! not.

use judge::layouts;
use judge::words::words;
use reading::sheets::Record;

use crate::answers::Absent;
use crate::answers::Text;
use crate::answers::created_layout;
use crate::answers::given;
use crate::keys;
use crate::list::from;
use crate::list::layout;
use crate::questions::Layout;
use crate::questions::Question;
use crate::random::Random;
use crate::starts::begun;
use crate::starts::letters;
use crate::starts::with_own_start;

/// Both ends of 32 signed bits, and of 16 bits.
const ENDS: [i32; 4] = [i32::MAX, i32::MIN, 65_536, -65_536];

pub fn all() -> Vec<Question> {
    // Numbers of its own, so that the rest of the list does not depend on this part.
    let mut random = Random::new(0xc2b2_ae3d_27d4_eb4f);
    let mut questions = Vec::new();
    for accepted in keys::ACCEPTED.map(layout) {
        questions.extend(of_octaves(with_own_start(accepted)));
        let start = random.up_to(letters(accepted.code) - 1);
        let other = from(start, accepted);
        questions.extend([
            Question::Sheet(other, ENDS),
            of_any_keys(&mut random, other),
        ]);
    }
    questions.extend(of_large_layouts(&mut random));
    questions.extend(refused());
    questions.extend(unreadable());
    questions
}

/// Every key of four octaves, two of them below 0, four by four and falling, so that the order of
/// the records is not that of keys; equal keys; the ends.
fn of_octaves(layout: Layout) -> Vec<Question> {
    let octave = i32::from(layout.octave);
    let falling = (-2 * octave..2 * octave).rev().step_by(4);
    let mut questions: Vec<Question> = falling
        .map(|key| Question::Sheet(layout, [key, key - 1, key - 2, key - 3]))
        .collect();
    questions.extend([[1, 1, 1, 1], [1, 0, 1, -1], ENDS].map(|keys| Question::Sheet(layout, keys)));
    questions
}

/// Keys of any size, of which the last stood before.
fn of_any_keys(random: &mut Random, layout: Layout) -> Question {
    let [one, two, three] = [(); 3].map(|()| keys::any_key(random));
    Question::Sheet(layout, [one, two, three, one])
}

/// Layouts with an octave of any size, from any letter.
fn of_large_layouts(random: &mut Random) -> Vec<Question> {
    keys::of_any_size(random, 6, begun, |random, layout| {
        vec![of_any_keys(random, layout)]
    })
}

/// 1 to 4, and 18 behind them.
fn refused() -> Vec<Question> {
    let layouts = keys::REFUSED.map(|numbers| from(9, layout(numbers)));
    let no_start = from(7, layout((1, 12, 19)));
    let layouts = layouts.into_iter().chain([no_start]);
    layouts
        .map(|layout| Question::Sheet(layout, [1, 0, 1, -1]))
        .collect()
}

fn unreadable() -> Vec<Question> {
    [
        "sheet",
        "sheet 1 12 19 3",
        "sheet 1 12 19 3 1 0 1",
        "sheet 1 12 19 3 1 0 1 ",
        "sheet 1 12 19 3 1 0 1 -1 ",
        "sheet 1 12 19 3 1 0 1 -1 0",
        "sheet 1 12 19 3 1 0 1 -0",
        "sheet 1 12 19 3 1 0 1 2147483648",
        "sheet 1 12 19 3 -2147483649 0 1 -1",
        "sheet 1 12 65536 3 1 0 1 -1",
        "sheet 1 12 -19 3 1 0 1 -1",
        "sheets 1 12 19 3 1 0 1 -1",
        "65536 sheet 1 12 19 3 1 0 1 -1",
    ]
    .map(Question::Unreadable)
    .into()
}

/// How many records there are, or the refusal, and the records.
pub fn text(layout: Layout, keys: &[i32; 4]) -> Text {
    match filled(layout, keys) {
        Ok(records) => Ok(format!("{}{}", records.len(), records_text(records))),
        Err(Absent::Refused(number)) => {
            let untouched = keys.map(untouched);
            Ok(format!(
                "refused {number}{}",
                records_text(untouched.into())
            ))
        }
        Err(overflow) => Err(overflow),
    }
}

fn filled(layout: Layout, keys: &[i32]) -> Result<Vec<Record>, Absent> {
    given(layouts::sheet(&created_layout(layout)?, keys))
}

/// What the program lends.
fn untouched(key: i32) -> Record {
    Record {
        key,
        sharp_index: 9,
        sharp_count: 8,
        flat_index: 7,
        flat_count: 6,
        stars: 5,
        lamp: 4,
    }
}

fn records_text(records: Vec<Record>) -> String {
    let of_record = |record: Record| {
        let numbers = [
            record.sharp_index,
            record.sharp_count,
            record.flat_index,
            record.flat_count,
            record.stars,
            record.lamp,
        ];
        format!(", {} {}", record.key, words(numbers))
    };
    records.into_iter().map(of_record).collect()
}

#[cfg(test)]
mod tests {
    use super::*;
    use crate::answers::answered;

    #[test]
    fn a_sheet() {
        let quarter_tones = from(3, layout((1, 24, 38)));
        let (line, records) = answered(Question::Sheet(quarter_tones, [3, -1, 3, 48]));
        assert_eq!(line, "sheet 1 24 38 3 3 -1 3 48");
        let filled = "4, 3 3 1 5 1 1 3, -1 1 1 3 1 1 3, 3 3 1 5 1 1 3, 48 3 0 3 0 0 0\n";
        assert_eq!(records, filled);
    }

    #[test]
    fn a_refused_sheet_is_untouched() {
        let refused: Vec<String> = refused()
            .into_iter()
            .map(|question| answered(question).1)
            .collect();
        let untouched = ", 1 9 8 7 6 5 4, 0 9 8 7 6 5 4, 1 9 8 7 6 5 4, -1 9 8 7 6 5 4\n";
        let wanted = [1, 2, 3, 4, 18].map(|number| format!("refused {number}{untouched}"));
        assert_eq!(refused, wanted);
    }

    #[test]
    fn a_small_part_of_the_list() {
        assert!(all().len() <= 400);
    }
}
