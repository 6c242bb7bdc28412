//! Scala keyboard mappings (document 02, W-210). The original has none: its layers tell which
//! keys are natural, and the reading reads texts.

use judge::layouts;
use judge::words::words;
use reading::mappings;

use crate::answers::Absent;
use crate::answers::Text;
use crate::answers::created_layout;
use crate::answers::given;
use crate::answers::list_text;
use crate::books::around;
use crate::books::in_room;
use crate::keys;
use crate::list::from;
use crate::list::layout;
use crate::questions::Layout;
use crate::questions::Question;
use crate::starts::letters;
use crate::starts::with_own_start;

/// The most bytes that stand in a line of at most 512, behind the name and four numbers.
const BYTES_OF_A_LINE: usize = 118;

/// Lines put in the place of each line of a file, and before each.
const LINES: [&str; 14] = [
    "x",
    "X",
    "!",
    "!x",
    "",
    "0",
    "00000",
    "000000",
    "5",
    "99999",
    "65541",
    "440.000000",
    "440",
    "5\r",
];

pub fn all() -> Vec<Question> {
    let mut questions = Vec::new();
    for accepted in keys::ACCEPTED.map(layout) {
        questions
            .extend((0..letters(accepted.code)).flat_map(|start| files(from(start, accepted))));
    }
    questions.push(Question::KbmLength(with_own_start(layout(
        keys::MANY_CYCLES,
    ))));
    for numbers in [(1, 12, 19), (2, 7, 8)] {
        questions.extend(rooms(with_own_start(layout(numbers))));
    }
    questions.extend(texts(with_own_start(layout((2, 5, 8)))));
    questions.extend(refused());
    questions.extend(unreadable());
    questions
}

fn bytes_of(layout: Layout) -> Vec<u8> {
    mappings::file(&layout.read().expect("an accepted layout"))
}

/// The file, its length, and what is read of it.
fn files(layout: Layout) -> Vec<Question> {
    let file = bytes_of(layout);
    let mut questions = vec![Question::KbmLength(layout), Question::Kbm(layout)];
    if file.len() <= BYTES_OF_A_LINE {
        questions.push(Question::ReadKbm(layout, file));
    }
    questions
}

fn rooms(layout: Layout) -> Vec<Question> {
    let file = bytes_of(layout);
    let keys = mappings::keys(layout.octave, &file).expect("a file of its own");
    let mut questions = around(file.len(), &Question::Kbm(layout));
    questions.extend(around(keys.len(), &Question::ReadKbm(layout, file)));
    questions
}

/// A file with each line changed, put in or left out; cut after each byte, and without each.
fn texts(layout: Layout) -> Vec<Question> {
    let file = bytes_of(layout);
    let lines: Vec<&[u8]> = file.split_inclusive(|byte| *byte == b'\n').collect();
    let mut texts = Vec::new();
    for place in 0..=lines.len() {
        for line in LINES.map(|line| format!("{line}\n")) {
            let (before, after) = lines.split_at(place);
            texts.push([&before.concat(), line.as_bytes(), &after.concat()].concat());
            if let Some((_, after)) = after.split_first() {
                texts.push([&before.concat(), line.as_bytes(), &after.concat()].concat());
            }
        }
    }
    for place in 0..file.len() {
        texts.push(file[..place].to_vec());
        texts.push([&file[..place], &file[place + 1..]].concat());
    }
    texts
        .into_iter()
        .map(|text| Question::ReadKbm(layout, text))
        .collect()
}

/// 1 to 4 and 18 before 19 and 10; 19 and 20 before 10.
fn refused() -> Vec<Question> {
    let layouts = keys::REFUSED.map(|numbers| from(9, layout(numbers)));
    let no_start = from(7, layout((1, 12, 19)));
    let mut questions = Vec::new();
    for layout in layouts.into_iter().chain([no_start]) {
        let asked = [
            Question::KbmLength(layout),
            Question::Kbm(layout),
            Question::ReadKbm(layout, vec![b'\n']),
        ];
        questions.extend(asked.each_ref().map(|question| in_room(0, question)));
        questions.extend(asked);
    }
    let five = with_own_start(layout((2, 5, 8)));
    let file = bytes_of(five);
    let another_size = [b"4", &file[1..]].concat();
    for text in [file[1..].to_vec(), another_size] {
        questions.push(in_room(0, &Question::ReadKbm(five, text)));
    }
    questions
}

fn unreadable() -> Vec<Question> {
    [
        "kbm_len",
        "kbm_len 1 12 19",
        "kbm_len 1 12 19 3 ",
        "kbm_len 1 12 19 3 0",
        "kbm_len 1 12 19 -3",
        "kbm 1 12 19",
        "kbm 1 12 19 3 10",
        "kbm_from 1 12 19 3",
        "kb 1 12 19 3",
        "65536 kbm 1 12 19 3",
        "read_kbm 1 12 19",
        "read_kbm 1 12 19 3 ",
        "read_kbm 1 12 19 3 256",
        "read_kbm 1 12 19 3 -1",
        "read_kbm 1 12 19 3  10",
        "read_kbm 1 65536 19 3 10",
    ]
    .map(Question::Unreadable)
    .into()
}

/// The file that the original's layers make.
fn original(layout: Layout) -> Result<Vec<u8>, Absent> {
    given(layouts::mapping(&created_layout(layout)?))
}

pub fn length(layout: Layout) -> Text {
    Ok(original(layout)?.len().to_string())
}

pub fn file(layout: Layout) -> Text {
    original(layout).map(words)
}

pub fn keys(layout: Layout, text: &[u8]) -> Text {
    layout.read()?;
    Ok(list_text(mappings::keys(layout.octave, text)?))
}

#[cfg(test)]
mod tests {
    use super::*;
    use crate::answers::answer;
    use crate::answers::answered;
    use crate::answers::assert_refused;

    #[test]
    fn the_seven_there_and_back() {
        let seven = with_own_start(layout((1, 7, 11)));
        let (line, length) = answered(Question::KbmLength(seven));
        assert_eq!((&line[..], &length[..]), ("kbm_len 1 7 11 3", "41\n"));
        let (line, keys) = answered(Question::ReadKbm(seven, bytes_of(seven)));
        assert!(line.starts_with("read_kbm 1 7 11 3 55 10 48 10 49 50 55 10 54 48 10"));
        assert_eq!(keys, "0 1 6\n");
    }

    #[test]
    fn both_refusals_of_a_text_are_met() {
        let five = with_own_start(layout((2, 5, 8)));
        let answers: Vec<String> = texts(five).iter().filter_map(answer).collect();
        for refusal in ["refused 19\n", "refused 20\n"] {
            assert!(answers.iter().any(|answer| answer == refusal), "{refusal}");
        }
    }

    #[test]
    fn every_refusal_is_one() {
        assert_refused(refused());
    }
}
