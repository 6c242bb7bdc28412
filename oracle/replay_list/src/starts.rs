//! Other letters on key 0 (document 02, W-209). The original has none; its record is given
//! the start as its origin, and its own code answers from there.

use reading::chains;

use crate::books;
use crate::keys;
use crate::list::from;
use crate::list::layout;
use crate::questions::Layout;
use crate::questions::OfLayout;
use crate::questions::Question;
use crate::random::Random;

/// Layouts whose slices are lent exact, short and long.
const IN_ROOMS: [(u16, u16, u16); 2] = [(1, 12, 19), (1, 24, 38)];

pub fn all() -> Vec<Question> {
    // Numbers of its own, so that the rest of the list does not depend on this part.
    let mut random = Random::new(0xa076_1d64_78bd_642f);
    let mut questions = Vec::new();
    for accepted in keys::ACCEPTED.map(layout) {
        let letters = letters(accepted.code);
        questions.extend((0..letters).flat_map(|start| from_letter(from(start, accepted))));
        for start in [letters, letters + 1, u16::MAX] {
            questions.extend(refused(from(start, accepted)));
        }
    }
    for numbers in IN_ROOMS {
        questions.extend(books::layout_rooms(from(1, layout(numbers))));
    }
    // Refused with 1 to 4 before 18; and with 18 where there are many cycles.
    for numbers in keys::REFUSED.into_iter().chain([keys::MANY_CYCLES]) {
        questions.extend(refused(from(9, layout(numbers))));
    }
    questions.extend(of_large_layouts(&mut random));
    questions
}

pub fn letters(code: u16) -> u16 {
    let chain = chains::chain(code).expect("a code of 0 to 5");
    u16::try_from(chain.count()).expect("at most nine letters")
}

/// The layout with its chain's own start among its numbers.
pub fn with_own_start(layout: Layout) -> Layout {
    let chain = chains::chain(layout.code).expect("a code of 0 to 5");
    from(chain.start as u16, layout)
}

/// All keys of the octave at once, some by themselves, and the book.
fn from_letter(layout: Layout) -> Vec<Question> {
    let octave = i32::from(layout.octave);
    let mut questions: Vec<Question> = OfLayout::ALL
        .map(|asked| Question::OfLayout(asked, layout))
        .into();
    for key in [0, 1, octave - 1, -1, -octave, i32::MIN, i32::MAX] {
        questions.extend(keys::of_key(layout, key));
    }
    questions.extend([Question::BookLength(layout), Question::Book(layout)]);
    questions.extend([1, octave, -1].map(|key| Question::Find(layout, key)));
    questions
}

/// Every question, and those that need room in none.
fn refused(layout: Layout) -> Vec<Question> {
    [from_letter(layout), books::layout_in_no_room(layout)].concat()
}

fn of_large_layouts(random: &mut Random) -> Vec<Question> {
    keys::of_any_size(random, 12, begun, |random, layout| {
        let last = i32::from(layout.octave) - 1;
        let some = [0, 1, last, -1, keys::any_key(random), keys::any_key(random)];
        let asked = some.into_iter().flat_map(|key| keys::of_key(layout, key));
        let numbers = Question::OfLayout(OfLayout::Numbers, layout);
        asked.chain([numbers]).collect()
    })
}

/// A layout of a chain with an octave of any size, from any letter.
pub fn begun(random: &mut Random, code: u16) -> Layout {
    let start = random.up_to(letters(code) - 1);
    from(start, keys::accepted(random, code))
}

#[cfg(test)]
mod tests {
    use super::*;
    use crate::answers::answered;

    #[test]
    fn the_twelve_from_c() {
        let from_c = from(1, layout((1, 12, 19)));
        let (line, names) = answered(Question::OfLayout(OfLayout::Names, from_c));
        assert_eq!(line, "names_from 1 12 19 1");
        assert_eq!(names, "C C#/Db D D#/Eb E F F#/Gb G G#/Ab A A#/Bb B\n");
        let (line, name) = answered(Question::Name(from_c, -1));
        assert_eq!((&line[..], &name[..]), ("name_from 1 12 19 1 -1", "B\n"));
    }

    #[test]
    fn what_is_no_start() {
        for (start, numbers, refusal) in [
            (7, (1, 12, 19), 18),
            (7, (1, 2_400, 3_800), 18),
            (9, (0, 12, 19), 4),
            (9, (6, 12, 19), 1),
        ] {
            let lamps = Question::OfLayout(OfLayout::Lamps, from(start, layout(numbers)));
            assert_eq!(answered(lamps).1, format!("refused {refusal}\n"));
        }
    }
}
