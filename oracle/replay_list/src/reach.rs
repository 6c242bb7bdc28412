//! The nearest key of a letter, and the keys in reach of a key (document 02, W-203). The
//! original has no such calls: its names are searched for the letter's keys, and the reading
//! of the sentence lists the keys in reach.

use crate::books::around;
use crate::books::in_room;
use crate::keys;
use crate::list::from;
use crate::list::layout;
use crate::questions::Layout;
use crate::questions::Question;
use crate::random::Random;
use crate::starts::begun;
use crate::starts::letters;
use crate::starts::with_own_start;

/// Of Meantone[7] with one cycle, with two, and with three, where a key is as near to D as to
/// D**.
const OF_EACH_KEY: [(u16, u16, u16); 3] = [(1, 12, 19), (1, 24, 38), (1, 36, 57)];

/// D's place among their letters.
const D: u16 = 3;

/// The longest list that is asked for.
const LONGEST: u16 = 100;

pub fn all() -> Vec<Question> {
    // Numbers of its own, so that the rest of the list does not depend on this part.
    let mut random = Random::new(0x2545_f491_4f6c_dd1d);
    let mut questions = Vec::new();
    for layout in OF_EACH_KEY.map(layout) {
        questions.extend(from_each_key(with_own_start(layout)));
    }
    for accepted in keys::ACCEPTED.map(layout) {
        questions.extend(from_each_letter(with_own_start(accepted)));
        let start = random.up_to(letters(accepted.code) - 1);
        questions.extend(from_each_letter(from(start, accepted)));
    }
    questions.extend(reaches(with_own_start(layout((1, 12, 19)))));
    questions.extend(reaches(from(6, layout((1, 7, 11)))));
    questions.extend(refused());
    questions.extend(of_large_layouts(&mut random));
    questions
}

/// The nearest D from each key of the octave.
fn from_each_key(layout: Layout) -> impl Iterator<Item = Question> {
    (0..i32::from(layout.octave)).map(move |key| Question::Nearest(layout, key, D))
}

/// The nearest key of each letter from some keys.
fn from_each_letter(layout: Layout) -> impl Iterator<Item = Question> {
    let half = i32::from(layout.octave) / 2;
    let some = [half, -1, i32::MIN];
    let each = (0..letters(layout.code)).zip(some.into_iter().cycle());
    each.map(move |(letter, key)| Question::Nearest(layout, key, letter))
}

/// Lists of each distance up to more than half the octave, from some keys; in rooms around
/// their number.
fn reaches(layout: Layout) -> Vec<Question> {
    let octave = layout.octave;
    let mut questions = Vec::new();
    for key in [0, 5, -1, i32::from(octave), i32::MIN, i32::MAX] {
        let distances = (0..=octave / 2 + 1).chain([octave, u16::MAX]);
        questions.extend(distances.map(|distance| Question::Reach(layout, key, distance)));
    }
    questions.extend(around(3, &Question::Reach(layout, -1, 1)));
    questions.extend(around(octave.into(), &Question::Reach(layout, 0, octave)));
    questions
}

/// 1 to 4 and 18 before 16 and before 10, and 16.
fn refused() -> Vec<Question> {
    let mut questions = Vec::new();
    let twelve = layout((1, 12, 19));
    let layouts = keys::REFUSED.map(|numbers| from(9, layout(numbers)));
    for layout in layouts.into_iter().chain([from(7, twelve)]) {
        questions.extend([0, 9].map(|letter| Question::Nearest(layout, 0, letter)));
        let reach = Question::Reach(layout, 0, 1);
        questions.extend([in_room(0, &reach), reach]);
    }
    for accepted in keys::ACCEPTED.map(layout) {
        let count = letters(accepted.code);
        let layout = with_own_start(accepted);
        questions.extend([count, u16::MAX].map(|place| Question::Nearest(layout, -1, place)));
    }
    questions
}

/// Layouts with an octave of any size, from any letter.
fn of_large_layouts(random: &mut Random) -> Vec<Question> {
    keys::of_any_size(random, 6, begun, |random, layout| {
        let letter = random.up_to(letters(layout.code) - 1);
        let nearest = Question::Nearest(layout, keys::any_key(random), letter);
        let distance = random.up_to(LONGEST / 2 - 1);
        let reach = Question::Reach(layout, keys::any_key(random), distance);
        vec![nearest, reach]
    })
}

#[cfg(test)]
mod tests {
    use super::*;
    use crate::answers::answered;
    use crate::answers::assert_refused;

    #[test]
    fn the_nearest_d_and_what_is_in_reach() {
        let layout = from(3, layout((1, 36, 57)));
        let (line, key) = answered(Question::Nearest(layout, 19, 3));
        assert_eq!((&line[..], &key[..]), ("nearest 1 36 57 3 19 3", "0\n"));
        let (line, keys) = answered(Question::Reach(layout, -1, 2));
        assert_eq!(line, "reach 1 36 57 3 -1 2");
        assert_eq!(keys, "0 1 33 34 35\n");
    }

    #[test]
    fn every_refusal_is_one() {
        assert_refused(refused());
    }

    #[test]
    fn a_small_part_of_the_list() {
        assert!(all().len() <= 600);
    }
}
