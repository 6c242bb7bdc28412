//! Moves on the board in octaves and generators (document 02, W-214). The original has none;
//! the counts and steps of its patterns leave one table for each.

use crate::books::around;
use crate::keys;
use crate::list::at_limits;
use crate::list::from;
use crate::list::layout;
use crate::list::pairs;
use crate::list::pergen;
use crate::questions::FreePergen;
use crate::questions::Question;
use crate::random::Random;
use crate::starts::begun;
use crate::starts::letters;
use crate::starts::with_own_start;

/// The longest walk that is listed.
const LONGEST: usize = 100;

pub fn all() -> Vec<Question> {
    // Numbers of its own, so that the rest of the list does not depend on this part.
    let mut random = Random::new(0xe703_7ed1_a0b4_28db);
    let mut questions = of_layouts(&mut random);
    questions.extend(of_pergens(&mut random));
    questions.extend(of_deep_walks());
    questions
}

fn of_layouts(random: &mut Random) -> Vec<Question> {
    let mut questions = Vec::new();
    for accepted in keys::ACCEPTED.map(layout) {
        questions.push(Question::Moves(with_own_start(accepted)));
        let letters = letters(accepted.code);
        let starts = [0, letters - 1, letters, u16::MAX];
        questions.extend(starts.map(|start| Question::Moves(from(start, accepted))));
    }
    // A generator above the octave.
    questions.push(Question::Moves(from(2, layout((2, 5, 18)))));
    questions.extend(keys::REFUSED.map(|numbers| Question::Moves(from(9, layout(numbers)))));
    let any = keys::of_any_size(random, 8, begun, |_, layout| vec![Question::Moves(layout)]);
    questions.extend(any);
    let alone = questions.iter().filter_map(written).collect::<Vec<_>>();
    questions.extend(alone);
    let twelve = Question::WriteMoves(with_own_start(layout((1, 12, 19))));
    let no_start = Question::WriteMoves(from(7, layout((1, 12, 19))));
    questions.extend(around(4, &twelve));
    questions.extend(around(4, &no_start));
    questions
}

/// The same moves alone, without the pattern.
fn written(question: &Question) -> Option<Question> {
    match question {
        Question::Moves(layout) => Some(Question::WriteMoves(*layout)),
        _ => None,
    }
}

/// Generators within the period and above it; limits; numbers of every size at random.
fn of_pergens(random: &mut Random) -> Vec<Question> {
    let mut questions = Vec::new();
    for (period, generator) in pairs(0..=9, 0..=19).chain(at_limits()) {
        let pergen = pergen(period, generator);
        questions.push(Question::GenesisMoves(pergen));
        questions.extend(listed(pergen));
    }
    for _ in 0..60 {
        let pergen = pergen(random.any_size(), random.any_size());
        questions.extend(listed(pergen));
        let places = [random.up_to(9).into(), random.any_size().into()];
        questions.extend(places.map(|place| Question::NthMoves(pergen, place)));
    }
    for (period, generator) in [(12, 7), (12, 19), (31, 18), (6, 12), (1, 65_535), (0, 7)] {
        let pergen = pergen(period, generator);
        let places = (0..=5).chain([u32::MAX]);
        questions.extend(places.map(|place| Question::NthMoves(pergen, place)));
    }
    questions.extend(around(20, &Question::WalkMoves(pergen(12, 7))));
    questions.extend(around(4, &Question::WalkMoves(pergen(0, 7))));
    questions
}

/// The whole walk, where it is short.
fn listed(pergen: FreePergen) -> Option<Question> {
    let numbers = reading::moves::of_walk(pergen.period, pergen.generator);
    let is_short = numbers.is_ok_and(|numbers| numbers.len() <= 4 * LONGEST);
    (is_short || pergen.period == 0).then_some(Question::WalkMoves(pergen))
}

/// The deepest walks: too many numbers for the usual room, their last patterns, and one
/// pattern more.
fn of_deep_walks() -> Vec<Question> {
    let mut questions = Vec::new();
    for pergen in [pergen(65_535, 1), pergen(65_535, 65_534), pergen(65_534, 3)] {
        questions.push(Question::WalkMoves(pergen));
        let numbers = reading::moves::of_walk(pergen.period, pergen.generator);
        let count = numbers.expect("a period above 0").len() / 4;
        let places = [count - 2, count - 1, count];
        questions.extend(places.map(|place| Question::NthMoves(pergen, place as u32)));
    }
    questions
}

#[cfg(test)]
mod tests {
    use super::*;
    use crate::answers::answer;
    use crate::answers::answered;

    #[test]
    fn twelve_steps() {
        let (line, moves) = answered(Question::Moves(from(3, layout((1, 12, 19)))));
        assert_eq!(line, "moves 1 12 19 3");
        assert_eq!(moves, "5 2 2 1 -1 2 3 -5\n");
        let (line, moves) = answered(Question::WriteMoves(from(3, layout((1, 12, 19)))));
        assert_eq!(line, "write_moves 1 12 19 3");
        assert_eq!(moves, "-1 2 3 -5\n");
        let (line, moves) = answered(Question::NthMoves(pergen(12, 19), 3));
        assert_eq!(line, "nth_moves 12 19 3");
        assert_eq!(moves, "5 2 2 1 -3 2 8 -5\n");
        let (line, moves) = answered(Question::GenesisMoves(pergen(12, 19)));
        assert_eq!(line, "genesis_moves 12 19");
        assert_eq!(moves, "1 1 7 5 -1 1 2 -1\n");
        let (line, moves) = answered(Question::WalkMoves(pergen(3, 2)));
        assert_eq!(line, "walk_moves 3 2");
        assert_eq!(moves, "0 1 1 -1 -1 2 1 -1\n");
    }

    #[test]
    fn deep_walks() {
        let answers: Vec<String> = of_deep_walks().iter().filter_map(answer).collect();
        assert_eq!(answers[0], "refused 10\n");
        assert_eq!(answers[2], "65534 1 1 1 0 1 1 -65534\n");
        assert_eq!(answers[3], "none\n");
    }

    #[test]
    fn generators_above_the_period_are_asked() {
        let asked = of_pergens(&mut Random::new(1));
        let above = |question: &&Question| match question {
            Question::WalkMoves(pergen) => pergen.period < pergen.generator,
            _ => false,
        };
        assert!(asked.iter().filter(above).count() > 100);
    }
}
