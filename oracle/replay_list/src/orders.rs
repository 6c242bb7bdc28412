//! Lists in the order of the chain and of keys (document 02, W-214). The original has no such
//! calls: the cycles and degrees of its keys tell their order.

use std::iter;

use crate::books::around;
use crate::books::in_room;
use crate::keys;
use crate::list::from;
use crate::list::layout;
use crate::questions::Layout;
use crate::questions::Question;
use crate::random::Random;
use crate::starts::letters;
use crate::starts::with_own_start;

/// The most entries that stand in a line of at most 512 bytes, whatever they are.
const ENTRIES_OF_A_LINE: u16 = 78;

pub fn all() -> Vec<Question> {
    // Numbers of its own, so that the rest of the list does not depend on this part.
    let mut random = Random::new(0x9fb2_1c65_1e98_df25);
    let mut questions = Vec::new();
    for accepted in keys::ACCEPTED.map(layout) {
        questions.extend(of_keys(with_own_start(accepted)));
        let start = random.up_to(letters(accepted.code) - 1);
        questions.extend(of_any_entries(&mut random, from(start, accepted)));
    }
    for code in 0..=5 {
        for _ in 0..8 {
            let layout = small(&mut random, code);
            questions.extend(of_any_entries(&mut random, layout));
        }
    }
    for numbers in [(1, 7, 11), (1, 24, 38)] {
        questions.extend(around_octave(with_own_start(layout(numbers))));
    }
    questions.extend(refused());
    questions
}

fn both(layout: Layout, list: &[u16]) -> [Question; 2] {
    [
        Question::ToChainOrder(layout, list.to_vec()),
        Question::ToKeyOrder(layout, list.to_vec()),
    ]
}

fn keys_of(layout: Layout) -> Vec<u16> {
    (0..layout.octave).collect()
}

/// The keys themselves, which show where each goes, and what comes of them put back.
fn of_keys(layout: Layout) -> Vec<Question> {
    let keys = keys_of(layout);
    let read = layout.read().expect("an accepted layout");
    let there = reading::orders::to_chain_order(&read, &keys).expect("a whole octave");
    let back = reading::orders::to_key_order(&read, &keys).expect("a whole octave");
    let restored = [
        Question::ToKeyOrder(layout, there),
        Question::ToChainOrder(layout, back),
    ];
    both(layout, &keys).into_iter().chain(restored).collect()
}

/// A list with entries of any size, and a longer one.
fn of_any_entries(random: &mut Random, layout: Layout) -> Vec<Question> {
    let octave = usize::from(layout.octave);
    let list: Vec<u16> = iter::repeat_with(|| random.any_size())
        .take(octave + 2)
        .collect();
    let exact = both(layout, &list[..octave]);
    exact.into_iter().chain(both(layout, &list)).collect()
}

/// A layout of a chain whose octave stands in a line, from any letter.
fn small(random: &mut Random, code: u16) -> Layout {
    let start = random.up_to(letters(code) - 1);
    let most = ENTRIES_OF_A_LINE - 2;
    iter::repeat_with(|| layout((code, random.up_to(most), random.up_to(3 * most))))
        .find(|layout| layout.read().is_ok())
        .map(|layout| from(start, layout))
        .expect("an endless search")
}

/// Lists and rooms around the octave's length.
fn around_octave(layout: Layout) -> Vec<Question> {
    let keys = keys_of(layout);
    let longer = [&keys[..], &[65_535]].concat();
    let mut questions = Vec::new();
    for list in [&[], &keys[1..], &keys, &longer] {
        for question in both(layout, list) {
            questions.extend(around(keys.len(), &question));
        }
    }
    questions
}

/// 1 to 4 and 18 before 10.
fn refused() -> Vec<Question> {
    let layouts = keys::REFUSED.map(|numbers| from(9, layout(numbers)));
    let no_start = from(7, layout((1, 12, 19)));
    let mut questions = Vec::new();
    for layout in layouts.into_iter().chain([no_start]) {
        for list in [&[][..], &keys_of(layout)] {
            let asked = both(layout, list);
            questions.extend(asked.each_ref().map(|question| in_room(0, question)));
            questions.extend(asked);
        }
    }
    questions
}

#[cfg(test)]
mod tests {
    use super::*;
    use crate::answers::answer;
    use crate::answers::answered;
    use crate::answers::assert_refused;

    #[test]
    fn the_seven_there_and_back() {
        let seven = with_own_start(layout((1, 7, 11)));
        let (line, chain) = answered(Question::ToChainOrder(seven, keys_of(seven)));
        assert_eq!(line, "to_chain_order 1 7 11 3 0 1 2 3 4 5 6");
        assert_eq!(chain, "0 4 1 5 2 6 3\n");
        let (line, keys) = answered(Question::ToKeyOrder(seven, vec![0, 4, 1, 5, 2, 6, 3]));
        assert_eq!(line, "to_key_order 1 7 11 3 0 4 1 5 2 6 3");
        assert_eq!(keys, "0 1 2 3 4 5 6\n");
    }

    #[test]
    fn what_is_put_back_is_the_keys() {
        for accepted in keys::ACCEPTED.map(layout) {
            let layout = with_own_start(accepted);
            let keys: Vec<String> = keys_of(layout).iter().map(u16::to_string).collect();
            for question in &of_keys(layout)[2..] {
                assert_eq!(answer(question), Some(keys.join(" ") + "\n"));
            }
        }
    }

    #[test]
    fn every_refusal_is_one() {
        assert_refused(refused());
    }

    #[test]
    fn lists_and_rooms_that_are_too_short() {
        let seven = with_own_start(layout((1, 7, 11)));
        let refused = around_octave(seven)
            .iter()
            .filter(|question| answer(question).as_deref() == Some("refused 10\n"))
            .count();
        // All rooms of the two short lists, two of the four rooms of the two others.
        assert_eq!(refused, 2 * (2 * 4 + 2 * 2));
    }
}
