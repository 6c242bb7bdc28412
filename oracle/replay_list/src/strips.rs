//! Strips of two octaves (document 02, W-204), which equalized scales have, and the key
//! table of one octave beside them. The original's layers make them, but for home (W-206).

use crate::books::around;
use crate::list::from;
use crate::list::layout;
use crate::questions::Layout;
use crate::questions::OfLayout;
use crate::questions::Question;
use crate::starts::letters;

/// An equalized scale of each chain, with one cycle.
const EQUALIZED: [(u16, u16, u16); 6] = [
    (0, 9, 14),
    (1, 7, 11),
    (2, 5, 8),
    (3, 8, 13),
    (4, 7, 11),
    (5, 7, 12),
];

/// As many cycles as still had one-byte codes, and one more.
const CYCLES: [u16; 2] = [101, 102];

pub fn all() -> Vec<Question> {
    let mut questions = Vec::new();
    for (code, octave, tritave) in EQUALIZED {
        let with_cycles = |cycles| layout((code, cycles * octave, cycles * tritave));
        for layout in [1, 2, 3, 7].map(with_cycles) {
            questions.push(Question::Table(layout.to_string()));
            questions.extend(lamps(layout));
            questions.extend(in_rooms(layout));
        }
        for start in 0..letters(code) {
            questions.extend(lamps(from(start, with_cycles(1))));
        }
        questions.extend(CYCLES.map(with_cycles).into_iter().flat_map(lamps));
    }
    questions
}

/// The strip, and single lamps at the ends of three octaves on both sides.
fn lamps(layout: Layout) -> Vec<Question> {
    let octave = i32::from(layout.octave);
    let ends = (-3..=3).flat_map(|octaves| [-1, 0, 1].map(|key| octaves * octave + key));
    let mut questions = vec![Question::OfLayout(OfLayout::Lamps, layout)];
    questions.extend(ends.map(|key| Question::Lamp(layout, key)));
    questions
}

/// The strip in slices around its length, and around one octave.
fn in_rooms(layout: Layout) -> Vec<Question> {
    let strip = Question::OfLayout(OfLayout::Lamps, layout);
    let octave = usize::from(layout.octave);
    [around(2 * octave, &strip), around(octave, &strip)].concat()
}

#[cfg(test)]
mod tests {
    use super::*;
    use crate::answers::answer;

    #[test]
    fn all_are_equalized() {
        for numbers in EQUALIZED {
            let read = layout(numbers).read().unwrap();
            assert_eq!(read.scale_name(), "equalized");
        }
    }

    #[test]
    fn the_seam_of_porcupine() {
        let layout = layout((3, 8, 13));
        let answer = |key| answer(&Question::Lamp(layout, key)).unwrap();
        assert_eq!([0, 8, 16, -8].map(answer), ["0\n"; 4]);
        assert_eq!([7, 9, -7, -9].map(answer), ["65535\n"; 4]);
    }

    #[test]
    fn strips_go_on_where_one_byte_codes_ended() {
        for cycles in CYCLES {
            let layout = layout((1, 7 * cycles, 11 * cycles));
            let strip = answer(&Question::OfLayout(OfLayout::Lamps, layout)).unwrap();
            assert_eq!(strip.split(' ').count(), usize::from(14 * cycles));
            let former = layout.read().unwrap().former_strip();
            assert_eq!(former.is_ok(), cycles == 101);
        }
    }
}
