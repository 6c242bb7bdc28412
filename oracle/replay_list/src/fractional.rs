//! Patterns from a fractional generator (document 02, W-213). A number of double precision is read
//! and printed as two halves of its bits. The program `replay` lends eight patterns, and prints them
//! whether they were written or not.

use judge::fractional as original;
use judge::words::words;
use reading::fractional::Bits;
use reading::fractional::Fractional;

use crate::answers::Absent;
use crate::answers::Text;
use crate::answers::given;
use crate::questions::Question;
use crate::random::Random;

/// How many patterns are lent for a walk.
const LENT: usize = 8;

/// A pattern as it is lent: counts 9 and 8, steps 7 and 6.
const BEFORE: Bits = Bits {
    counts: [9, 8],
    steps: [7.0_f64.to_bits(), 6.0_f64.to_bits()],
};

pub fn all() -> Vec<Question> {
    // Numbers of its own, so that the rest of the list does not depend on this part.
    let mut random = Random::new(0x1656_67b1_9e37_79f9);
    let mut questions: Vec<Question> = special().into_iter().flat_map(of_generator).collect();
    questions.extend(whole_parts().into_iter().flat_map(of_generator));
    for _ in 0..24 {
        let part = within_octave(&mut random);
        let octaves = f64::from(random.any_size());
        let generators = [part, part - octaves, f64::from_bits(any_bits(&mut random))];
        questions.extend(
            generators
                .map(f64::to_bits)
                .into_iter()
                .flat_map(of_generator),
        );
    }
    questions.extend(children_of_special());
    for _ in 0..40 {
        let usual = [(); 2].map(|()| within_octave(&mut random).to_bits());
        let any = [(); 2].map(|()| any_bits(&mut random));
        for steps in [usual, any] {
            let counts = [random.any_size(), random.any_size()];
            questions.push(Question::FractionalChild(Bits { counts, steps }));
        }
    }
    questions.extend(unreadable());
    questions
}

/// The bits of numbers at which something changes, of both signs.
fn special() -> Vec<u64> {
    let infinity = f64::INFINITY.to_bits();
    let one = 1.0_f64.to_bits();
    let above_0 = [
        0,
        1,
        f64::MIN_POSITIVE.to_bits(),
        1e-20_f64.to_bits(),
        (f64::EPSILON / 2.0).to_bits(),
        0.1_f64.to_bits(),
        (1.0_f64 / 3.0).to_bits(),
        0.5_f64.to_bits() - 1,
        0.5_f64.to_bits(),
        0.5_f64.to_bits() + 1,
        1.5_f64.log2().to_bits(),
        0.625_f64.to_bits(),
        one - 1,
        one,
        one + 1,
        3.0_f64.log2().to_bits(),
        (0.5 / f64::EPSILON).to_bits() + 1,
        (1.0 / f64::EPSILON).to_bits(),
        f64::MAX.to_bits(),
        infinity,
        infinity + 1,
        f64::NAN.to_bits(),
        (1 << 63) - 1,
    ];
    above_0
        .into_iter()
        .flat_map(|bits| [bits, bits | 1 << 63])
        .collect()
}

/// Some 65,536ths.
fn whole_parts() -> Vec<u64> {
    let limits = [1, 2, 3, 4_096, 32_767, 32_769, 38_336, 65_534, 65_535];
    let part = |k: u32| (f64::from(k) / 65_536.0).to_bits();
    limits.into_iter().map(part).collect()
}

/// From 0 to 1, in steps of 2^-53.
fn within_octave(random: &mut Random) -> f64 {
    (any_bits(random) >> 11) as f64 * (f64::EPSILON / 2.0)
}

fn any_bits(random: &mut Random) -> u64 {
    u64::from(random.bits32()) << 32 | u64::from(random.bits32())
}

/// The genesis, the number of patterns, those that fit where they do, the first, the last, and one
/// more.
fn of_generator(generator: u64) -> Vec<Question> {
    let count = reading::fractional::walk(f64::from_bits(generator)).map_or(1, |walk| walk.len());
    let last = u32::try_from(count - 1).expect("at most 65,535 patterns");
    let mut places = vec![0, 1, 2, 3, last / 2, last, last + 1, u32::MAX];
    places.sort_unstable();
    places.dedup();
    let mut questions = vec![
        Question::FractionalGenesis(generator),
        Question::FractionalLen(generator),
        Question::FractionalChildren(generator),
    ];
    questions.extend(
        places
            .into_iter()
            .map(|place| Question::FractionalNth(generator, place)),
    );
    questions
}

/// Every two of the steps, with counts whose sum is at the limit or not.
fn children_of_special() -> Vec<Question> {
    let counts = [[5, 2], [65_534, 1], [1, 65_535], [0, 0], [32_768, 32_768]];
    let mut counts = counts.into_iter().cycle();
    let mut questions = Vec::new();
    for primary_step in special() {
        for secondary_step in special().into_iter().step_by(5) {
            let counts = counts.next().expect("a cycle has no end");
            let steps = [primary_step, secondary_step];
            questions.push(Question::FractionalChild(Bits { counts, steps }));
        }
    }
    questions
}

fn unreadable() -> Vec<Question> {
    [
        "fractional_child",
        "fractional_child 5 2 1070071808 0",
        "fractional_child 5 2 1070071808 0 1067450368",
        "fractional_child 5 2 1070071808 0 1067450368 0 ",
        "fractional_child 5 65536 1070071808 0 1067450368 0",
        "fractional_child 5 2 4294967296 0 1067450368 0",
        "fractional_child 5 2 1070071808 0 1067450368 0 0",
        "fractional_genesis",
        "fractional_genesis 1071906816",
        "fractional_genesis 1071906816 4294967296",
        "fractional_genesis 1071906816 -1",
        "fractional_nth 1071906816 0",
        "fractional_nth 1071906816 0 -1",
        "fractional_nth 1071906816 0 4294967296",
        "fractional_len 1071906816 0 0",
        "fractional_children 1071906816 0 ",
        "fractional 1071906816 0",
        "fractional_childrens 1071906816 0",
    ]
    .map(Question::Unreadable)
    .into()
}

/// The original's child.
pub fn child_text(pattern: Bits) -> Text {
    let child = given(original::child(original::given(pattern)))?;
    Ok(child.map_or_else(none, |child| pattern_text(original::bits(child))))
}

pub fn genesis_text(generator: u64) -> Text {
    walk(generator).map(|walk| pattern_text(walk[0]))
}

pub fn nth_text(generator: u64, place: u32) -> Text {
    let walk = walk(generator)?;
    let found = walk.get(place as usize);
    Ok(found.map_or_else(none, |pattern| pattern_text(*pattern)))
}

pub fn len_text(generator: u64) -> Text {
    walk(generator).map(|walk| walk.len().to_string())
}

/// How many patterns were written, or the refusal, and all that were lent.
pub fn children_text(generator: u64) -> Text {
    let mut lent = [BEFORE; LENT];
    let answer = match walk(generator) {
        Ok(walk) if walk.len() <= LENT => {
            lent[..walk.len()].copy_from_slice(&walk);
            walk.len().to_string()
        }
        Ok(_) => "refused 10".to_owned(),
        Err(Absent::Refused(number)) => format!("refused {number}"),
        Err(overflow) => return Err(overflow),
    };
    let lent = lent.map(|pattern| format!(", {}", pattern_text(pattern)));
    Ok(answer + &lent.concat())
}

/// The original's walk, from a generator that document 02 does not refuse.
fn walk(generator: u64) -> Result<Vec<Bits>, Absent> {
    let generator = f64::from_bits(generator);
    Fractional::genesis(generator)?;
    given(original::walk(generator))
}

fn none() -> String {
    "none".to_owned()
}

/// As the program reads and prints it.
pub fn pattern_text(pattern: Bits) -> String {
    let [primary_step, secondary_step] = pattern.steps.map(double_text);
    format!("{} {primary_step} {secondary_step}", words(pattern.counts))
}

/// The upper and the lower half of the bits.
pub fn double_text(bits: u64) -> String {
    words([bits >> 32, bits & 0xffff_ffff])
}

#[cfg(test)]
mod tests {
    use super::*;
    use crate::answers::answered;

    #[test]
    fn five_eighths() {
        let generator = 0.625_f64.to_bits();
        let (line, genesis) = answered(Question::FractionalGenesis(generator));
        assert_eq!(line, "fractional_genesis 1071906816 0");
        assert_eq!(genesis, "1 1 1071906816 0 1071120384 0\n");
        let (line, last) = answered(Question::FractionalNth(generator, 3));
        assert_eq!(line, "fractional_nth 1071906816 0 3");
        assert_eq!(last, "3 5 1069547520 0 1069547520 0\n");
        assert_eq!(answered(Question::FractionalNth(generator, 4)).1, "none\n");
        assert_eq!(answered(Question::FractionalLen(generator)).1, "4\n");
        let (line, page) = answered(Question::FractionalChildren(generator));
        assert_eq!(line, "fractional_children 1071906816 0");
        let untouched = ", 9 8 1075576832 0 1075314688 0".repeat(4);
        assert!(
            page.starts_with("4, 1 1 1071906816 0 1071120384 0, 1 2 1070596096 0 1071120384 0,")
        );
        assert!(page.ends_with(&format!(", 3 5 1069547520 0 1069547520 0{untouched}\n")));
    }

    #[test]
    fn refusals() {
        let infinity = f64::INFINITY.to_bits();
        let untouched = ", 9 8 1075576832 0 1075314688 0".repeat(8);
        let page = answered(Question::FractionalChildren(infinity)).1;
        assert_eq!(page, format!("refused 22{untouched}\n"));
        let fifth = 1.5_f64.log2().to_bits();
        let page = answered(Question::FractionalChildren(fifth)).1;
        assert_eq!(page, format!("refused 10{untouched}\n"));
        assert_eq!(
            answered(Question::FractionalLen(infinity)).1,
            "refused 22\n"
        );
    }

    #[test]
    fn a_child() {
        let diatonic = Bits {
            counts: [5, 2],
            steps: [0.1875_f64, 0.03125].map(f64::to_bits),
        };
        let (line, child) = answered(Question::FractionalChild(diatonic));
        assert_eq!(line, "fractional_child 5 2 1070071808 0 1067450368 0");
        assert_eq!(child, "5 7 1069809664 0 1067450368 0\n");
    }

    #[test]
    fn a_small_part_of_the_list() {
        assert!(all().len() <= 2_000);
    }
}
