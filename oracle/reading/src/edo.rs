//! W-202: the layouts of an octave that is divided into n equal steps.

use std::ops::RangeInclusive;

use super::Outcome;
use super::Whole;
use super::ask;
use super::chains;
use super::layouts::Layout;
use super::powers::of_three;
use super::powers::of_two;
use super::tables;

/// "For octave divisions n from 1 to 400".
pub const LARGEST_DIVISION: u16 = 400;

/// The codes of the six chains. `find_by_edo` lists them in this order too.
const CODES: RangeInclusive<u16> = 0..=5;

/// One of the layouts of a division.
#[derive(Debug)]
pub struct Listed {
    pub code: u16,
    pub tritave: u16,
    /// Whether the tritave is the second choice.
    pub is_second: bool,
    /// With the chain's own start.
    pub layout: Layout,
}

/// "15 when n is outside 1 to 400, before every other question."
fn ask_division(n: u16) -> Outcome<()> {
    ask(15, (1..=LARGEST_DIVISION).contains(&n))
}

/// The tritave count, and the second choice where there is one.
pub fn tritaves(n: u16) -> Outcome<Vec<u16>> {
    ask_division(n)?;
    let k = tritave(n);
    Ok([k].into_iter().chain(second_choice(n, k)).collect())
}

/// "3 to the power 2n lies between 2 to the power 2k − 1 and 2 to the power 2k + 1." All
/// candidates are tried: k is at least 1, since 3 to the power 2n is above 2, and at most 2n,
/// since 3 is below 4.
fn tritave(n: u16) -> u16 {
    let power = of_three(2 * usize::from(n));
    let fits = |k: &u16| {
        let twice = 2 * usize::from(*k);
        of_two(twice - 1) < power && power < of_two(twice + 1)
    };
    let fitting: Vec<u16> = (1..=2 * n).filter(fits).collect();
    assert_eq!(fitting.len(), 1, "one tritave fits {n} steps");
    fitting[0]
}

/// "The second choice is k + 1 where 3 to the power 3n exceeds 2 to the power 3k + 1, and
/// k − 1 where it is below 2 to the power 3k − 1. Otherwise there is no second choice."
fn second_choice(n: u16, k: u16) -> Option<u16> {
    let power = of_three(3 * usize::from(n));
    let thrice = 3 * usize::from(k);
    if power > of_two(thrice + 1) {
        Some(k + 1)
    } else if power < of_two(thrice - 1) {
        Some(k - 1)
    } else {
        None
    }
}

/// "We want the layouts that `IsomorphicLayout::find_by_edo` lists, in its order of chains."
pub fn layouts(n: u16) -> Outcome<Vec<Listed>> {
    ask_division(n)?;
    let listed = CODES.filter_map(|code| layout_of_chain(n, code).ok());
    Ok(listed.collect())
}

/// One chain's layout. The second choice "serves a chain only where k gives no layout"; where
/// neither gives one, the refusal is the one that k meets.
pub fn layout_of_chain(n: u16, code: u16) -> Outcome<Listed> {
    let tritaves = tritaves(n)?;
    let layout_of = |tritave| Layout::new(code, n, tritave);
    let listed = |(tritave, is_second): (&u16, bool)| {
        Ok(Listed {
            code,
            tritave: *tritave,
            is_second,
            layout: layout_of(*tritave)?,
        })
    };
    let mut choices = tritaves.iter().zip([false, true]).map(listed);
    let first = choices.next().expect("there is a first choice");
    let second = choices.next();
    first.or_else(|number| second.and_then(Outcome::ok).ok_or(number))
}

/// "A report over all 400 prints one line per chain code, rising: the code, then the number of
/// layouts with sharpness above 0, below 0 and at 0, one space between." It is given the code
/// and the sharpness of every layout of every division.
pub fn report_of(layouts: &[(u16, Whole)]) -> String {
    CODES
        .map(|code| {
            let of_chain = layouts.iter().filter(|(of, _)| *of == code);
            let sharpness: Vec<Whole> = of_chain.map(|(_, sharpness)| *sharpness).collect();
            let above = sharpness.iter().filter(|s| **s > 0).count();
            let below = sharpness.iter().filter(|s| **s < 0).count();
            let at = sharpness.iter().filter(|s| **s == 0).count();
            format!("{code} {above} {below} {at}\n")
        })
        .collect()
}

/// The report over what is read here.
pub fn report() -> String {
    let all = (1..=LARGEST_DIVISION).flat_map(|n| layouts(n).expect("n is 1 to 400"));
    let numbers = all.map(|listed| (listed.code, listed.layout.pattern.sharpness()));
    report_of(&numbers.collect::<Vec<_>>())
}

/// What the program `edo` prints for the bytes that it reads: for each layout "chain code,
/// octave, tritave, chain name, scale name, one space between", or a refusal, 14 where the line
/// is no number.
pub fn output(input: &[u8]) -> String {
    match line(input).and_then(lines) {
        Ok(lines) => lines,
        Err(number) => format!("refused {number}\n"),
    }
}

fn lines(n: u16) -> Outcome<String> {
    let lines = layouts(n)?.into_iter().map(|listed| {
        let Listed {
            code,
            tritave,
            layout,
            ..
        } = listed;
        let chain = chains::chain(code).expect("a chain's code");
        format!(
            "{code} {n} {tritave} {} {}\n",
            chain.name,
            layout.scale_name()
        )
    });
    Ok(lines.collect())
}

/// Question 14: a number of 1 to 5 digits, at most 65,535, and a line feed after it.
fn line(input: &[u8]) -> Outcome<u16> {
    let line_feed = input.iter().position(|byte| *byte == b'\n').ok_or(14)?;
    tables::number(&input[..line_feed]).ok_or(14)
}

#[cfg(test)]
mod tests {
    use super::*;

    fn numbers(n: u16) -> Vec<(u16, u16, bool)> {
        let listed = layouts(n).unwrap().into_iter();
        listed
            .map(|listed| (listed.code, listed.tritave, listed.is_second))
            .collect()
    }

    #[test]
    fn the_cases_of_the_request() {
        assert_eq!(tritaves(12), Ok(vec![19]));
        assert_eq!(tritaves(13), Ok(vec![21, 20]));
        assert_eq!(tritaves(16), Ok(vec![25, 26]));
    }

    #[test]
    fn the_smallest_and_the_largest() {
        assert_eq!(tritaves(1), Ok(vec![2, 1]));
        assert_eq!(tritaves(400), Ok(vec![634]));
        for n in [0, 401, 65_535] {
            assert_eq!(tritaves(n), Err(15));
            assert_eq!(layouts(n).err(), Some(15));
        }
    }

    #[test]
    fn the_nearest_whole_number_and_the_next() {
        for n in 1..=400 {
            let octaves = f64::from(n) * 3f64.log2();
            let tritaves = tritaves(n).unwrap();
            assert_eq!(f64::from(tritaves[0]), octaves.round());
            let second = match octaves - octaves.round() {
                error if error > 1.0 / 3.0 => Some(tritaves[0] + 1),
                error if error < -1.0 / 3.0 => Some(tritaves[0] - 1),
                _ => None,
            };
            assert_eq!(tritaves.get(1), second.as_ref());
        }
    }

    #[test]
    fn layouts_in_the_order_of_chains() {
        assert_eq!(numbers(1), []);
        assert_eq!(numbers(12), [(1, 19, false), (2, 19, false)]);
        assert_eq!(
            numbers(13),
            [(0, 20, true), (1, 20, true), (2, 21, false), (4, 21, false)]
        );
        assert_eq!(
            numbers(16),
            [
                (0, 25, false),
                (1, 25, false),
                (2, 25, false),
                (3, 26, true)
            ]
        );
    }

    #[test]
    fn the_second_choice_serves_where_the_first_gives_none() {
        for n in 1..=400 {
            let tritaves = tritaves(n).unwrap();
            for listed in layouts(n).unwrap() {
                let place = usize::from(listed.is_second);
                assert_eq!(listed.tritave, tritaves[place]);
                let first = Layout::new(listed.code, n, tritaves[0]);
                assert_eq!(first.is_err(), listed.is_second);
            }
        }
    }

    #[test]
    fn at_most_five_chains_have_a_layout() {
        let counts = (1..=400).map(|n| layouts(n).unwrap().len());
        assert_eq!(counts.max(), Some(5));
    }

    #[test]
    fn questions_about_one_chain() {
        let refusal = |n, code| layout_of_chain(n, code).err();
        assert_eq!(refusal(401, 6), Some(15));
        assert_eq!(refusal(12, 6), Some(1));
        // Of the first choice: 13 with 21 has a generator that is not whole, with 20 no pattern.
        assert_eq!(refusal(13, 3), Some(3));
        assert_eq!(refusal(12, 0), Some(4));
        assert_eq!(refusal(13, 0), None);
    }

    #[test]
    fn what_the_program_prints() {
        let twelve = "1 12 19 Meantone[7] diatonic\n2 12 19 Meantone[5] pentic\n";
        assert_eq!(output(b"12\n"), twelve);
        assert_eq!(output(b"00012\nmore"), twelve);
        assert_eq!(output(b"1\n"), "");
        for line in ["0\n", "401\n", "65535\n", "00000\n"] {
            assert_eq!(output(line.as_bytes()), "refused 15\n");
        }
        for line in [
            "", "\n", "12", "12 \n", " 12\n", "+12\n", "12\r\n", "x\n", "65536\n", "000012\n",
            "12 19\n",
        ] {
            assert_eq!(output(line.as_bytes()), "refused 14\n", "{line:?}");
        }
    }

    #[test]
    fn counts_by_sign() {
        let counted = report_of(&[(1, 5), (1, -1), (5, 0), (1, 1), (5, -7)]);
        assert_eq!(
            counted,
            "0 0 0 0\n1 2 1 0\n2 0 0 0\n3 0 0 0\n4 0 0 0\n5 0 1 1\n"
        );
        // No layout is left out or counted twice.
        let counts = report();
        let counts = counts.lines().flat_map(|line| line.split(' ').skip(1));
        let sum: usize = counts.map(|count| count.parse::<usize>().unwrap()).sum();
        assert_eq!(sum, (1..=400).map(|n| numbers(n).len()).sum());
    }
}
