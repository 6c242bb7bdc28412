//! Typed names: the spelling that a text is, the key that it names, and what two typed
//! spellings have to do with each other.
//!
//! No text is taken apart letter by letter. The spellings that it could be are written, as names
//! are written, and held against it.

use super::Outcome;
use super::Whole;
use super::ask;
use super::layouts::Layout;
use super::names;
use super::names::Spelling;

/// A spelling has fewer signs than this.
const SIGNS_HELD: Whole = 1 << 32;

/// "A letter of the chain, then sharps or flats in the layout's own signs, then stars": 23, then
/// 21, the stars below the cycles.
pub fn spelling(layout: &Layout, text: &[u8]) -> Outcome<Spelling> {
    let typed = typed(layout, text)?;
    ask(21, typed.stars < layout.pergen.cycles)?;
    Ok(typed)
}

/// 23: is the text a spelling's? It is that of the one spelling which is written so.
fn typed(layout: &Layout, text: &[u8]) -> Outcome<Spelling> {
    let stars = count(text, "*");
    let all = with_signs_of(layout, text).map(|spelling| Spelling { stars, ..spelling });
    let mut so_written = all.filter(|spelling| {
        let written = names::letter_and_signs(layout, *spelling) + &asterisks(stars);
        written.as_bytes() == text
    });
    let spelling = so_written.next().ok_or(23)?;
    ask(23, spelling.signs.abs() < SIGNS_HELD)?;
    Ok(spelling)
}

/// Each letter, with as many sharps as signs for a sharp stand anywhere in a text, and with as
/// many flats.
fn with_signs_of(layout: &Layout, text: &[u8]) -> impl Iterator<Item = Spelling> {
    let (sharp, flat) = names::signs(layout);
    let signs = [count(text, sharp), -count(text, flat)];
    (0..layout.chain.count()).flat_map(move |letter| {
        signs.map(|signs| Spelling {
            letter,
            signs,
            stars: 0,
        })
    })
}

/// How often a sign of one byte stands in a text.
fn count(text: &[u8], sign: &str) -> Whole {
    let of_it = |byte: &&u8| sign.as_bytes() == [**byte];
    text.iter().filter(of_it).count() as Whole
}

fn asterisks(count: Whole) -> String {
    "*".repeat(count as usize)
}

/// The key of the octave that a text names: "a text with a / is two spellings, any other one".
pub fn key(layout: &Layout, text: &[u8]) -> Outcome<Whole> {
    match text.iter().position(|byte| *byte == b'/') {
        Some(slash) => key_of_both(layout, text, slash),
        None => names::sounded(layout, spelling(layout, text)?),
    }
}

/// 23, of both spellings "as the naming call writes them"; 21; then 24, "do both spellings sound
/// one key?", in either order.
fn key_of_both(layout: &Layout, text: &[u8], slash: usize) -> Outcome<Whole> {
    let stars = count(text, "*");
    let [first, second] = both(layout, text, slash).ok_or(23)?;
    ask(21, stars < layout.pergen.cycles)?;
    let sounded = |spelling| names::sounded(layout, Spelling { stars, ..spelling });
    let key = sounded(first)?;
    ask(24, key == sounded(second)?)?;
    Ok(key)
}

/// The two spellings of which a text is written: "in parentheses if a cycle is present", with
/// the stars behind; without cycles there are neither.
fn both(layout: &Layout, text: &[u8], slash: usize) -> Option<[Spelling; 2]> {
    let (open, close) = match layout.pergen.cycles {
        1 => ("", String::new()),
        _ => ("(", ")".to_owned() + &asterisks(count(text, "*"))),
    };
    let before = with_signs_of(layout, &text[..slash]).map(|first| {
        let letter_and_signs = names::letter_and_signs(layout, first);
        (first, format!("{open}{letter_and_signs}"))
    });
    let behind = with_signs_of(layout, &text[slash + 1..]).map(|second| {
        let letter_and_signs = names::letter_and_signs(layout, second);
        (second, format!("{letter_and_signs}{close}"))
    });
    let (first, before) = before
        .filter(|(_, before)| text.starts_with(before.as_bytes()))
        .max_by_key(|(_, before)| before.len())?;
    let (second, behind) = behind
        .filter(|(_, behind)| text.ends_with(behind.as_bytes()))
        .max_by_key(|(_, behind)| behind.len())?;
    let fewer_than_held = |spelling: Spelling| spelling.signs.abs() < SIGNS_HELD;
    let whole = format!("{before}/{behind}");
    (whole.as_bytes() == text && fewer_than_held(first) && fewer_than_held(second))
        .then_some([first, second])
}

/// What two spellings are to each other.
#[derive(Clone, Copy, Debug, PartialEq, Eq)]
pub enum Verdict {
    OneKey,
    TwoOnOneChain,
    TwoOnDifferentChains,
}

/// What is to be said of two typed spellings.
#[derive(Clone, Copy, Debug, PartialEq, Eq)]
pub struct Explanation {
    pub places: [Whole; 2],
    pub stars: [Whole; 2],
    pub keys: [Whole; 2],
    /// How far the places are apart.
    pub apart: Whole,
    /// The reduced period.
    pub reduced: Whole,
    pub verdict: Verdict,
}

impl Explanation {
    /// The nine numbers, in this order, as C has them.
    pub fn numbers(&self) -> [Whole; 9] {
        let [place, other_place] = self.places;
        let [stars, other_stars] = self.stars;
        let [key, other_key] = self.keys;
        [
            place,
            other_place,
            stars,
            other_stars,
            key,
            other_key,
            self.apart,
            self.reduced,
            self.verdict as Whole,
        ]
    }
}

/// "23 of the first text, 23 of the second, 21 of the first, 21 of the second." Two spellings
/// are one key where they sound one; else the stars tell the chain.
pub fn explanation(layout: &Layout, first: &[u8], second: &[u8]) -> Outcome<Explanation> {
    let both = [typed(layout, first)?, typed(layout, second)?];
    let [key, other] = both.map(|spelling| names::sounded(layout, spelling));
    let keys = [key?, other?];
    let places = both.map(|spelling| names::place(layout, spelling));
    let stars = both.map(|spelling| spelling.stars);
    let verdict = if keys[0] == keys[1] {
        Verdict::OneKey
    } else if stars[0] == stars[1] {
        Verdict::TwoOnOneChain
    } else {
        Verdict::TwoOnDifferentChains
    };
    Ok(Explanation {
        places,
        stars,
        keys,
        apart: (places[0] - places[1]).abs(),
        reduced: layout.pergen.reduced,
        verdict,
    })
}

/// The explanation in three sentences for a pupil, each ended by a line feed.
pub fn text(layout: &Layout, first: &[u8], second: &[u8]) -> Outcome<String> {
    let explained = explanation(layout, first, second)?;
    let sentences = [(first, 0), (second, 1)].map(|(typed, which)| {
        let name = str::from_utf8(typed).expect("letters and signs");
        let place = explained.places[which];
        let stars = explained.stars[which];
        format!(
            "{name} stands {}: {}key {} of {}.\n",
            whereabouts(layout, place, stars),
            reckoned(layout, place, stars),
            explained.keys[which],
            layout.pergen.period,
        )
    });
    Ok(sentences.concat() + &compared(&explained) + "\n")
}

/// "4 places up the chain from D", or "where counting begins"; then ", with 1 star".
fn whereabouts(layout: &Layout, place: Whole, stars: Whole) -> String {
    let begin = layout.chain.letters[layout.start as usize];
    let standing = match place {
        0 => "where counting begins".to_owned(),
        _ => format!(
            "{} {} the chain from {begin}",
            several(place.abs(), "place"),
            way(place)
        ),
    };
    match stars {
        0 => standing,
        _ => format!("{standing}, with {}", several(stars, "star")),
    }
}

/// "4 × 7 keys up and 1 up are ", unless there is no place to count.
fn reckoned(layout: &Layout, place: Whole, stars: Whole) -> String {
    let more = match stars {
        0 => String::new(),
        _ => format!(" and {stars} up"),
    };
    match place {
        0 => String::new(),
        _ => {
            let generator = layout.pergen.generator;
            format!(
                "{} × {generator} keys {}{more} are ",
                place.abs(),
                way(place)
            )
        }
    }
}

/// What the two are to each other.
fn compared(explained: &Explanation) -> String {
    let Explanation { apart, reduced, .. } = *explained;
    let between = format!("They are {} apart, ", several(apart, "place"));
    match explained.verdict {
        Verdict::TwoOnDifferentChains => {
            "Their stars differ, so they stand on different chains: two keys.".to_owned()
        }
        Verdict::TwoOnOneChain => {
            format!("{between}and the chain comes round after {reduced}: two keys.")
        }
        Verdict::OneKey => match apart / reduced {
            0 => "They stand at one place: one key.".to_owned(),
            1 => format!("{between}and the chain comes round after {reduced}: one key."),
            times => format!(
                "{between}{times} times the {reduced} after which the chain comes round: one key."
            ),
        },
    }
}

/// Sharps are up the chain.
fn way(place: Whole) -> &'static str {
    if place > 0 { "up" } else { "down" }
}

/// "1 place", "2 places".
fn several(count: Whole, what: &str) -> String {
    match count {
        1 => format!("1 {what}"),
        _ => format!("{count} {what}s"),
    }
}

#[cfg(test)]
mod tests {
    use super::*;

    fn layout(code: u16, octave: u16, tritave: u16) -> Layout {
        Layout::new(code, octave, tritave).unwrap()
    }

    /// Letter, signs and stars.
    fn read(layout: &Layout, text: &str) -> Outcome<[Whole; 3]> {
        let spelling = spelling(layout, text.as_bytes())?;
        Ok([spelling.letter, spelling.signs, spelling.stars])
    }

    fn found(layout: &Layout, text: &str) -> Outcome<Whole> {
        key(layout, text.as_bytes())
    }

    #[test]
    fn a_letter_then_signs_of_one_kind_then_stars() {
        let twelve = layout(1, 12, 19);
        assert_eq!(read(&twelve, "D"), Ok([3, 0, 0]));
        assert_eq!(read(&twelve, "D##"), Ok([3, 2, 0]));
        assert_eq!(read(&twelve, "Bbbb"), Ok([6, -3, 0]));
        for none in [
            "", "d", "H", "#", "DD", "D#b", "Db#", "bD", "D-", "D+", " D", "D ", "D\0",
        ] {
            assert_eq!(read(&twelve, none), Err(23), "{none}");
        }
        // Of what is one, its stars are asked about.
        assert_eq!(read(&twelve, "D*"), Err(21));
        assert_eq!(read(&twelve, "D*#"), Err(23));

        let quarter_tones = layout(1, 24, 38);
        assert_eq!(read(&quarter_tones, "Eb*"), Ok([5, -1, 1]));
        assert_eq!(read(&quarter_tones, "Eb**"), Err(21));
        assert_eq!(read(&quarter_tones, "E*b"), Err(23));
    }

    #[test]
    fn letters_of_two_bytes_and_other_signs() {
        // β F C G D A E B φ
        let mavila = layout(0, 16, 25);
        assert_eq!(read(&mavila, "φ"), Ok([8, 0, 0]));
        assert_eq!(spelling(&mavila, &"β".as_bytes()[..1]).err(), Some(23));
        // C G D A E, where a sharp lowers.
        let pentic = layout(2, 12, 19);
        assert_eq!(read(&pentic, "A++"), Ok([3, -2, 0]));
        assert_eq!(read(&pentic, "A-"), Ok([3, 1, 0]));
        assert_eq!(read(&pentic, "A#"), Err(23));
    }

    #[test]
    fn every_name_leads_back() {
        for (code, octave, tritave) in [
            (1, 12, 19),
            (1, 24, 38),
            (2, 7, 8),
            (0, 16, 25),
            (5, 19, 30),
        ] {
            let layout = layout(code, octave, tritave);
            for key in 0..octave {
                let name = names::name(&layout, key.into());
                assert_eq!(found(&layout, &name), Ok(key.into()), "{name}");
            }
        }
    }

    #[test]
    fn two_spellings_of_one_key() {
        let twelve = layout(1, 12, 19);
        assert_eq!(found(&twelve, "Eb/D#"), Ok(1));
        assert_eq!(found(&twelve, "D/D"), Ok(0));
        assert_eq!(found(&twelve, "D#/E"), Err(24));
        for none in [
            "/", "D/", "/D", "D/E/F", "(D#/Eb)", "D#/Eb*", "D#*/Eb*", "D#/ Eb",
        ] {
            assert_eq!(found(&twelve, none), Err(23), "{none}");
        }
    }

    #[test]
    fn parentheses_and_stars_where_there_are_cycles() {
        let quarter_tones = layout(1, 24, 38);
        assert_eq!(found(&quarter_tones, "(Eb/D#)*"), Ok(3));
        assert_eq!(found(&quarter_tones, "(Eb/D#)"), Ok(2));
        assert_eq!(found(&quarter_tones, "Eb*"), Ok(3));
        assert_eq!(found(&quarter_tones, "(Eb/D#)**"), Err(21));
        assert_eq!(found(&quarter_tones, "(E/D#)**"), Err(21));
        assert_eq!(found(&quarter_tones, "(E/D#)*"), Err(24));
        for none in [
            "Eb/D#",
            "(Eb/D#",
            "Eb/D#)",
            "(Eb)",
            "(Eb/D#)*)",
            "((Eb/D#))",
            "(Eb*/D#)*",
            "(Eb/D#)*#",
        ] {
            assert_eq!(found(&quarter_tones, none), Err(23), "{none}");
        }
    }

    fn explained(layout: &Layout, first: &str, second: &str) -> Outcome<[Whole; 9]> {
        let explanation = explanation(layout, first.as_bytes(), second.as_bytes())?;
        Ok(explanation.numbers())
    }

    #[test]
    fn explanations() {
        let twelve = layout(1, 12, 19);
        assert_eq!(
            explained(&twelve, "D#", "Eb"),
            Ok([7, -5, 0, 0, 1, 1, 12, 12, 0])
        );
        assert_eq!(
            explained(&twelve, "D", "E"),
            Ok([0, 2, 0, 0, 0, 2, 2, 12, 1])
        );
        let quarter_tones = layout(1, 24, 38);
        let one_chain = explained(&quarter_tones, "D*", "A*");
        assert_eq!(one_chain, Ok([0, 1, 1, 1, 1, 15, 1, 12, 1]));
        let two_chains = explained(&quarter_tones, "D", "D*");
        assert_eq!(two_chains, Ok([0, 0, 0, 1, 0, 1, 0, 12, 2]));
    }

    fn told(layout: &Layout, first: &str, second: &str) -> String {
        text(layout, first.as_bytes(), second.as_bytes()).unwrap()
    }

    #[test]
    fn sentences_for_a_pupil() {
        let twelve = layout(1, 12, 19);
        assert_eq!(
            told(&twelve, "F#", "Gb"),
            "F# stands 4 places up the chain from D: 4 × 7 keys up are key 4 of 12.\n\
             Gb stands 8 places down the chain from D: 8 × 7 keys down are key 4 of 12.\n\
             They are 12 places apart, and the chain comes round after 12: one key.\n"
        );
        assert_eq!(
            told(&twelve, "D", "A"),
            "D stands where counting begins: key 0 of 12.\n\
             A stands 1 place up the chain from D: 1 × 7 keys up are key 7 of 12.\n\
             They are 1 place apart, and the chain comes round after 12: two keys.\n"
        );
        let last = |first, second| {
            told(&twelve, first, second)
                .lines()
                .last()
                .unwrap()
                .to_owned()
        };
        assert_eq!(last("Eb", "Eb"), "They stand at one place: one key.");
        assert_eq!(
            last("Fbb", "D#"),
            "They are 24 places apart, 2 times the 12 after which the chain comes round: one key."
        );
    }

    #[test]
    fn stars_in_sentences() {
        assert_eq!(
            told(&layout(1, 24, 38), "Eb*", "D*"),
            "Eb* stands 5 places down the chain from D, with 1 star: \
             5 × 14 keys down and 1 up are key 3 of 24.\n\
             D* stands where counting begins, with 1 star: key 1 of 24.\n\
             They are 5 places apart, and the chain comes round after 12: two keys.\n"
        );
        assert_eq!(
            told(&layout(1, 36, 57), "A", "A**")
                .lines()
                .skip(1)
                .collect::<Vec<_>>(),
            [
                "A** stands 1 place up the chain from D, with 2 stars: \
                 1 × 21 keys up and 2 up are key 23 of 36.",
                "Their stars differ, so they stand on different chains: two keys."
            ]
        );
    }

    #[test]
    fn texts_are_asked_about_before_stars() {
        let quarter_tones = layout(1, 24, 38);
        assert_eq!(explained(&quarter_tones, "D**", "d"), Err(23));
        assert_eq!(explained(&quarter_tones, "d", "D**"), Err(23));
        assert_eq!(explained(&quarter_tones, "D", "D**"), Err(21));
    }

    /// "One key (stars agree, places a multiple of the reduced period apart), two on one chain
    /// (stars agree), two on different chains."
    #[test]
    fn verdicts_by_stars_and_places() {
        for (code, octave, tritave) in [(1, 12, 19), (1, 24, 38), (2, 7, 8), (1, 7, 11)] {
            let layout = layout(code, octave, tritave);
            let (sharp, flat) = names::signs(&layout);
            let mut texts = Vec::new();
            for letter in layout.chain.letters {
                for signs in [String::new(), sharp.repeat(2), flat.repeat(3)] {
                    for stars in 0..layout.pergen.cycles {
                        texts.push(format!("{letter}{signs}{}", asterisks(stars)));
                    }
                }
            }
            for first in &texts {
                for second in &texts {
                    let [p, q, s, t, .., apart, reduced, verdict] =
                        explained(&layout, first, second).unwrap();
                    assert_eq!(apart, p.abs_diff(q) as Whole);
                    let expected = match (s == t, apart % reduced == 0) {
                        (true, true) => 0,
                        (true, false) => 1,
                        (false, _) => 2,
                    };
                    assert_eq!(verdict, expected, "{first} {second}");
                }
            }
        }
    }
}
