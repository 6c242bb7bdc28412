//! The text of a key's name, the spellings in it, and the key that a spelling sounds.

use super::Outcome;
use super::Whole;
use super::ask;
use super::layouts::Layout;
use super::pergens::Spellings;

/// A letter by its index, signs (as many sharps as a number above 0, as many flats
/// as one below), and stars.
#[derive(Clone, Copy, Debug, PartialEq, Eq)]
pub struct Spelling {
    pub letter: Whole,
    pub signs: Whole,
    pub stars: Whole,
}

/// The spellings in a key's name, the sharp one first.
pub fn printed(layout: &Layout, key: i32) -> Vec<Spelling> {
    let spelt = layout.spellings(key);
    let stars = layout.pergen.cycle(key.into()).unwrap_or(0);
    let sharp = Spelling {
        letter: spelt.sharp_index,
        signs: spelt.sharp_count,
        stars,
    };
    let flat = Spelling {
        letter: spelt.flat_index,
        signs: -spelt.flat_count,
        stars,
    };
    match chosen(spelt) {
        Chosen::Sharp => vec![sharp],
        Chosen::Flat => vec![flat],
        Chosen::Both => vec![sharp, flat],
    }
}

enum Chosen {
    Sharp,
    Flat,
    Both,
}

/// "Both counts 0 and equal indices give the letter. Otherwise the spelling with
/// fewer signs; equal counts give both."
fn chosen(spelt: Spellings) -> Chosen {
    let natural =
        spelt.sharp_count == 0 && spelt.flat_count == 0 && spelt.sharp_index == spelt.flat_index;
    if natural || spelt.sharp_count < spelt.flat_count {
        Chosen::Sharp
    } else if spelt.flat_count < spelt.sharp_count {
        Chosen::Flat
    } else {
        Chosen::Both
    }
}

/// A key's name.
pub fn name(layout: &Layout, key: i32) -> String {
    let written = printed(layout, key);
    let cycle = layout.pergen.cycle(key.into());
    let text = match written[..] {
        [sharp, flat] => both(layout, sharp, flat, cycle.is_some()),
        _ => letter_and_signs(layout, written[0]),
    };
    text + &"*".repeat(cycle.unwrap_or(0) as usize)
}

/// "Both with / between, in parentheses if a cycle is present"; "sharp first" or
/// "flat first".
fn both(layout: &Layout, sharp: Spelling, flat: Spelling, parentheses: bool) -> String {
    let (first, second) = match style(layout) {
        Style::SharpFirst => (sharp, flat),
        Style::FlatFirst => (flat, sharp),
    };
    let text = letter_and_signs(layout, first) + "/" + &letter_and_signs(layout, second);
    if parentheses {
        format!("({text})")
    } else {
        text
    }
}

/// A letter with its signs, without stars.
pub fn letter_and_signs(layout: &Layout, spelling: Spelling) -> String {
    let (sharp, flat) = signs(layout);
    let letter = layout.chain.letters[spelling.letter as usize].to_owned();
    let sign = if spelling.signs > 0 { sharp } else { flat };
    letter + &sign.repeat(spelling.signs.unsigned_abs() as usize)
}

/// What is written for a sharp and for a flat.
pub fn signs(layout: &Layout) -> (&'static str, &'static str) {
    match style(layout) {
        Style::SharpFirst => ("#", "b"),
        Style::FlatFirst => ("-", "+"),
    }
}

enum Style {
    SharpFirst,
    FlatFirst,
}

/// "If the primary step is at least the secondary, signs are # and b, sharp first;
/// else - for sharp and + for flat, flat first."
fn style(layout: &Layout) -> Style {
    if layout.pattern.primary_step >= layout.pattern.secondary_step {
        Style::SharpFirst
    } else {
        Style::FlatFirst
    }
}

/// The key of the octave that a spelling sounds: "index + N × sharps − origin, or
/// index − N × flats − origin". Document 02 numbers what is no spelling: 16 "when
/// the letter's place is not below the number of letters", 21 "when the stars are
/// not below" the cycles, "after 16".
pub fn sounded(layout: &Layout, spelling: Spelling) -> Outcome<Whole> {
    let n = layout.chain.count();
    ask(16, spelling.letter < n)?;
    ask(21, spelling.stars < layout.pergen.cycles)?;
    let place = place(layout, spelling);
    Ok(layout.pergen.sounded(place, spelling.stars))
}

/// Where a spelling stands on the chain, counted from the letter of key 0.
pub fn place(layout: &Layout, spelling: Spelling) -> Whole {
    spelling.letter + layout.chain.count() * spelling.signs - layout.start
}

#[cfg(test)]
mod tests {
    use super::*;

    fn names(code: u16, octave: u16, tritave: u16, keys: std::ops::Range<i32>) -> Vec<String> {
        let layout = Layout::new(code, octave, tritave).unwrap();
        keys.map(|key| name(&layout, key)).collect()
    }

    #[test]
    fn parentheses_stand_at_cycle_0_too() {
        assert_eq!(names(1, 24, 38, 1..4), ["D*", "(D#/Eb)", "(D#/Eb)*"]);
    }

    #[test]
    fn the_twelve_names() {
        let expected = "D D#/Eb E F F#/Gb G G#/Ab A A#/Bb B C C#/Db";
        assert_eq!(names(1, 12, 19, 0..12).join(" "), expected);
    }

    #[test]
    fn names_of_keys_below_0() {
        assert_eq!(names(1, 12, 19, -2..0), ["C", "C#/Db"]);
        assert_eq!(names(1, 24, 38, -1..1), ["(C#/Db)*", "D"]);
        assert_eq!(names(1, 12, 19, -12..0), names(1, 12, 19, 0..12));
    }

    #[test]
    fn the_twelve_from_c() {
        let layout = Layout::beginning(1, 12, 19, 1).unwrap();
        let names: Vec<String> = (-1..12).map(|key| name(&layout, key)).collect();
        let expected = "B C C#/Db D D#/Eb E F F#/Gb G G#/Ab A A#/Bb B";
        assert_eq!(names.join(" "), expected);
    }

    #[test]
    fn flats_come_first_where_the_primary_step_is_shorter() {
        assert_eq!(names(2, 7, 8, 3..4), ["A+/C-"]);
    }

    #[test]
    fn both_spellings_of_a_name_sound_its_key() {
        for start in 0..7 {
            let layout = Layout::beginning(1, 24, 38, start).unwrap();
            for key in -48..48 {
                for spelling in printed(&layout, key) {
                    let sounded = sounded(&layout, spelling);
                    assert_eq!(sounded, Ok(Whole::from(key).rem_euclid(24)));
                }
            }
        }
    }

    #[test]
    fn the_letter_is_asked_about_before_the_stars() {
        let layout = Layout::new(1, 24, 38).unwrap();
        let sounded = |letter, signs, stars| {
            let spelling = Spelling {
                letter,
                signs,
                stars,
            };
            sounded(&layout, spelling)
        };
        assert_eq!(sounded(3, 1, 1), Ok(3));
        assert_eq!(sounded(5, -1, 1), Ok(3));
        assert_eq!(sounded(6, 0, 2), Err(21));
        assert_eq!(sounded(7, 0, 1), Err(16));
        assert_eq!(sounded(7, 0, 2), Err(16));
    }
}
