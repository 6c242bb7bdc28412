//! Answers in plain words with one space between. What is absent is `-`.

use std::fmt::Display;

use tune::pergen::Mos;

use crate::patterns;
use crate::spelling::Accidentals;

pub fn words<T: Display>(values: impl IntoIterator<Item = T>) -> String {
    let words: Vec<String> = values.into_iter().map(|value| value.to_string()).collect();
    if words.is_empty() {
        "-".to_owned()
    } else {
        words.join(" ")
    }
}

/// The four numbers of a pattern.
pub fn pattern(mos: Mos) -> String {
    words(patterns::numbers(mos))
}

pub fn pattern_or_none(mos: Option<Mos>) -> String {
    mos.map_or_else(|| "none".to_owned(), pattern)
}

/// Sharp index and count, flat index and count, cycle.
pub fn spelling(spelt: Accidentals) -> String {
    format!(
        "{} {} {} {} {}",
        spelt.sharp_index,
        spelt.sharp_count,
        spelt.flat_index,
        spelt.flat_count,
        words(spelt.cycle)
    )
}
