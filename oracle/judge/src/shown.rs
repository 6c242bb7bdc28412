//! Values in reports, cut where they are long: a book may have 300 million bytes.

use std::fmt;
use std::fmt::Debug;
use std::fmt::Write;

/// At most so many bytes of a value are shown.
const SHOWN: usize = 240;

/// The beginning of a value's text.
pub fn shown(value: &impl Debug) -> String {
    let mut beginning = Beginning(String::new());
    match write!(beginning, "{value:?}") {
        Ok(()) => beginning.0,
        Err(fmt::Error) => beginning.0 + " ..",
    }
}

/// Takes text until it is full, and then stops whoever writes.
struct Beginning(String);

impl Write for Beginning {
    fn write_str(&mut self, text: &str) -> fmt::Result {
        if self.0.len() + text.len() > SHOWN {
            return Err(fmt::Error);
        }
        self.0.push_str(text);
        Ok(())
    }
}

#[cfg(test)]
mod tests {
    use super::*;

    #[test]
    fn long_values_are_cut() {
        assert_eq!(shown(&[1, 2]), "[1, 2]");
        let long = shown(&vec![7; 1_000_000]);
        assert!(long.starts_with("[7, 7,") && long.ends_with(" .."));
        assert!(long.len() <= SHOWN + 3);
    }
}
