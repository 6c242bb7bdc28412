//! Ours: stands for the original's module `parse`, of which pitch.rs uses one
//! function. It serves the reading of ratios from text. Layouts never reach it.

/// Splits `text` at each `separator` that stands outside parentheses.
pub fn split_balanced(text: &str, separator: char) -> Vec<&str> {
    let mut depth = 0;
    text.split(|letter| {
        match letter {
            '(' => depth += 1,
            ')' => depth -= 1,
            _ => {}
        }
        depth == 0 && letter == separator
    })
    .collect()
}

#[cfg(test)]
mod tests {
    use super::split_balanced;

    #[test]
    fn separators_within_parentheses_do_not_split() {
        assert_eq!(split_balanced("(1/2)/3", '/'), ["(1/2)", "3"]);
        assert_eq!(split_balanced("702c", 'c'), ["702", ""]);
        assert_eq!(split_balanced("1.5", '/'), ["1.5"]);
    }
}
