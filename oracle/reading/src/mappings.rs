//! W-210: Scala keyboard mappings.

use super::Outcome;
use super::Whole;
use super::ask;
use super::layers;
use super::layers::Kind;
use super::layouts::Layout;

/// "The frequency is 440.000000."
const FREQUENCY: &str = "440.000000";

/// "The unmapped mark, a lower-case letter x."
const MARK: &str = "x";

/// "Size, first and last note, middle note, reference note, frequency, octave degree".
const HEAD: usize = 7;

/// Which of these lines is the frequency's.
const FREQUENCY_LINE: usize = 5;

/// Of each key of the octave, whether "its layer in the first octave is natural".
pub fn natural(layout: &Layout) -> Vec<bool> {
    let total = layout.layer_count();
    let numbers = layout.layers();
    (0..layout.pergen.period as usize)
        .map(|key| layers::kind(numbers[key].into(), total) == Kind::Natural)
        .collect()
}

/// The file in which these keys of an octave are mapped: "each stands on a line of its own,
/// ended by a line feed".
pub fn written(mapped: &[bool]) -> Vec<u8> {
    let octave = mapped.len().to_string();
    let head = [&octave, "0", "127", "60", "69", FREQUENCY, &octave].map(str::to_owned);
    let entries = mapped.iter().enumerate().map(|(key, mapped)| match mapped {
        true => key.to_string(),
        false => MARK.to_owned(),
    });
    let lines: Vec<String> = head.into_iter().chain(entries).collect();
    (lines.join("\n") + "\n").into_bytes()
}

/// The file of a layout, for its natural keys.
pub fn file(layout: &Layout) -> Vec<u8> {
    written(&natural(layout))
}

/// What a line says that may stand in a file.
#[derive(Clone, Copy, Debug, PartialEq, Eq)]
enum Said {
    Number(Whole),
    Frequency,
    Mark,
}

/// The mapped keys of a text, "as a list, rising": all of 19, then all of 20.
pub fn keys(octave: u16, text: &[u8]) -> Outcome<Vec<u16>> {
    let said = said(octave, text)?;
    let steps = Whole::from(octave);
    let head = [steps, 0, 127, 60, 69, 0, steps];
    let due = head.into_iter().chain(0..steps);
    for (said, due) in said.iter().zip(due) {
        ask(20, !matches!(said, Said::Number(number) if *number != due))?;
    }
    let entries = (0..octave).zip(&said[HEAD..]);
    Ok(entries
        .filter(|(_, said)| **said != Said::Mark)
        .map(|(key, _)| key)
        .collect())
}

/// 19: "a line is missing or left over, or is not a number of 1 to 5 digits, the frequency just
/// given in its place, or among the entries the mark".
fn said(octave: u16, text: &[u8]) -> Outcome<Vec<Said>> {
    let mut lines: Vec<&[u8]> = text.split(|byte| *byte == b'\n').collect();
    let behind = lines.pop().expect("a split has a part");
    // "Bytes after the last line feed are a line left over."
    ask(19, behind.is_empty())?;
    // "It skips lines that begin with an exclamation mark."
    lines.retain(|line| !line.starts_with(b"!"));
    ask(19, lines.len() == HEAD + usize::from(octave))?;
    let form = |(place, line): (usize, &&[u8])| form(place, line).ok_or(19);
    lines.iter().enumerate().map(form).collect()
}

/// What a line says, if that may stand at its place.
fn form(place: usize, line: &[u8]) -> Option<Said> {
    if place == FREQUENCY_LINE {
        return (line == FREQUENCY.as_bytes()).then_some(Said::Frequency);
    }
    if place >= HEAD && line == MARK.as_bytes() {
        return Some(Said::Mark);
    }
    let is_number = (1..=5).contains(&line.len()) && line.iter().all(u8::is_ascii_digit);
    is_number.then(|| Said::Number(value(line)))
}

fn value(digits: &[u8]) -> Whole {
    digits
        .iter()
        .fold(0, |value, digit| 10 * value + Whole::from(digit - b'0'))
}

#[cfg(test)]
mod tests {
    use super::*;

    const TWELVE: &str =
        "12\n0\n127\n60\n69\n440.000000\n12\n0\nx\n2\n3\nx\n5\nx\n7\nx\n9\n10\nx\n";

    #[test]
    fn the_twelve_there_and_back() {
        let twelve = Layout::new(1, 12, 19).unwrap();
        assert_eq!(file(&twelve), TWELVE.as_bytes());
        let naturals = vec![0, 2, 3, 5, 7, 9, 10];
        assert_eq!(keys(12, TWELVE.as_bytes()), Ok(naturals));
    }

    #[test]
    fn natural_keys_of_the_first_octave() {
        let equalized = Layout::new(1, 7, 11).unwrap();
        let keys = keys(7, &file(&equalized));
        assert_eq!(keys, Ok(vec![0, 1, 6]));
    }

    /// A file of two keys, one of its lines changed.
    fn with(place: usize, line: &str) -> Outcome<Vec<u16>> {
        let text = String::from_utf8(written(&[true, false])).unwrap();
        let mut lines: Vec<&str> = text.lines().collect();
        lines[place] = line;
        keys(2, (lines.join("\n") + "\n").as_bytes())
    }

    #[test]
    fn lines_that_may_stand_there() {
        assert_eq!(with(0, "00002"), Ok(vec![0]));
        assert_eq!(with(0, "000002"), Err(19));
        assert_eq!(with(0, "3"), Err(20));
        assert_eq!(with(0, "65538"), Err(20));
        assert_eq!(with(0, "x"), Err(19));
        assert_eq!(with(5, "440"), Err(19));
        assert_eq!(with(6, "440.000000"), Err(19));
        assert_eq!(with(7, "x"), Ok(vec![]));
        assert_eq!(with(8, "1"), Ok(vec![0, 1]));
        assert_eq!(with(8, "01\r"), Err(19));
        assert_eq!(with(8, "X"), Err(19));
        assert_eq!(with(8, ""), Err(19));
        assert_eq!(with(8, "0"), Err(20));
    }

    #[test]
    fn lines_that_are_skipped_missing_or_left_over() {
        let read = |text: String| keys(12, text.as_bytes());
        let given = Ok(vec![0, 2, 3, 5, 7, 9, 10]);
        assert_eq!(read(TWELVE.replace("60\n", "!60\n60\n!\n")), given);
        assert_eq!(read(format!("!\n{TWELVE}!x\n")), given);
        assert_eq!(read(format!("{TWELVE}!")), Err(19));
        assert_eq!(read(format!("{TWELVE}\n")), Err(19));
        assert_eq!(read(format!(" !\n{TWELVE}")), Err(19));
        assert_eq!(read(TWELVE.replace("60\n", "")), Err(19));
        assert_eq!(read(TWELVE.trim_end().to_owned()), Err(19));
        assert_eq!(read(String::new()), Err(19));
        // 19 of the last line before 20 of the first.
        assert_eq!(read(TWELVE.replacen("12", "13", 1) + "x\n"), Err(19));
        assert_eq!(read(TWELVE.replacen("12", "13", 1)), Err(20));
    }
}
