//! The key table program: what it prints for the bytes that it reads.

use super::LARGEST;
use super::Outcome;
use super::Whole;
use super::ask;
use super::layouts::Layout;
use super::names;

/// The largest octave that the program takes.
const LARGEST_OCTAVE: u16 = 4096;

/// "A line per key from 0 to octave − 1: number, name, lamp code", of 16 bits (W-207), one
/// octave even where the strip has two (W-204); "a refusal prints only `refused`, a space and the number,
/// and a line feed".
pub fn output(input: &[u8]) -> String {
    match table(input) {
        Ok(lines) => lines,
        Err(number) => format!("refused {number}\n"),
    }
}

fn table(input: &[u8]) -> Outcome<String> {
    let [code, octave, tritave] = line(input)?;
    let layout = Layout::new(code, octave, tritave)?;
    Ok((0..octave)
        .zip(layout.strip())
        .map(|(key, lamp)| format!("{key} {} {lamp}\n", names::name(&layout, key.into())))
        .collect())
}

/// Question 14: chain code, octave and tritave.
pub fn line(input: &[u8]) -> Outcome<[u16; 3]> {
    let [code, octave, tritave] = numbers(input).ok_or(14)?;
    ask(14, octave <= LARGEST_OCTAVE)?;
    Ok([code, octave, tritave])
}

/// "Three decimal numbers .. of 1 to 5 digits, each at most 65,535, one space
/// between and a line feed after." Bytes after the line are ignored.
fn numbers(input: &[u8]) -> Option<[u16; 3]> {
    let line_feed = input.iter().position(|byte| *byte == b'\n')?;
    let words: Vec<&[u8]> = input[..line_feed].split(|byte| *byte == b' ').collect();
    let [code, octave, tritave] = words[..] else {
        return None;
    };
    Some([number(code)?, number(octave)?, number(tritave)?])
}

pub(crate) fn number(word: &[u8]) -> Option<u16> {
    let digits = (1..=5).contains(&word.len()) && word.iter().all(u8::is_ascii_digit);
    if !digits {
        return None;
    }
    let value = word.iter().fold(0, |value: Whole, digit| {
        10 * value + Whole::from(digit - b'0')
    });
    (value <= LARGEST).then_some(value as u16)
}

#[cfg(test)]
mod tests {
    use super::*;

    #[test]
    fn the_table_of_document_01_with_the_new_codes() {
        let table = "0 D 0\n1 D#/Eb 65535\n2 E 1\n3 F 1\n4 F#/Gb 65535\n5 G 1\n6 G#/Ab 65535\n\
                     7 A 1\n8 A#/Bb 65535\n9 B 1\n10 C 1\n11 C#/Db 65535\n";
        assert_eq!(output(b"1 12 19\n"), table);
        assert_eq!(output(b"00001 012 0019\nmore"), table);
    }

    #[test]
    fn one_octave_of_an_equalized_scale() {
        let table = "0 D 0\n1 E 1\n2 F 65535\n3 G 65535\n4 A 65535\n5 B 65535\n6 C 1\n";
        assert_eq!(output(b"1 7 11\n"), table);
    }

    #[test]
    fn many_cycles() {
        let table = output(b"1 2400 3800\n");
        assert_eq!(table.lines().count(), 2400);
        assert!(table.starts_with("0 D 0\n1 D* 2\n2 D** 4\n"));
        assert!(table.contains("\n200 (D#/Eb) 65535\n201 (D#/Eb)* 399\n"));
    }

    #[test]
    fn refusals() {
        for line in [
            "",
            "1 12 19",
            "1 12 19\r\n",
            "1  12 19\n",
            " 1 12 19\n",
            "1 12 19 \n",
            "+1 12 19\n",
            "1 4097 19\n",
            "1 12 65536\n",
            "1 12 000019\n",
            "1 12\n",
            "1 12 19 3\n",
            "\n1 12 19\n",
            "1 -12 19\n",
            "1\t12 19\n",
        ] {
            assert_eq!(output(line.as_bytes()), "refused 14\n", "{line:?}");
        }
        assert_eq!(line(b"00001 04096 65535\n"), Ok([1, 4096, 65_535]));
        assert_eq!(output(b"6 0 0\n"), "refused 1\n");
    }
}
