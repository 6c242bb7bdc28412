//! Books: writing a layout's, and looking a key up in any bytes.

use super::Outcome;
use super::Whole;
use super::ask;
use super::layouts::Layout;
use super::names;

/// The bytes of a count, an offset or a length, "least first".
const NUMBER: usize = 4;

/// "A count (4 bytes, least first), then per key an offset and a length .., then
/// text."
pub fn book(layout: &Layout) -> Vec<u8> {
    let octave = layout.pergen.period as i32;
    let names: Vec<String> = (0..octave).map(|key| names::name(layout, key)).collect();
    of_names(&names)
}

pub fn of_names(names: &[String]) -> Vec<u8> {
    let mut book = Vec::new();
    put(&mut book, names.len());
    let mut offset = text_starts(names.len() as Whole) as usize;
    for name in names {
        put(&mut book, offset);
        put(&mut book, name.len());
        offset += name.len();
    }
    for name in names {
        book.extend(name.as_bytes());
    }
    book
}

fn put(book: &mut Vec<u8>, number: usize) {
    let number = u32::try_from(number).expect("a book's numbers have 32 bits");
    book.extend(number.to_le_bytes());
}

/// "The first offset is 4 + 8 × count."
pub fn text_starts(count: Whole) -> Whole {
    4 + 8 * count
}

/// Questions 11, 12 and 13 of any bytes, then the key's offset and length. W-201: "a
/// book's keys still begin at 0, and question 13 also refuses a key below 0".
pub fn find(book: &[u8], key: i32) -> Outcome<[u32; 2]> {
    let pairs = pairs(book)?;
    ask(12, cover_the_text(&pairs, book.len() as Whole))?;
    ask(13, key >= 0)?;
    let pair = pairs.get(key as usize).ok_or(13)?;
    Ok(*pair)
}

/// Question 11: "does a book hold its count, at least 1, and that many pairs?"
fn pairs(book: &[u8]) -> Outcome<Vec<[u32; 2]>> {
    ask(11, book.len() >= NUMBER)?;
    let count = Whole::from(number_at(book, 0));
    ask(11, count >= 1)?;
    ask(11, book.len() as Whole >= text_starts(count))?;
    Ok((0..count as usize)
        .map(|key| NUMBER + 2 * NUMBER * key)
        .map(|at| [number_at(book, at), number_at(book, at + NUMBER)])
        .collect())
}

fn number_at(book: &[u8], at: usize) -> u32 {
    let bytes = book[at..at + NUMBER].try_into().expect("four bytes");
    u32::from_le_bytes(bytes)
}

/// Question 12: "the first offset is 4 + 8 × count, each next is the previous end,
/// lengths are at least 1, the last end is the book's end."
fn cover_the_text(pairs: &[[u32; 2]], book_ends: Whole) -> bool {
    let mut end = text_starts(pairs.len() as Whole);
    for pair in pairs {
        let [offset, length] = pair.map(Whole::from);
        if offset != end || length < 1 {
            return false;
        }
        end = offset + length;
    }
    end == book_ends
}

#[cfg(test)]
mod tests {
    use super::*;

    fn twelve() -> Vec<u8> {
        book(&Layout::new(1, 12, 19).unwrap())
    }

    #[test]
    fn a_written_book_gives_its_names() {
        let book = twelve();
        let [offset, length] = find(&book, 1).unwrap().map(|number| number as usize);
        assert_eq!(&book[offset..offset + length], b"D#/Eb");
        assert_eq!(find(&book, 0), Ok([100, 1]));
    }

    #[test]
    fn refusals() {
        let book = twelve();
        for key in [i32::MIN, -12, -1, 12, i32::MAX] {
            assert_eq!(find(&book, key), Err(13));
        }
        for key in [-1, 12] {
            assert_eq!(find(&book[..book.len() - 1], key), Err(12));
            assert_eq!(find(&book[..99], key), Err(11));
        }
        assert_eq!(find(&[0; 4], 0), Err(11));
        assert_eq!(find(&[], 0), Err(11));
    }

    #[test]
    fn a_sum_beyond_32_bits_is_no_end() {
        let mut book = vec![2, 0, 0, 0];
        for number in [20u32, u32::MAX, 19, 1] {
            book.extend(number.to_le_bytes());
        }
        assert_eq!(find(&book, 0), Err(12));
    }
}
