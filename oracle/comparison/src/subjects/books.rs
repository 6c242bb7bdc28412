//! Looking keys up in books, which may be any bytes.

use judge::asking;
use reading::books;

use crate::question::Call;
use crate::question::Question;
use crate::raw;
use crate::tally::Tally;
use crate::tally::outcome;

/// A lookup writes an offset and a length.
const PAIR: usize = 2;

/// Looks a key up, and compares the part of the book that the Rust package makes
/// of offset and length; a part that is none would make it panic.
pub fn find(tally: &mut Tally, book: &[u8], key: i32) {
    let arguments: Vec<i64> = std::iter::once(key.into())
        .chain(book.iter().map(|byte| i64::from(*byte)))
        .collect();
    let question = Question {
        call: Call::BookFind,
        arguments: &arguments,
    };
    let reading = books::find(book, key);
    let part = reading.map(|[offset, length]| &book[offset as usize..][..length as usize]);
    let packaged = asking::ask(|| outcome(vetchnoon::book_find(book, key)));
    if packaged != Ok(part) {
        return tally.unexplained(question, || {
            format!("the Rust package finds {packaged:?}, the reading {part:?}")
        });
    }
    let reading = reading.map(|pair| pair.to_vec());
    let call = |out: &mut [u32]| raw::book_find(book, key, out);
    tally.compare_filling_after_room(question, PAIR, reading, call);
}

/// Every key of a book, some on both sides, and the ends of 32 signed bits.
pub fn find_all(tally: &mut Tally, book: &[u8], keys: u16) {
    let keys = i32::from(keys);
    for key in -2..keys + 2 {
        find(tally, book, key);
    }
    for key in [-keys, i32::MIN, i32::MAX] {
        find(tally, book, key);
    }
}
