//! Books that were damaged, and bytes that never were a book.

use reading::books;
use reading::layouts::Layout;

use super::Mode;
use super::Task;
use crate::randoms::Randoms;
use crate::subjects::books as subject;
use crate::tally::Tally;

/// The streams of random numbers that are used here.
const STREAM: u64 = 4_000_000;

/// Small books: few keys, two letters in two bytes, stars, the twelve.
const SMALL: [(u16, u16, u16); 5] = [(2, 5, 8), (1, 7, 11), (0, 9, 14), (1, 12, 19), (1, 14, 22)];

/// Larger ones, changed at random.
const LARGER: [(u16, u16, u16); 4] = [(1, 31, 49), (1, 53, 84), (3, 88, 140), (1, 311, 493)];

pub fn plan(tasks: &mut Vec<Task>, mode: Mode, seed: u64) {
    for layout in SMALL {
        tasks.push(Box::new(move |tally| single_changes(tally, layout)));
        tasks.push(Box::new(move |tally| cut_and_extended(tally, layout)));
    }
    for stream in 0..mode.pick(128, 1_024) {
        let randoms = Randoms::new(seed, STREAM + stream);
        let layout = LARGER[stream as usize % LARGER.len()];
        tasks.push(Box::new(move |tally| {
            changed_at_random(tally, layout, randoms.clone());
        }));
        let randoms = Randoms::new(seed, STREAM + 10_000 + stream);
        tasks.push(Box::new(move |tally| any_bytes(tally, randoms.clone())));
    }
}

fn book_of((code, octave, tritave): (u16, u16, u16)) -> Vec<u8> {
    books::book(&Layout::new(code, octave, tritave).expect("these layouts are accepted"))
}

/// Every other value of every byte.
fn single_changes(tally: &mut Tally, layout: (u16, u16, u16)) {
    let mut book = book_of(layout);
    let keys = layout.1;
    subject::find_all(tally, &book, keys);
    for place in 0..book.len() {
        let was = book[place];
        for byte in (0..=u8::MAX).filter(|byte| *byte != was) {
            book[place] = byte;
            find_some(tally, &book, keys);
        }
        book[place] = was;
    }
}

/// The first key, the last, those next to them that are none, and the ends of 32 signed
/// bits.
fn find_some(tally: &mut Tally, book: &[u8], keys: u16) {
    let keys = i32::from(keys);
    for key in [0, keys - 1, keys, -1, i32::MIN, i32::MAX] {
        subject::find(tally, book, key);
    }
}

/// Every beginning, every end, and bytes more than there should be.
fn cut_and_extended(tally: &mut Tally, layout: (u16, u16, u16)) {
    let book = book_of(layout);
    let keys = layout.1;
    for length in 0..=book.len() {
        subject::find_all(tally, &book[..length], keys);
        subject::find_all(tally, &book[book.len() - length..], keys);
    }
    for more in 1..=16 {
        let mut extended = book.clone();
        extended.resize(book.len() + more, b'#');
        subject::find_all(tally, &extended, keys);
    }
}

fn changed_at_random(tally: &mut Tally, layout: (u16, u16, u16), mut randoms: Randoms) {
    let book = book_of(layout);
    let keys = layout.1;
    for _ in 0..300 {
        let mut changed = book.clone();
        match randoms.below(3) {
            0 => change_bytes(&mut changed, &mut randoms),
            1 => change_number(&mut changed, keys, &mut randoms),
            _ => move_borders(&mut changed, keys, &mut randoms),
        }
        find_some(tally, &changed, keys);
        subject::find(tally, &changed, randoms.below(u64::from(keys)) as i32);
    }
}

fn change_bytes(book: &mut [u8], randoms: &mut Randoms) {
    for _ in 0..=randoms.below(4) {
        let place = randoms.below(book.len() as u64) as usize;
        book[place] = randoms.next() as u8;
    }
}

/// Another count, offset or length.
fn change_number(book: &mut [u8], keys: u16, randoms: &mut Randoms) {
    let place = 4 * randoms.below(1 + 2 * u64::from(keys)) as usize;
    let was = number_at(book, place);
    let number = randoms.of(&[
        0,
        was.wrapping_sub(1),
        was.wrapping_add(1),
        was.wrapping_add(1 << 31),
        u32::MAX,
        randoms.clone().next() as u32,
    ]);
    put_number(book, place, number);
}

/// Makes one name longer and a later one shorter by as much, with the offsets
/// between moved, all in 32 bits that wrap. The ends then fit in wrapped numbers;
/// by a small change they fit indeed.
fn move_borders(book: &mut [u8], keys: u16, randoms: &mut Randoms) {
    let first = randoms.below(u64::from(keys) - 1) as usize;
    let last = first + 1 + randoms.below(u64::from(keys) - 1 - first as u64) as usize;
    let by = randoms.of(&[1, 2, u32::MAX, 1 << 31, randoms.clone().next() as u32]);
    add_at(book, length_of(first), by);
    for key in first + 1..=last {
        add_at(book, offset_of(key), by);
    }
    add_at(book, length_of(last), by.wrapping_neg());
}

/// Where a key's offset stands in a book.
fn offset_of(key: usize) -> usize {
    4 + 8 * key
}

/// Where its length stands.
fn length_of(key: usize) -> usize {
    offset_of(key) + 4
}

fn add_at(book: &mut [u8], place: usize, by: u32) {
    let number = number_at(book, place).wrapping_add(by);
    put_number(book, place, number);
}

fn number_at(book: &[u8], place: usize) -> u32 {
    u32::from_le_bytes(book[place..place + 4].try_into().expect("four bytes"))
}

fn put_number(book: &mut [u8], place: usize, number: u32) {
    book[place..place + 4].copy_from_slice(&number.to_le_bytes());
}

/// A key that such bytes may have, or one that no book has.
fn any_key(randoms: &mut Randoms) -> i32 {
    randoms.of(&[0, 1, 2, 3, -1, -2, i32::MIN, i32::MAX])
}

/// Random bytes; and small numbers, which come closer to a book.
fn any_bytes(tally: &mut Tally, mut randoms: Randoms) {
    for _ in 0..2_000 {
        let length = randoms.below(64) as usize;
        let mut bytes = randoms.bytes(length);
        subject::find(tally, &bytes, any_key(&mut randoms));
        for (place, byte) in bytes.iter_mut().enumerate() {
            *byte = if place % 4 == 0 { *byte % 40 } else { 0 };
        }
        subject::find(tally, &bytes, any_key(&mut randoms));
    }
}

#[cfg(test)]
mod tests {
    use super::*;

    #[test]
    fn every_book_to_damage_is_there() {
        for layout in SMALL.into_iter().chain(LARGER) {
            assert!(book_of(layout).len() > 4, "{layout:?}");
        }
    }
    #[test]
    fn moved_borders_fit_where_sums_wrap() {
        let mut randoms = Randoms::new(1, 1);
        for _ in 0..100 {
            let mut book = book_of((1, 31, 49));
            let ends = book.len() as u32;
            move_borders(&mut book, 31, &mut randoms);
            let mut end = 4 + 8 * 31;
            for key in 0..31 {
                assert_eq!(number_at(&book, offset_of(key)), end);
                end = end.wrapping_add(number_at(&book, length_of(key)));
            }
            assert_eq!(end, ends);
        }
    }
}
