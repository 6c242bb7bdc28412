//! Books of key names, and key tables.

use crate::Layout;
use crate::Refused;
use crate::c;

/// How many bytes the book of a layout has (1, 2, 3, 4, 18): at most 307,321,697.
///
/// ```
/// use vetchnoon::{Layout, book_len};
///
/// assert_eq!(book_len(Layout::new(1, 12, 19)?), Ok(132));
/// # Ok::<(), vetchnoon::Refused>(())
/// ```
pub fn book_len(layout: Layout) -> Result<usize, Refused> {
    let [chain, octave, tritave, start] = layout.numbers();
    c::answered(c::vn_book_len(chain, octave, tritave, start))
}

/// The book of all names of the octave (1, 2, 3, 4, 18, 10): a count, an offset and a length for
/// each key, four bytes each, least first, then the names.
///
/// ```
/// use vetchnoon::{Layout, book};
///
/// let mut bytes = [0; 132];
/// assert_eq!(book(Layout::new(1, 12, 19)?, &mut bytes), Ok(132));
/// assert_eq!(bytes[..4], [12, 0, 0, 0]);
/// assert!(bytes.ends_with(b"BCC#/Db"));
/// # Ok::<(), vetchnoon::Refused>(())
/// ```
pub fn book(layout: Layout, out: &mut [u8]) -> Result<usize, Refused> {
    let [chain, octave, tritave, start] = layout.numbers();
    c::lent(out, |out, len| {
        // SAFETY: `lent` lends so many elements.
        unsafe { c::vn_book(chain, octave, tritave, start, out, len) }
    })
}

/// The part of a book, which may be any bytes, that holds a key's name (11, 12, 13). A book's
/// keys begin at 0. The whole book is checked at each call.
///
/// ```
/// use vetchnoon::{Layout, Question, Refused, book, book_find};
///
/// let mut bytes = [0; 132];
/// book(Layout::new(1, 12, 19)?, &mut bytes)?;
/// assert_eq!(book_find(&bytes, 11), Ok(&b"C#/Db"[..]));
/// assert_eq!(book_find(&bytes, -1), Err(Refused(Question::BookKey)));
/// # Ok::<(), Refused>(())
/// ```
pub fn book_find(book: &[u8], key: i32) -> Result<&[u8], Refused> {
    let (_, found): (_, [u32; 2]) = c::written(|out, len| {
        // SAFETY: `book` has so many elements, and `written` lends so many.
        unsafe { c::vn_book_find(book.as_ptr(), book.len(), key, out, len) }
    })?;
    let [offset, length] = found.map(|number| number as usize);
    Ok(&book[offset..offset + length])
}

/// What the key table program prints for a line (10): of a chain, an octave and a tritave, with
/// the chain's own start. It has one octave of keys, in at most octave × (octave / 5 + 21) bytes,
/// the quotient whole; 3,440,640 bytes are always enough.
///
/// ```
/// let mut table = [0; 12 * (12 / 5 + 21)];
/// let bytes = vetchnoon::key_table(b"1 12 19\n", &mut table)?;
/// assert!(table[..bytes].starts_with(b"0 D 0\n1 D#/Eb 65535\n"));
/// # Ok::<(), vetchnoon::Refused>(())
/// ```
pub fn key_table(line: &[u8], out: &mut [u8]) -> Result<usize, Refused> {
    let (bytes, count) = (line.as_ptr(), line.len());
    c::lent(out, |out, len| {
        // SAFETY: `line` has so many elements, and `lent` lends so many.
        unsafe { c::vn_key_table(bytes, count, out, len) }
    })
}
