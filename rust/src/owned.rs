//! What calls write to a slice, as a `Vec` or a `String` of its own: the same names, the same
//! answers, the same questions but for room.

use std::string::String;
use std::vec;
use std::vec::Vec;

use crate::Fractional;
use crate::Layout;
use crate::Moves;
use crate::Pattern;
use crate::Record;
use crate::Refused;
use crate::Retuning;

/// What a call writes into room that is enough.
fn filled<T: Clone + Default>(
    room: usize,
    call: impl FnOnce(&mut [T]) -> Result<usize, Refused>,
) -> Result<Vec<T>, Refused> {
    let mut out = vec![T::default(); room];
    let length = call(&mut out)?;
    out.truncate(length);
    out.shrink_to_fit();
    Ok(out)
}

fn text(bytes: Vec<u8>) -> String {
    String::from_utf8(bytes).expect("a text is UTF-8")
}

/// A key's name (1, 2, 3, 4, 18).
///
/// ```
/// use vetchnoon::{Layout, owned};
///
/// assert_eq!(owned::note_name(Layout::new(1, 12, 19)?, 1)?, "D#/Eb");
/// # Ok::<(), vetchnoon::Refused>(())
/// ```
pub fn note_name(layout: Layout, key: i32) -> Result<String, Refused> {
    let room = crate::note_name_len(layout, key)?;
    filled(room, |out| crate::note_name(layout, key, out)).map(text)
}

/// The whole walk of children, the given pattern first (7).
///
/// ```
/// use vetchnoon::{Pattern, owned};
///
/// let walk = owned::mos_children(Pattern::new(1, 1, 7, 5))?;
/// assert_eq!(walk.last(), Some(&Pattern::new(5, 7, 1, 1)));
/// # Ok::<(), vetchnoon::Refused>(())
/// ```
pub fn mos_children(pattern: Pattern) -> Result<Vec<Pattern>, Refused> {
    let room = usize::from(pattern.primary_step) + usize::from(pattern.secondary_step) + 1;
    filled(room, |out| crate::mos_children(pattern, out))
}

/// The whole walk of parents, the given pattern first (7).
///
/// ```
/// use vetchnoon::{Pattern, owned};
///
/// let walk = owned::mos_parents(Pattern::new(5, 2, 2, 1))?;
/// assert_eq!(walk.last(), Some(&Pattern::new(1, 1, 7, 5)));
/// # Ok::<(), vetchnoon::Refused>(())
/// ```
pub fn mos_parents(pattern: Pattern) -> Result<Vec<Pattern>, Refused> {
    let room = usize::from(pattern.primary_count) + usize::from(pattern.secondary_count) + 1;
    filled(room, |out| crate::mos_parents(pattern, out))
}

/// Each layer's number, from 0, as often as the layer's size (7).
///
/// ```
/// use vetchnoon::{Pattern, owned};
///
/// let layers = owned::mos_layers(Pattern::new(5, 2, 2, 1))?;
/// assert_eq!(layers, [0, 0, 0, 0, 0, 0, 0, 1, 1, 1, 1, 1]);
/// # Ok::<(), vetchnoon::Refused>(())
/// ```
pub fn mos_layers(pattern: Pattern) -> Result<Vec<u16>, Refused> {
    let [a, b, p, s] = pattern.numbers().map(usize::from);
    // The size, which is at most 65,535 where the pattern is not refused.
    let room = (a * p + b * s).min(65_535);
    filled(room, |out| crate::mos_layers(pattern, out))
}

/// The moves of every pattern on the walk from the genesis of a period and a generator (2).
///
/// ```
/// use vetchnoon::{Move, owned};
///
/// let walk = owned::walk_moves(12, 7)?;
/// assert_eq!(walk.len(), 5);
/// assert_eq!(walk[0].primary, Move { octaves: 0, generators: 1 });
/// # Ok::<(), vetchnoon::Refused>(())
/// ```
pub fn walk_moves(period: u16, generator: u16) -> Result<Vec<Moves>, Refused> {
    filled(period.into(), |out| {
        crate::walk_moves(period, generator, out)
    })
}

/// The walk of patterns from a generator, a part of the octave, the genesis first (22).
///
/// ```
/// let walk = vetchnoon::owned::fractional_children(1.5_f64.log2())?;
/// assert_eq!(walk.len(), 43);
/// assert_eq!((walk[3].primary_count, walk[3].secondary_count), (5, 2));
/// # Ok::<(), vetchnoon::Refused>(())
/// ```
pub fn fractional_children(generator: f64) -> Result<Vec<Fractional>, Refused> {
    let room = crate::fractional_children_len(generator)?;
    filled(room, |out| crate::fractional_children(generator, out))
}

/// All keys of 0 to octave − 1 within a distance of a key, rising (1, 2, 3, 4, 18).
///
/// ```
/// use vetchnoon::{Layout, owned};
///
/// assert_eq!(owned::keys_in_reach(Layout::new(1, 12, 19)?, -1, 2)?, [0, 1, 9, 10, 11]);
/// # Ok::<(), vetchnoon::Refused>(())
/// ```
pub fn keys_in_reach(layout: Layout, key: i32, distance: u16) -> Result<Vec<u16>, Refused> {
    let room = usize::from(layout.octave).min(2 * usize::from(distance) + 1);
    filled(room, |out| crate::keys_in_reach(layout, key, distance, out))
}

/// The moves of all letters with up to eight signs, 17 numbers a letter
/// (1, 2, 3, 4, 18, of the second layout 3, 4).
///
/// ```
/// use vetchnoon::{Layout, Retuning, owned};
///
/// let table = owned::move_table(Retuning::new(Layout::new(2, 31, 49)?, 50))?;
/// assert_eq!(table.len(), 5 * 17);
/// # Ok::<(), vetchnoon::Refused>(())
/// ```
pub fn move_table(retuning: Retuning) -> Result<Vec<u16>, Refused> {
    filled(9 * 17, |out| crate::move_table(retuning, out))
}

/// The entries of the octave's keys in the order of the chain (1, 2, 3, 4, 18, 10).
///
/// ```
/// use vetchnoon::{Layout, owned};
///
/// let keys = [0, 1, 2, 3, 4, 5, 6, 7, 8, 9, 10, 11];
/// let chain = owned::to_chain_order(Layout::new(1, 12, 19)?, &keys)?;
/// assert_eq!(chain, [0, 7, 2, 9, 4, 11, 6, 1, 8, 3, 10, 5]);
/// # Ok::<(), vetchnoon::Refused>(())
/// ```
pub fn to_chain_order(layout: Layout, keys: &[u16]) -> Result<Vec<u16>, Refused> {
    filled(layout.octave.into(), |out| {
        crate::to_chain_order(layout, keys, out)
    })
}

/// The entries in the order of keys again (1, 2, 3, 4, 18, 10).
///
/// ```
/// use vetchnoon::{Layout, owned};
///
/// let chain = [0, 7, 2, 9, 4, 11, 6, 1, 8, 3, 10, 5];
/// let keys = owned::to_key_order(Layout::new(1, 12, 19)?, &chain)?;
/// assert_eq!(keys, [0, 1, 2, 3, 4, 5, 6, 7, 8, 9, 10, 11]);
/// # Ok::<(), vetchnoon::Refused>(())
/// ```
pub fn to_key_order(layout: Layout, chain: &[u16]) -> Result<Vec<u16>, Refused> {
    filled(layout.octave.into(), |out| {
        crate::to_key_order(layout, chain, out)
    })
}

/// The layer number of each key of the octave, or of two at sharpness 0 (1, 2, 3, 4, 18).
///
/// ```
/// use vetchnoon::{Layout, owned};
///
/// let layers = owned::layout_layers(Layout::new(1, 12, 19)?)?;
/// assert_eq!(layers, [0, 1, 0, 0, 1, 0, 1, 0, 1, 0, 0, 1]);
/// # Ok::<(), vetchnoon::Refused>(())
/// ```
pub fn layout_layers(layout: Layout) -> Result<Vec<u16>, Refused> {
    filled(two_octaves(layout), |out| crate::layout_layers(layout, out))
}

/// The lamp code of each key of the octave, or of two at sharpness 0 (1, 2, 3, 4, 18).
///
/// ```
/// use vetchnoon::{Layout, owned};
///
/// let codes = owned::lamp_strip(Layout::new(1, 7, 11)?)?;
/// assert_eq!(codes.len(), 14);
/// # Ok::<(), vetchnoon::Refused>(())
/// ```
pub fn lamp_strip(layout: Layout) -> Result<Vec<u16>, Refused> {
    filled(two_octaves(layout), |out| crate::lamp_strip(layout, out))
}

fn two_octaves(layout: Layout) -> usize {
    2 * usize::from(layout.octave)
}

/// The codes of 16 bits for a stored strip of one-byte codes (17).
///
/// ```
/// assert_eq!(vetchnoon::owned::widen_strip(&[0, 255, 102])?, [0, 65_535, 3]);
/// # Ok::<(), vetchnoon::Refused>(())
/// ```
pub fn widen_strip(strip: &[u8]) -> Result<Vec<u16>, Refused> {
    filled(strip.len(), |out| crate::widen_strip(strip, out))
}

/// The stored strip that [`widen_strip`] makes these codes of (17).
///
/// ```
/// assert_eq!(vetchnoon::owned::narrow_strip(&[0, 65_535, 3])?, [0, 255, 102]);
/// # Ok::<(), vetchnoon::Refused>(())
/// ```
pub fn narrow_strip(strip: &[u16]) -> Result<Vec<u8>, Refused> {
    filled(strip.len(), |out| crate::narrow_strip(strip, out))
}

/// The layout's Scala keyboard mapping (1, 2, 3, 4, 18).
///
/// ```
/// use vetchnoon::{Layout, owned};
///
/// let file = owned::kbm(Layout::new(2, 7, 11)?)?;
/// assert_eq!(file, "7\n0\n127\n60\n69\n440.000000\n7\n0\n1\nx\n3\n4\nx\n6\n");
/// # Ok::<(), vetchnoon::Refused>(())
/// ```
pub fn kbm(layout: Layout) -> Result<String, Refused> {
    let room = crate::kbm_len(layout)?;
    filled(room, |out| crate::kbm(layout, out)).map(text)
}

/// The keys that a Scala keyboard mapping for a layout maps, rising (1, 2, 3, 4, 18, 19, 20).
///
/// ```
/// use vetchnoon::{Layout, owned};
///
/// let text = "5\n0\n127\n60\n69\n440.000000\n5\n0\nx\n2\nx\n4\n";
/// assert_eq!(owned::kbm_read(Layout::new(2, 5, 8)?, text.as_bytes())?, [0, 2, 4]);
/// # Ok::<(), vetchnoon::Refused>(())
/// ```
pub fn kbm_read(layout: Layout, text: &[u8]) -> Result<Vec<u16>, Refused> {
    filled(layout.octave.into(), |out| {
        crate::kbm_read(layout, text, out)
    })
}

/// Why two spellings, typed as texts, are one key or two, in three sentences for a pupil
/// (1, 2, 3, 4, 18, of the first text and of the second 23, then 21).
///
/// ```
/// use vetchnoon::{Layout, owned};
///
/// let text = owned::explain_text(Layout::new(1, 12, 19)?, b"Eb", b"Eb")?;
/// assert!(text.ends_with("They stand at one place: one key.\n"));
/// # Ok::<(), vetchnoon::Refused>(())
/// ```
pub fn explain_text(layout: Layout, first: &[u8], second: &[u8]) -> Result<String, Refused> {
    let room = crate::explain_text_len(layout, first, second)?;
    filled(room, |out| crate::explain_text(layout, first, second, out)).map(text)
}

/// A record for each key, in list order (1, 2, 3, 4, 18).
///
/// ```
/// use vetchnoon::{Layout, owned};
///
/// let records = owned::sheet(Layout::new(1, 12, 19)?, -1..=12)?;
/// assert_eq!(records.len(), 14);
/// assert_eq!((records[0].key, records[0].lamp), (-1, 65_535));
/// # Ok::<(), vetchnoon::Refused>(())
/// ```
pub fn sheet(layout: Layout, keys: impl IntoIterator<Item = i32>) -> Result<Vec<Record>, Refused> {
    let mut records: Vec<Record> = keys.into_iter().map(Record::new).collect();
    crate::sheet(layout, &mut records)?;
    Ok(records)
}

/// The book of all names of the octave (1, 2, 3, 4, 18).
///
/// ```
/// use vetchnoon::{Layout, book_find, owned};
///
/// let book = owned::book(Layout::new(1, 12, 19)?)?;
/// assert_eq!(book_find(&book, 11), Ok(&b"C#/Db"[..]));
/// # Ok::<(), vetchnoon::Refused>(())
/// ```
pub fn book(layout: Layout) -> Result<Vec<u8>, Refused> {
    let room = crate::book_len(layout)?;
    filled(room, |out| crate::book(layout, out))
}

/// What the key table program prints for a line.
///
/// ```
/// use vetchnoon::owned;
///
/// assert!(owned::key_table(b"1 12 19\n").starts_with("0 D 0\n1 D#/Eb 65535\n"));
/// assert_eq!(owned::key_table(b"6 12 19\n"), "refused 1\n");
/// ```
pub fn key_table(line: &[u8]) -> String {
    const ENOUGH: usize = 3_440_640;

    let table = filled(ENOUGH, |out| crate::key_table(line, out));
    text(table.expect("each table has room"))
}
