//! Sheets: a list of records, each of which is filled from its own key.

use crate::Layout;
use crate::Refused;
use crate::c;

/// One key of a sheet, as C has it: the key, which a caller sets, and behind it what [`sheet`]
/// writes.
#[repr(C)]
#[derive(Clone, Copy, Debug, Default, PartialEq, Eq, Hash)]
pub struct Record {
    /// Any key; it stays as it is.
    pub key: i32,
    /// The letter of the sharp spelling, by its index among the chain's letters, from 0.
    pub sharp_index: u16,
    /// How many sharps it has.
    pub sharp_count: u16,
    /// The letter of the flat spelling.
    pub flat_index: u16,
    /// How many flats it has.
    pub flat_count: u16,
    /// The stars of both spellings: the cycle's number, 0 where there is one cycle.
    pub stars: u16,
    /// The lamp code.
    pub lamp: u16,
}

impl Record {
    /// A record that asks for a key.
    ///
    /// ```
    /// assert_eq!(vetchnoon::Record::new(-1).key, -1);
    /// ```
    pub fn new(key: i32) -> Self {
        Self {
            key,
            ..Self::default()
        }
    }
}

/// Fills each record from its key, in list order, with what
/// [`layout_accidentals`](crate::layout_accidentals), [`generation`](crate::generation) and
/// [`lamp`](crate::lamp) give for that key; tells how many records there are (1, 2, 3, 4, 18). Where
/// the layout is refused, no record is touched.
///
/// ```
/// use vetchnoon::{Layout, Question, Record, Refused, sheet};
///
/// // F C G D A E B: key 3 is D#* or Eb*, twice.
/// let quarter_tones = Layout::new(1, 24, 38)?;
/// let mut records = [3, -1, 3].map(Record::new);
/// assert_eq!(sheet(quarter_tones, &mut records), Ok(3));
/// let d_sharp = Record {
///     key: 3,
///     sharp_index: 3,
///     sharp_count: 1,
///     flat_index: 5,
///     flat_count: 1,
///     stars: 1,
///     lamp: 3,
/// };
/// assert_eq!(records[0], d_sharp);
/// assert_eq!((records[1].key, records[1].sharp_index), (-1, 1));
/// assert_eq!(records[2], d_sharp);
///
/// assert_eq!(sheet(quarter_tones, &mut []), Ok(0));
/// let refused = sheet(Layout::new(0, 12, 19)?, &mut records);
/// assert_eq!(refused, Err(Refused(Question::Pattern)));
/// assert_eq!(records[0], d_sharp);
/// # Ok::<(), Refused>(())
/// ```
pub fn sheet(layout: Layout, records: &mut [Record]) -> Result<usize, Refused> {
    let [chain, octave, tritave, start] = layout.numbers();
    c::lent(records, |records, len| {
        // SAFETY: `lent` lends so many elements.
        unsafe { c::vn_sheet(chain, octave, tritave, start, records, len) }
    })
}
