//! Names that somebody typed: the spelling, the key, and what two of them have to do with each
//! other.

use crate::Layout;
use crate::Refused;
use crate::Spelling;
use crate::c;

/// The spelling that a text is. A text may have more signs than [`Spelling`] holds; where it has
/// no more, `try_into` makes one.
#[derive(Clone, Copy, Debug, Default, PartialEq, Eq, Hash)]
pub struct TypedSpelling {
    /// The letter, by its index along the chain, from 0.
    pub letter: u16,
    /// As many sharps as the number is above 0, or flats as it is below: fewer than 2³².
    pub signs: i64,
    /// How many stars.
    pub stars: u16,
}

impl TryFrom<TypedSpelling> for Spelling {
    type Error = core::num::TryFromIntError;

    fn try_from(typed: TypedSpelling) -> Result<Self, Self::Error> {
        Ok(Self {
            letter: typed.letter,
            signs: typed.signs.try_into()?,
            stars: typed.stars,
        })
    }
}

/// The spelling that a text is, whatever bytes it has: a letter of the chain, then sharps or
/// flats in the layout's own signs, any number and of one kind, then stars
/// (1, 2, 3, 4, 18, 23, 21).
///
/// ```
/// use vetchnoon::{Layout, Question, Refused, Spelling, read_spelling, sounded_key};
///
/// // F C G D A E B
/// let quarter_tones = Layout::new(1, 24, 38)?;
/// let typed = read_spelling(quarter_tones, b"Ebb*")?;
/// assert_eq!((typed.letter, typed.signs, typed.stars), (5, -2, 1));
/// let spelling = Spelling::try_from(typed).expect("two signs");
/// assert_eq!(sounded_key(quarter_tones, spelling), Ok(1)); // as D* does
///
/// let none = read_spelling(quarter_tones, b"E#b");
/// assert_eq!(none, Err(Refused(Question::NoteName)));
/// let other_signs = read_spelling(quarter_tones, b"E+");
/// assert_eq!(other_signs, Err(Refused(Question::NoteName)));
/// let no_such_cycle = read_spelling(quarter_tones, b"E**");
/// assert_eq!(no_such_cycle, Err(Refused(Question::Stars)));
/// # Ok::<(), Refused>(())
/// ```
pub fn read_spelling(layout: Layout, text: &[u8]) -> Result<TypedSpelling, Refused> {
    let [chain, octave, tritave, start] = layout.numbers();
    let (bytes, count) = (text.as_ptr(), text.len());
    let (_, [letter, signs, stars]) = c::written(|out, len| {
        // SAFETY: `text` has so many elements, and `written` lends so many.
        unsafe { c::vn_read_spelling(chain, octave, tritave, start, bytes, count, out, len) }
    })?;
    Ok(TypedSpelling {
        letter: c::of_16_bits(letter),
        signs,
        stars: c::of_16_bits(stars),
    })
}

/// The key of 0 to octave − 1 that a text names, whatever bytes it has: that of a spelling, or a
/// whole name as [`note_name`](crate::note_name) writes it, with any two spellings of one key
/// (1, 2, 3, 4, 18, 23, 21, 24).
///
/// ```
/// use vetchnoon::{Layout, Question, Refused, find_key};
///
/// let twelve = Layout::new(1, 12, 19)?;
/// assert_eq!(find_key(twelve, b"D#"), Ok(1));
/// assert_eq!(find_key(twelve, b"D#/Eb"), Ok(1));
/// assert_eq!(find_key(twelve, b"Eb/D#"), Ok(1));
/// assert_eq!(find_key(twelve, b"D#/E"), Err(Refused(Question::TwoKeys)));
///
/// let quarter_tones = Layout::new(1, 24, 38)?;
/// assert_eq!(find_key(quarter_tones, b"(D#/Eb)*"), Ok(3));
/// assert_eq!(find_key(quarter_tones, b"D#/Eb"), Err(Refused(Question::NoteName)));
/// # Ok::<(), Refused>(())
/// ```
pub fn find_key(layout: Layout, text: &[u8]) -> Result<u16, Refused> {
    let [chain, octave, tritave, start] = layout.numbers();
    // SAFETY: `text` has so many elements.
    c::number(unsafe { c::vn_find_key(chain, octave, tritave, start, text.as_ptr(), text.len()) })
}
