//! The six chains of letters, by their code from 0 to 5.

use crate::List;
use crate::Refused;
use crate::Text;
use crate::c;

/// A chain's letters: at most nine.
pub type Letters = List<char, 9>;

/// A chain's letters in order (1). An index of a letter counts along them, from 0.
///
/// ```
/// let letters = vetchnoon::chain_letters(0)?;
/// assert_eq!(*letters, ['β', 'F', 'C', 'G', 'D', 'A', 'E', 'B', 'φ']);
/// # Ok::<(), vetchnoon::Refused>(())
/// ```
pub fn chain_letters(chain: u16) -> Result<Letters, Refused> {
    let (length, points) = c::written(|out, len| {
        // SAFETY: `written` lends so many elements.
        unsafe { c::vn_chain_letters(chain, out, len) }
    })?;
    let letter = |point: u16| char::from_u32(point.into()).expect("a letter is a code point");
    Ok(List::first(length, points.map(letter)))
}

/// A chain's name (1).
///
/// ```
/// assert_eq!(&*vetchnoon::chain_name(1)?, "Meantone[7]");
/// # Ok::<(), vetchnoon::Refused>(())
/// ```
pub fn chain_name(chain: u16) -> Result<Text<12>, Refused> {
    let (length, bytes) = c::written(|out, len| {
        // SAFETY: `written` lends so many elements.
        unsafe { c::vn_chain_name(chain, out, len) }
    })?;
    Ok(Text::first(length, bytes))
}

/// The chain's own start: the index of key 0's letter among its letters, from 0 (1).
///
/// ```
/// let start = vetchnoon::start(1)?;
/// assert_eq!(vetchnoon::chain_letters(1)?[usize::from(start)], 'D');
/// # Ok::<(), vetchnoon::Refused>(())
/// ```
pub fn start(chain: u16) -> Result<u16, Refused> {
    c::number(c::vn_start(chain))
}
