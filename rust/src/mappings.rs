//! Scala keyboard mappings (.kbm files) of a layout.

use crate::Layout;
use crate::Refused;
use crate::c;

/// How many bytes the layout's Scala keyboard mapping has: at most 6 × octave + 35
/// (1, 2, 3, 4, 18).
///
/// ```
/// use vetchnoon::{Layout, kbm_len};
///
/// assert_eq!(kbm_len(Layout::new(2, 7, 11)?), Ok(41));
/// # Ok::<(), vetchnoon::Refused>(())
/// ```
pub fn kbm_len(layout: Layout) -> Result<usize, Refused> {
    let [chain, octave, tritave, start] = layout.numbers();
    c::answered(c::vn_kbm_len(chain, octave, tritave, start))
}

/// The layout's Scala keyboard mapping, a .kbm file in which the keys of the natural layer are
/// mapped (1, 2, 3, 4, 18, 10).
///
/// ```
/// use vetchnoon::{Layout, kbm};
///
/// let mut file = [0; 6 * 7 + 35];
/// let bytes = kbm(Layout::new(2, 7, 11)?, &mut file)?; // D E G A C
/// assert_eq!(&file[..bytes], b"7\n0\n127\n60\n69\n440.000000\n7\n0\n1\nx\n3\n4\nx\n6\n");
/// # Ok::<(), vetchnoon::Refused>(())
/// ```
pub fn kbm(layout: Layout, out: &mut [u8]) -> Result<usize, Refused> {
    let [chain, octave, tritave, start] = layout.numbers();
    c::lent(out, |out, len| {
        // SAFETY: `lent` lends so many elements.
        unsafe { c::vn_kbm(chain, octave, tritave, start, out, len) }
    })
}

/// The keys that a Scala keyboard mapping for a layout maps, rising: any choice of keys, in any
/// bytes; at most as many as the octave has (1, 2, 3, 4, 18, 19, 20, 10). Lines that begin with `!`
/// are skipped.
///
/// ```
/// use vetchnoon::{Layout, Question, Refused, kbm_read};
///
/// let five = Layout::new(2, 5, 8)?;
/// let text = b"! three keys\n5\n0\n127\n60\n69\n440.000000\n5\n0\nx\n2\nx\n4\n";
/// let mut keys = [0; 5];
/// assert_eq!(kbm_read(five, text, &mut keys), Ok(3));
/// assert_eq!(keys[..3], [0, 2, 4]);
///
/// let cut = &text[..text.len() - 1]; // the last line is not ended
/// assert_eq!(kbm_read(five, cut, &mut keys), Err(Refused(Question::KbmLines)));
/// # Ok::<(), Refused>(())
/// ```
pub fn kbm_read(layout: Layout, text: &[u8], out: &mut [u16]) -> Result<usize, Refused> {
    let [chain, octave, tritave, start] = layout.numbers();
    let (bytes, count) = (text.as_ptr(), text.len());
    c::lent(out, |out, len| {
        // SAFETY: `text` has so many elements, and `lent` lends so many.
        unsafe { c::vn_kbm_read(chain, octave, tritave, start, bytes, count, out, len) }
    })
}
