//! Lamp codes of a layout's keys, and stored strips.

use crate::Layout;
use crate::Refused;
use crate::c;

/// The lamp code of each key of the octave, or of two at sharpness 0, where the colours may
/// alternate from octave to octave (1, 2, 3, 4, 18, 10). Key 0 is home and has 0, and so has
/// the key an octave up where there are two octaves, whatever its layer; else natural 1,
/// sharp k 2 + 2 × k, flat k 3 + 2 × k, enharmonic 65,535. Room for 2 × octave is always enough.
///
/// ```
/// use vetchnoon::{Layout, lamp_strip};
///
/// const E: u16 = 65_535; // enharmonic
///
/// let equalized = Layout::new(1, 7, 11)?;
/// let mut codes = [0; 2 * 7];
/// assert_eq!(lamp_strip(equalized, &mut codes), Ok(14));
/// assert_eq!(codes, [0, 1, E, E, E, E, 1, 0, 1, E, E, E, E, 1]);
///
/// let many_cycles = Layout::new(1, 2400, 3800)?;
/// let mut codes = [0; 2 * 2400];
/// assert_eq!(lamp_strip(many_cycles, &mut codes), Ok(2400));
/// assert_eq!(codes[199..203], [2 + 2 * 198, E, 3 + 2 * 198, 3 + 2 * 197]);
/// # Ok::<(), vetchnoon::Refused>(())
/// ```
pub fn lamp_strip(layout: Layout, out: &mut [u16]) -> Result<usize, Refused> {
    let [chain, octave, tritave, start] = layout.numbers();
    c::lent(out, |out, len| {
        // SAFETY: `lent` lends so many elements.
        unsafe { c::vn_lamp_strip(chain, octave, tritave, start, out, len) }
    })
}

/// The lamp code of one key, of any octave (1, 2, 3, 4, 18): what [`lamp_strip`] writes
/// repeats after all of its codes, two octaves of them at sharpness 0. Every key whole
/// octaves from key 0 is home, and no other key is.
///
/// ```
/// use vetchnoon::{Layout, lamp};
///
/// let twelve = Layout::new(1, 12, 19)?;
/// assert_eq!(lamp(twelve, -12), Ok(0)); // home
/// assert_eq!(lamp(twelve, -1), Ok(65_535)); // enharmonic
///
/// let equalized = Layout::new(3, 8, 13)?;
/// assert_eq!(lamp(equalized, -8), Ok(0)); // home, whatever its layer
/// assert_eq!(lamp(equalized, 5), Ok(65_535));
/// assert_eq!(lamp(equalized, 5 - 8), Ok(1)); // an octave away, by its layer
/// # Ok::<(), vetchnoon::Refused>(())
/// ```
pub fn lamp(layout: Layout, key: i32) -> Result<u16, Refused> {
    let [chain, octave, tritave, start] = layout.numbers();
    c::number(c::vn_lamp(chain, octave, tritave, start, key))
}

/// The codes of 16 bits for a stored strip of one-byte codes, as many of them (17, 10): 0, 1 and
/// sharp, flat and enharmonic codes become what [`lamp_strip`] writes for the same lamps. Refused
/// with 17 where a code is from 202 to 254.
///
/// ```
/// use vetchnoon::{Question, Refused, widen_strip};
///
/// let stored = [0, 2, 101, 255, 201, 102, 1]; // home, sharp 0 and 99, enharmonic, flat 99 and 0
/// let mut codes = [0; 7];
/// assert_eq!(widen_strip(&stored, &mut codes), Ok(7));
/// assert_eq!(codes, [0, 2, 200, 65_535, 201, 3, 1]);
/// assert_eq!(widen_strip(&[0, 202], &mut codes), Err(Refused(Question::Code)));
/// ```
pub fn widen_strip(strip: &[u8], out: &mut [u16]) -> Result<usize, Refused> {
    let (codes, count) = (strip.as_ptr(), strip.len());
    c::lent(out, |out, len| {
        // SAFETY: `strip` has so many elements, and `lent` lends so many.
        unsafe { c::vn_widen_strip(codes, count, out, len) }
    })
}

/// The stored strip that [`widen_strip`] makes these codes of (17, 10). Refused with 17 where
/// there is none: where a code is from 202 to 65,534.
///
/// ```
/// use vetchnoon::{Question, Refused, narrow_strip};
///
/// let mut stored = [0; 7];
/// assert_eq!(narrow_strip(&[0, 2, 200, 65_535, 201, 3, 1], &mut stored), Ok(7));
/// assert_eq!(stored, [0, 2, 101, 255, 201, 102, 1]);
/// assert_eq!(narrow_strip(&[0, 202], &mut stored), Err(Refused(Question::Code)));
/// ```
pub fn narrow_strip(strip: &[u16], out: &mut [u8]) -> Result<usize, Refused> {
    let (codes, count) = (strip.as_ptr(), strip.len());
    c::lent(out, |out, len| {
        // SAFETY: `strip` has so many elements, and `lent` lends so many.
        unsafe { c::vn_narrow_strip(codes, count, out, len) }
    })
}
