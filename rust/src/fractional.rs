//! Step patterns from a fractional generator.

use crate::Refused;
use crate::c;

/// A step pattern from a fractional generator, as C has it.
#[repr(C)]
#[derive(Clone, Copy, Debug, Default, PartialEq)]
pub struct Fractional {
    /// How many primary steps it has.
    pub primary_count: u16,
    /// How many secondary steps.
    pub secondary_count: u16,
    /// How large they are, as parts of the octave.
    pub primary_step: f64,
    /// And these.
    pub secondary_step: f64,
}

/// The child of a pattern; none where a step is 0, both are equal, one is not a number, or the
/// counts' sum passes 65,535. Any record is answered.
///
/// ```
/// use vetchnoon::{Fractional, fractional_child};
///
/// let diatonic = Fractional {
///     primary_count: 5,
///     secondary_count: 2,
///     primary_step: 0.1875,
///     secondary_step: 0.03125,
/// };
/// let chromatic = Fractional {
///     secondary_count: 7,
///     primary_step: 0.15625,
///     ..diatonic
/// };
/// assert_eq!(fractional_child(diatonic), Some(chromatic));
///
/// let equalized = Fractional {
///     primary_step: 0.03125,
///     ..diatonic
/// };
/// assert_eq!(fractional_child(equalized), None);
/// ```
pub fn fractional_child(pattern: Fractional) -> Option<Fractional> {
    let written = c::written(|out, len| {
        // SAFETY: `written` lends so many elements.
        unsafe { c::vn_fractional_child(pattern, out, len) }
    });
    let (length, [child]) = written.expect("any record is answered");
    (length > 0).then_some(child)
}

/// How many patterns the walk from a generator has, as [`fractional_children`] writes it: at most
/// 65,535 (22).
///
/// ```
/// assert_eq!(vetchnoon::fractional_children_len(0.625), Ok(4));
/// assert_eq!(vetchnoon::fractional_children_len(1e-9), Ok(65_535));
/// ```
pub fn fractional_children_len(generator: f64) -> Result<usize, Refused> {
    c::answered(c::vn_fractional_children_len(generator))
}

/// The walk of patterns from a generator, a part of the octave, the genesis first (22, 10): as many
/// as [`fractional_children_len`] says.
///
/// ```
/// use vetchnoon::{Fractional, Question, Refused, fractional_children};
///
/// let fifth = 1.5_f64.log2();
/// let mut walk = [Fractional::default(); 64];
/// assert_eq!(fractional_children(fifth, &mut walk), Ok(43));
/// assert_eq!((walk[0].primary_step, walk[0].secondary_step), (fifth, 1.0 - fifth));
/// let counts = |place: usize| (walk[place].primary_count, walk[place].secondary_count);
/// assert_eq!([0, 3, 42].map(counts), [(1, 1), (5, 2), (47468, 31867)]);
///
/// let too_few = fractional_children(fifth, &mut walk[..42]);
/// assert_eq!(too_few, Err(Refused(Question::Room)));
/// let endless = fractional_children(f64::INFINITY, &mut walk);
/// assert_eq!(endless, Err(Refused(Question::FractionalGenerator)));
/// ```
pub fn fractional_children(generator: f64, out: &mut [Fractional]) -> Result<usize, Refused> {
    c::lent(out, |out, len| {
        // SAFETY: `lent` lends so many elements.
        unsafe { c::vn_fractional_children(generator, out, len) }
    })
}
