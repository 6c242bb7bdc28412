//! Layouts from the number of steps alone: an octave of n equal steps, n from 1 to 400.

use core::array;

use crate::Layout;
use crate::List;
use crate::Refused;
use crate::Text;
use crate::c;
use crate::chains;

/// The tritave of so many steps.
#[derive(Clone, Copy, Debug, PartialEq, Eq, Hash)]
pub struct Tritaves {
    /// The whole number nearest to the ratio 3 in steps.
    pub nearest: u16,
    /// The one on the other side, where the nearest is more than a third of a step away.
    pub second_choice: Option<u16>,
}

/// The tritave of n steps, and the second choice where there is one (15).
///
/// ```
/// use vetchnoon::{Question, Refused, Tritaves, tritaves};
///
/// assert_eq!(tritaves(12), Ok(Tritaves { nearest: 19, second_choice: None }));
/// assert_eq!(tritaves(13), Ok(Tritaves { nearest: 21, second_choice: Some(20) }));
/// assert_eq!(tritaves(401), Err(Refused(Question::Division)));
/// ```
pub fn tritaves(n: u16) -> Result<Tritaves, Refused> {
    let (length, [nearest, second]) = c::written(|out, len| {
        // SAFETY: `written` lends so many elements.
        unsafe { c::vn_tritaves(n, out, len) }
    })?;
    Ok(Tritaves {
        nearest,
        second_choice: (length > 1).then_some(second),
    })
}

/// A layout of so many steps.
#[derive(Clone, Copy, Debug, PartialEq, Eq, Hash)]
pub struct EdoLayout {
    /// The layout, with the chain's own start.
    pub layout: Layout,
    /// Whether its tritave is the second choice.
    pub is_second_choice: bool,
}

/// The layouts of so many steps: at most one for each chain, and of no number of steps all six.
pub type EdoLayouts = List<EdoLayout, 5>;

/// The layouts of n steps, by their chains, rising (15).
///
/// ```
/// let found = vetchnoon::find_by_edo(16)?;
/// let tritaves: Vec<_> = found.iter().map(|found| (found.layout.chain, found.layout.tritave)).collect();
/// assert_eq!(tritaves, [(0, 25), (1, 25), (2, 25), (3, 26)]);
///
/// // Porcupine[8] has no layout with 16 and 25, and has one with the second choice.
/// assert!(found[3].is_second_choice);
/// assert_eq!(&*vetchnoon::scale_name(found[3].layout)?, "equalized");
/// # Ok::<(), vetchnoon::Refused>(())
/// ```
pub fn find_by_edo(n: u16) -> Result<EdoLayouts, Refused> {
    let (length, numbers): (_, [u16; 15]) = c::written(|out, len| {
        // SAFETY: `written` lends so many elements.
        unsafe { c::vn_find_by_edo(n, out, len) }
    })?;
    let layouts = array::from_fn(|place| {
        let [chain, tritave, second] = array::from_fn(|number| numbers[3 * place + number]);
        EdoLayout {
            layout: Layout {
                chain,
                octave: n,
                tritave,
                start: chains::start(chain).expect("a listed chain is one of the six"),
            },
            is_second_choice: second == 1,
        }
    });
    Ok(List::first(length / 3, layouts))
}

/// The report over all n: a line for each chain, rising, of its code and of how many of its layouts
/// have sharpness above 0, below 0 and at 0.
///
/// ```
/// assert!(vetchnoon::edo_report().starts_with("0 5 2 2\n1 377 8 5\n"));
/// ```
pub fn edo_report() -> Text<57> {
    let written = c::written(|out, len| {
        // SAFETY: `written` lends so many elements.
        unsafe { c::vn_edo_report(out, len) }
    });
    let (length, bytes) = written.expect("the report has 57 bytes");
    Text::first(length, bytes)
}
