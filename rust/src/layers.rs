//! Layers of a layout's keys.

use crate::Layout;
use crate::Refused;
use crate::c;

/// How many layer numbers there are: T (1, 2, 3, 4, 18).
///
/// ```
/// use vetchnoon::{Layout, layer_count};
///
/// assert_eq!(layer_count(Layout::new(1, 12, 19)?), Ok(2));
/// # Ok::<(), vetchnoon::Refused>(())
/// ```
pub fn layer_count(layout: Layout) -> Result<u16, Refused> {
    let [chain, octave, tritave, start] = layout.numbers();
    c::number(c::vn_layer_count(chain, octave, tritave, start))
}

/// The layer number of each key of the octave, or of two at sharpness 0 (1, 2, 3, 4, 18, 10): room
/// for 2 × octave is always enough.
///
/// ```
/// use vetchnoon::{Layout, layout_layers};
///
/// let mut layers = [0; 24];
/// assert_eq!(layout_layers(Layout::new(1, 12, 19)?, &mut layers), Ok(12));
/// assert_eq!(layers[..12], [0, 1, 0, 0, 1, 0, 1, 0, 1, 0, 0, 1]);
/// # Ok::<(), vetchnoon::Refused>(())
/// ```
pub fn layout_layers(layout: Layout, out: &mut [u16]) -> Result<usize, Refused> {
    let [chain, octave, tritave, start] = layout.numbers();
    c::lent(out, |out, len| {
        // SAFETY: `lent` lends so many elements.
        unsafe { c::vn_layout_layers(chain, octave, tritave, start, out, len) }
    })
}

/// The layer number of one key, of any octave (1, 2, 3, 4, 18): what [`layout_layers`]
/// writes repeats after all of its entries, two octaves of them at sharpness 0.
///
/// ```
/// use vetchnoon::{Layout, layer};
///
/// let equalized = Layout::new(3, 8, 13)?;
/// assert_eq!(layer(equalized, 0), Ok(0));
/// assert_eq!(layer(equalized, -8), Ok(1)); // an octave away
/// assert_eq!(layer(equalized, -16), Ok(0));
/// # Ok::<(), vetchnoon::Refused>(())
/// ```
pub fn layer(layout: Layout, key: i32) -> Result<u16, Refused> {
    let [chain, octave, tritave, start] = layout.numbers();
    c::number(c::vn_layer(chain, octave, tritave, start, key))
}

/// What a layer number means. Sharp, enharmonic and flat layers count from 0, away from the natural
/// one.
#[derive(Clone, Copy, Debug, PartialEq, Eq, Hash)]
pub enum LayerKind {
    /// The layer of the letters alone.
    Natural,
    /// A sharp layer.
    Sharp(u16),
    /// The layer that is as far from the natural one both ways.
    Enharmonic(u16),
    /// A flat layer.
    Flat(u16),
}

/// What a layer number means, of as many as `total` says. A number from `total` on, which no key
/// has, counts as flat 0, but 0 is natural whatever the total is.
///
/// ```
/// use vetchnoon::{LayerKind, Layout, lamp, layer, layer_count, layer_kind};
///
/// let layout = Layout::new(1, 31, 49)?;
/// let kind = layer_kind(layer_count(layout)?, layer(layout, 1)?);
/// assert_eq!(kind, LayerKind::Flat(1));
/// assert_eq!(lamp(layout, 1), Ok(3 + 2 * 1));
/// # Ok::<(), vetchnoon::Refused>(())
/// ```
pub fn layer_kind(total: u16, number: u16) -> LayerKind {
    let written = c::written(|out, len| {
        // SAFETY: `written` lends so many elements.
        unsafe { c::vn_layer_kind(total, number, out, len) }
    });
    let (_, [kind, level]) = written.expect("a kind is two numbers");
    match kind {
        0 => LayerKind::Natural,
        1 => LayerKind::Sharp(level),
        2 => LayerKind::Enharmonic(level),
        3 => LayerKind::Flat(level),
        _ => unreachable!("there are four kinds"),
    }
}
