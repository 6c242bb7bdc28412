//! C calls as they are, with a slice of any length. The Rust package lends slices of its own to
//! these calls; what it makes of their numbers is held against the same reading.

use vetchnoon::Fractional;
use vetchnoon::Layout;
use vetchnoon::Refused;
use vetchnoon::c;

/// The four numbers of a step pattern.
pub type Numbers = [u16; 4];

/// Declares functions that pass numbers on and fill `out`.
macro_rules! filling {
    ($($name:ident = $call:ident($($number:ident: $type:ty),*; $element:ty);)*) => {$(
        pub fn $name($($number: $type,)* out: &mut [$element]) -> Result<usize, Refused> {
            // SAFETY: the slice has so many elements, and is lent for the call.
            c::answered(unsafe { c::$call($($number,)* out.as_mut_ptr(), out.len()) })
        }
    )*};
}

/// Declares functions that pass a pattern's four numbers on, then others, and fill `out`.
macro_rules! filling_from_pattern {
    ($($name:ident = $call:ident($($number:ident: $type:ty),*; $element:ty);)*) => {$(
        pub fn $name(pattern: Numbers, $($number: $type,)* out: &mut [$element]) -> Result<usize, Refused> {
            let [a, b, p, s] = pattern;
            // SAFETY: the slice has so many elements, and is lent for the call.
            c::answered(unsafe { c::$call(a, b, p, s, $($number,)* out.as_mut_ptr(), out.len()) })
        }
    )*};
}

/// Declares functions that pass a layout's four numbers on, then others, and fill `out`.
macro_rules! filling_from_layout {
    ($($name:ident = $call:ident($($number:ident: $type:ty),*; $element:ty);)*) => {$(
        pub fn $name(layout: Layout, $($number: $type,)* out: &mut [$element]) -> Result<usize, Refused> {
            let Layout { chain, octave, tritave, start } = layout;
            // SAFETY: the slice has so many elements, and is lent for the call.
            c::answered(unsafe {
                c::$call(chain, octave, tritave, start, $($number,)* out.as_mut_ptr(), out.len())
            })
        }
    )*};
}

filling! {
    pergen = vn_pergen(period: u16, generator: u16; u16);
    generation = vn_generation(period: u16, generator: u16, key: i32; u16);
    accidentals = vn_accidentals(period: u16, generator: u16, symbols: u16, origin: u16, key: i32; u16);
    mos_find = vn_mos_find(period: u16, generator: u16, steps: u16; u16);
    walk_moves = vn_walk_moves(period: u16, generator: u16; i32);
    fractional_child = vn_fractional_child(pattern: Fractional; Fractional);
    chain_letters = vn_chain_letters(chain: u16; u16);
    chain_name = vn_chain_name(chain: u16; u8);
    tritaves = vn_tritaves(n: u16; u16);
    find_by_edo = vn_find_by_edo(n: u16; u16);
    edo_report = vn_edo_report(; u8);
    layer_kind = vn_layer_kind(total: u16, number: u16; u16);
}

filling_from_pattern! {
    mos_child = vn_mos_child(; u16);
    mos_parent = vn_mos_parent(; u16);
    mos_genesis = vn_mos_genesis(; u16);
    mos_coprime = vn_mos_coprime(; u16);
    mos_children = vn_mos_children(; u16);
    mos_parents = vn_mos_parents(; u16);
    mos_layers = vn_mos_layers(; u16);
    mos_key = vn_mos_key(p: i16, s: i16; i64);
}

filling_from_layout! {
    layout = vn_layout(; u16);
    scale_name = vn_scale_name(; u8);
    layout_accidentals = vn_layout_accidentals(key: i32; u16);
    moves = vn_moves(; i32);
}

/// A letter's index, signs and stars.
pub fn read_spelling(layout: Layout, text: &[u8], out: &mut [i64]) -> Result<usize, Refused> {
    let Layout {
        chain,
        octave,
        tritave,
        start,
    } = layout;
    let (bytes, count) = (text.as_ptr(), text.len());
    // SAFETY: both slices have so many elements, and the second is lent for the call.
    c::answered(unsafe {
        c::vn_read_spelling(
            chain,
            octave,
            tritave,
            start,
            bytes,
            count,
            out.as_mut_ptr(),
            out.len(),
        )
    })
}

/// The nine numbers of an explanation.
pub fn explain(
    layout: Layout,
    first: &[u8],
    second: &[u8],
    out: &mut [i64],
) -> Result<usize, Refused> {
    let Layout {
        chain,
        octave,
        tritave,
        start,
    } = layout;
    // SAFETY: all slices have so many elements, and the last is lent for the call.
    c::answered(unsafe {
        c::vn_explain(
            chain,
            octave,
            tritave,
            start,
            first.as_ptr(),
            first.len(),
            second.as_ptr(),
            second.len(),
            out.as_mut_ptr(),
            out.len(),
        )
    })
}

/// An offset and a length.
pub fn book_find(book: &[u8], key: i32, out: &mut [u32]) -> Result<usize, Refused> {
    // SAFETY: both slices have so many elements, and the second is lent for the call.
    c::answered(unsafe {
        c::vn_book_find(book.as_ptr(), book.len(), key, out.as_mut_ptr(), out.len())
    })
}
