//! The C interface, as `include/vetchnoon.h` declares it, for callers who lend slices of their own.
//!
//! A function returns the answer, or how many elements it wrote; or, below 0, minus the number of
//! the first question that has the answer no. [`answered`] reads it.
//!
//! # Safety
//!
//! A slice is a pointer to its first element and the number of its elements. All of them are
//! readable, and those of an output slice writable. The pointer is aligned and not null, even where
//! the number is 0. An output slice overlaps no other slice of the call.
//!
//! ```
//! use vetchnoon::c;
//!
//! let mut numbers = [0; 3];
//! // SAFETY: the slice has so many elements, and is lent for the call.
//! let answer = unsafe { c::vn_pergen(12, 9, numbers.as_mut_ptr(), numbers.len()) };
//! assert_eq!(c::answered(answer), Ok(3));
//! assert_eq!(numbers, [3, 4, 3]);
//! ```

// The header says what each function does.
#![allow(missing_docs)]

use crate::Fractional;
use crate::Question;
use crate::Record;
use crate::Refused;

/// What a function's answer says: the number that it is, or the question that refused it.
///
/// ```
/// use vetchnoon::{Question, Refused, c};
///
/// assert_eq!(c::answered(12), Ok(12));
/// assert_eq!(c::answered(-4), Err(Refused(Question::Pattern)));
/// ```
///
/// # Panics
///
/// Where no question of this version has the number: the library is of another version.
pub fn answered(answer: i64) -> Result<usize, Refused> {
    usize::try_from(answer).map_err(|_| {
        let question = u8::try_from(answer.unsigned_abs()).ok();
        let question = question.and_then(Question::from_number);
        Refused(question.expect("a refusal's number is a question's"))
    })
}

/// Lends a slice to a call, as its first element and the number of its elements.
pub(crate) fn lent<T>(
    out: &mut [T],
    call: impl FnOnce(*mut T, usize) -> i64,
) -> Result<usize, Refused> {
    answered(call(out.as_mut_ptr(), out.len()))
}

/// What a call writes into room for `N` elements, and how many it writes; the others are as they
/// were made.
pub(crate) fn written<T: Copy + Default, const N: usize>(
    call: impl FnOnce(*mut T, usize) -> i64,
) -> Result<(usize, [T; N]), Refused> {
    let mut out = [T::default(); N];
    let length = lent(&mut out, call)?;
    Ok((length, out))
}

/// A number that the library answers, which fits its type.
pub(crate) fn number(answer: i64) -> Result<u16, Refused> {
    let number = answered(answer)?;
    Ok(u16::try_from(number).expect("a number of the octave has 16 bits"))
}

/// A number that the library writes, which has 16 bits.
pub(crate) fn of_16_bits(number: i64) -> u16 {
    u16::try_from(number).expect("a letter, a star, a key and a period have 16 bits")
}

// SAFETY: these are the header's declarations; a function that takes numbers alone may be called with any.
unsafe extern "C" {
    pub safe fn vn_version() -> i64;
    pub safe fn vn_gcd(x: u16, y: u16) -> i64;
    pub safe fn vn_rem(numer: i32, denom: u16) -> i64;

    pub fn vn_pergen(period: u16, generator: u16, out: *mut u16, len: usize) -> i64;
    pub fn vn_generation(period: u16, generator: u16, key: i32, out: *mut u16, len: usize) -> i64;
    pub fn vn_accidentals(
        period: u16,
        generator: u16,
        symbols: u16,
        origin: u16,
        key: i32,
        out: *mut u16,
        len: usize,
    ) -> i64;

    pub fn vn_mos_child(a: u16, b: u16, p: u16, s: u16, out: *mut u16, len: usize) -> i64;
    pub fn vn_mos_parent(a: u16, b: u16, p: u16, s: u16, out: *mut u16, len: usize) -> i64;
    pub fn vn_mos_genesis(a: u16, b: u16, p: u16, s: u16, out: *mut u16, len: usize) -> i64;
    pub fn vn_mos_coprime(a: u16, b: u16, p: u16, s: u16, out: *mut u16, len: usize) -> i64;
    pub fn vn_mos_children(a: u16, b: u16, p: u16, s: u16, out: *mut u16, len: usize) -> i64;
    pub fn vn_mos_parents(a: u16, b: u16, p: u16, s: u16, out: *mut u16, len: usize) -> i64;
    pub fn vn_mos_layers(a: u16, b: u16, p: u16, s: u16, out: *mut u16, len: usize) -> i64;
    pub fn vn_mos_key(
        a: u16,
        b: u16,
        primary_step: u16,
        secondary_step: u16,
        p: i16,
        s: i16,
        out: *mut i64,
        len: usize,
    ) -> i64;
    pub fn vn_mos_find(period: u16, generator: u16, steps: u16, out: *mut u16, len: usize) -> i64;
    pub fn vn_walk_moves(period: u16, generator: u16, out: *mut i32, len: usize) -> i64;

    pub fn vn_fractional_child(pattern: Fractional, out: *mut Fractional, len: usize) -> i64;
    pub safe fn vn_fractional_children_len(generator: f64) -> i64;
    pub fn vn_fractional_children(generator: f64, out: *mut Fractional, len: usize) -> i64;

    pub fn vn_chain_letters(chain: u16, out: *mut u16, len: usize) -> i64;
    pub fn vn_chain_name(chain: u16, out: *mut u8, len: usize) -> i64;
    pub safe fn vn_start(chain: u16) -> i64;

    pub fn vn_tritaves(n: u16, out: *mut u16, len: usize) -> i64;
    pub fn vn_find_by_edo(n: u16, out: *mut u16, len: usize) -> i64;
    pub fn vn_edo_report(out: *mut u8, len: usize) -> i64;

    pub fn vn_layout(
        chain: u16,
        octave: u16,
        tritave: u16,
        start: u16,
        out: *mut u16,
        len: usize,
    ) -> i64;
    pub fn vn_scale_name(
        chain: u16,
        octave: u16,
        tritave: u16,
        start: u16,
        out: *mut u8,
        len: usize,
    ) -> i64;
    pub fn vn_note_name(
        chain: u16,
        octave: u16,
        tritave: u16,
        start: u16,
        key: i32,
        out: *mut u8,
        len: usize,
    ) -> i64;
    pub safe fn vn_note_name_len(
        chain: u16,
        octave: u16,
        tritave: u16,
        start: u16,
        key: i32,
    ) -> i64;
    pub fn vn_layout_accidentals(
        chain: u16,
        octave: u16,
        tritave: u16,
        start: u16,
        key: i32,
        out: *mut u16,
        len: usize,
    ) -> i64;
    pub safe fn vn_sounded_key(
        chain: u16,
        octave: u16,
        tritave: u16,
        start: u16,
        letter: u16,
        signs: i32,
        stars: u16,
    ) -> i64;

    pub fn vn_read_spelling(
        chain: u16,
        octave: u16,
        tritave: u16,
        start: u16,
        text: *const u8,
        text_len: usize,
        out: *mut i64,
        len: usize,
    ) -> i64;
    pub fn vn_find_key(
        chain: u16,
        octave: u16,
        tritave: u16,
        start: u16,
        text: *const u8,
        text_len: usize,
    ) -> i64;

    pub fn vn_explain(
        chain: u16,
        octave: u16,
        tritave: u16,
        start: u16,
        first: *const u8,
        first_len: usize,
        second: *const u8,
        second_len: usize,
        out: *mut i64,
        len: usize,
    ) -> i64;
    pub fn vn_explain_text_len(
        chain: u16,
        octave: u16,
        tritave: u16,
        start: u16,
        first: *const u8,
        first_len: usize,
        second: *const u8,
        second_len: usize,
    ) -> i64;
    pub fn vn_explain_text(
        chain: u16,
        octave: u16,
        tritave: u16,
        start: u16,
        first: *const u8,
        first_len: usize,
        second: *const u8,
        second_len: usize,
        out: *mut u8,
        len: usize,
    ) -> i64;

    pub safe fn vn_nearest_natural(
        chain: u16,
        octave: u16,
        tritave: u16,
        start: u16,
        key: i32,
        letter: u16,
    ) -> i64;
    pub fn vn_keys_in_reach(
        chain: u16,
        octave: u16,
        tritave: u16,
        start: u16,
        key: i32,
        distance: u16,
        out: *mut u16,
        len: usize,
    ) -> i64;

    pub safe fn vn_moved(
        chain: u16,
        octave: u16,
        start: u16,
        from_tritave: u16,
        to_tritave: u16,
        letter: u16,
        signs: i32,
        stars: u16,
    ) -> i64;
    pub fn vn_move_table(
        chain: u16,
        octave: u16,
        start: u16,
        from_tritave: u16,
        to_tritave: u16,
        out: *mut u16,
        len: usize,
    ) -> i64;
    pub safe fn vn_largest_move(
        chain: u16,
        octave: u16,
        start: u16,
        from_tritave: u16,
        to_tritave: u16,
    ) -> i64;

    pub fn vn_to_chain_order(
        chain: u16,
        octave: u16,
        tritave: u16,
        start: u16,
        keys: *const u16,
        keys_len: usize,
        out: *mut u16,
        len: usize,
    ) -> i64;
    pub fn vn_to_key_order(
        chain: u16,
        octave: u16,
        tritave: u16,
        start: u16,
        keys: *const u16,
        keys_len: usize,
        out: *mut u16,
        len: usize,
    ) -> i64;
    pub fn vn_moves(
        chain: u16,
        octave: u16,
        tritave: u16,
        start: u16,
        out: *mut i32,
        len: usize,
    ) -> i64;

    pub safe fn vn_layer_count(chain: u16, octave: u16, tritave: u16, start: u16) -> i64;
    pub fn vn_layout_layers(
        chain: u16,
        octave: u16,
        tritave: u16,
        start: u16,
        out: *mut u16,
        len: usize,
    ) -> i64;
    pub safe fn vn_layer(chain: u16, octave: u16, tritave: u16, start: u16, key: i32) -> i64;
    pub fn vn_layer_kind(total: u16, number: u16, out: *mut u16, len: usize) -> i64;
    pub fn vn_lamp_strip(
        chain: u16,
        octave: u16,
        tritave: u16,
        start: u16,
        out: *mut u16,
        len: usize,
    ) -> i64;
    pub safe fn vn_lamp(chain: u16, octave: u16, tritave: u16, start: u16, key: i32) -> i64;
    pub fn vn_widen_strip(strip: *const u8, strip_len: usize, out: *mut u16, len: usize) -> i64;
    pub fn vn_narrow_strip(strip: *const u16, strip_len: usize, out: *mut u8, len: usize) -> i64;
    pub safe fn vn_kbm_len(chain: u16, octave: u16, tritave: u16, start: u16) -> i64;
    pub fn vn_kbm(
        chain: u16,
        octave: u16,
        tritave: u16,
        start: u16,
        out: *mut u8,
        len: usize,
    ) -> i64;
    pub fn vn_kbm_read(
        chain: u16,
        octave: u16,
        tritave: u16,
        start: u16,
        text: *const u8,
        text_len: usize,
        out: *mut u16,
        len: usize,
    ) -> i64;

    pub fn vn_sheet(
        chain: u16,
        octave: u16,
        tritave: u16,
        start: u16,
        records: *mut Record,
        len: usize,
    ) -> i64;

    pub safe fn vn_book_len(chain: u16, octave: u16, tritave: u16, start: u16) -> i64;
    pub fn vn_book(
        chain: u16,
        octave: u16,
        tritave: u16,
        start: u16,
        out: *mut u8,
        len: usize,
    ) -> i64;
    pub fn vn_book_find(
        book: *const u8,
        book_len: usize,
        key: i32,
        out: *mut u32,
        len: usize,
    ) -> i64;

    pub fn vn_key_table(line: *const u8, line_len: usize, out: *mut u8, len: usize) -> i64;
}
