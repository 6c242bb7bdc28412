//! Why two typed spellings are one key, or two.

use crate::Layout;
use crate::Refused;
use crate::c;

/// What two spellings are to each other.
#[derive(Clone, Copy, Debug, PartialEq, Eq, Hash)]
pub enum Verdict {
    /// Their stars agree, and their places are a multiple of the reduced period apart.
    OneKey,
    /// Their stars agree, and their places are not a multiple of it apart.
    TwoOnOneChain,
    /// Their stars differ.
    TwoOnDifferentChains,
}

/// Where a spelling stands.
#[derive(Clone, Copy, Debug, PartialEq, Eq, Hash)]
pub struct Standing {
    /// Its place on the chain, counted from the letter of key 0.
    pub place: i64,
    /// How many stars it has.
    pub stars: u16,
    /// The key of the octave that it sounds.
    pub key: u16,
}

/// Why two spellings are one key, or two.
#[derive(Clone, Copy, Debug, PartialEq, Eq, Hash)]
pub struct Explanation {
    /// Where the first spelling stands.
    pub first: Standing,
    /// Where the second one stands.
    pub second: Standing,
    /// How many places lie between them, whichever comes first.
    pub apart: u64,
    /// After how many places the chain comes round.
    pub reduced_period: u16,
    /// What follows.
    pub verdict: Verdict,
}

/// Why two spellings, typed as texts, are one key or two (1, 2, 3, 4, 18, of the first text and of
/// the second 23, then 21).
///
/// ```
/// use vetchnoon::{Layout, Question, Refused, Verdict, explain};
///
/// let twelve = Layout::new(1, 12, 19)?;
/// let one = explain(twelve, b"F#", b"Gb")?;
/// assert_eq!((one.first.place, one.second.place), (4, -8));
/// assert_eq!((one.apart, one.reduced_period), (12, 12));
/// assert_eq!((one.first.key, one.verdict), (4, Verdict::OneKey));
///
/// let two = explain(Layout::new(1, 31, 49)?, b"F#", b"Gb")?;
/// assert_eq!((two.first.key, two.second.key), (10, 11));
/// assert_eq!(two.verdict, Verdict::TwoOnOneChain);
///
/// let starred = explain(Layout::new(1, 24, 38)?, b"D", b"D*")?;
/// assert_eq!(starred.verdict, Verdict::TwoOnDifferentChains);
///
/// assert_eq!(explain(twelve, b"F#", b"H"), Err(Refused(Question::NoteName)));
/// # Ok::<(), Refused>(())
/// ```
pub fn explain(layout: Layout, first: &[u8], second: &[u8]) -> Result<Explanation, Refused> {
    let [chain, octave, tritave, start] = layout.numbers();
    let (bytes, count) = (first.as_ptr(), first.len());
    let (others, other_count) = (second.as_ptr(), second.len());
    let (_, numbers) = c::written(|out, len| {
        // SAFETY: both texts have so many elements, and `written` lends so many.
        unsafe {
            c::vn_explain(
                chain,
                octave,
                tritave,
                start,
                bytes,
                count,
                others,
                other_count,
                out,
                len,
            )
        }
    })?;
    Ok(Explanation::of(numbers))
}

impl Explanation {
    /// By the numbers that C has.
    fn of(numbers: [i64; 9]) -> Self {
        let [
            place,
            other_place,
            stars,
            other_stars,
            key,
            other_key,
            apart,
            reduced_period,
            verdict,
        ] = numbers;
        Self {
            first: Standing::of([place, stars, key]),
            second: Standing::of([other_place, other_stars, other_key]),
            apart: apart.unsigned_abs(),
            reduced_period: c::of_16_bits(reduced_period),
            verdict: match verdict {
                0 => Verdict::OneKey,
                1 => Verdict::TwoOnOneChain,
                _ => Verdict::TwoOnDifferentChains,
            },
        }
    }
}

impl Standing {
    fn of([place, stars, key]: [i64; 3]) -> Self {
        Self {
            place,
            stars: c::of_16_bits(stars),
            key: c::of_16_bits(key),
        }
    }
}

/// How many bytes the text has that [`explain_text`] writes (1, 2, 3, 4, 18, of the first text and of
/// the second 23, then 21).
///
/// ```
/// use vetchnoon::{Layout, explain_text_len};
///
/// assert_eq!(explain_text_len(Layout::new(1, 12, 19)?, b"F#", b"Gb"), Ok(219));
/// # Ok::<(), vetchnoon::Refused>(())
/// ```
pub fn explain_text_len(layout: Layout, first: &[u8], second: &[u8]) -> Result<usize, Refused> {
    let [chain, octave, tritave, start] = layout.numbers();
    let (bytes, count) = (first.as_ptr(), first.len());
    let (others, other_count) = (second.as_ptr(), second.len());
    // SAFETY: both texts have so many elements.
    c::answered(unsafe {
        c::vn_explain_text_len(
            chain,
            octave,
            tritave,
            start,
            bytes,
            count,
            others,
            other_count,
        )
    })
}

/// The same in three sentences for a pupil, each ended by a line feed, in UTF-8 (1, 2, 3, 4, 18, of
/// the first text and of the second 23, then 21, then 10).
///
/// ```
/// use vetchnoon::{Layout, explain_text};
///
/// let mut text = [0; 256];
/// let bytes = explain_text(Layout::new(1, 12, 19)?, b"F#", b"Gb", &mut text)?;
/// assert_eq!(
///     core::str::from_utf8(&text[..bytes]),
///     Ok("F# stands 4 places up the chain from D: 4 × 7 keys up are key 4 of 12.\n\
///         Gb stands 8 places down the chain from D: 8 × 7 keys down are key 4 of 12.\n\
///         They are 12 places apart, and the chain comes round after 12: one key.\n")
/// );
/// # Ok::<(), vetchnoon::Refused>(())
/// ```
pub fn explain_text(
    layout: Layout,
    first: &[u8],
    second: &[u8],
    out: &mut [u8],
) -> Result<usize, Refused> {
    let [chain, octave, tritave, start] = layout.numbers();
    let (bytes, count) = (first.as_ptr(), first.len());
    let (others, other_count) = (second.as_ptr(), second.len());
    c::lent(out, |out, len| {
        // SAFETY: both texts have so many elements, and `lent` lends so many.
        unsafe {
            c::vn_explain_text(
                chain,
                octave,
                tritave,
                start,
                bytes,
                count,
                others,
                other_count,
                out,
                len,
            )
        }
    })
}
