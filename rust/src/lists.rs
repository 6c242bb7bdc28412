//! Lists and texts of a few elements, in place.

use core::fmt;
use core::ops::Deref;
use core::str;

/// At most `N` elements, in place; a slice of those that there are.
///
/// ```
/// let letters: vetchnoon::List<char, 9> = vetchnoon::chain_letters(2)?;
/// assert_eq!(letters.len(), 5);
/// assert_eq!(letters.iter().collect::<String>(), "CGDAE");
/// # Ok::<(), vetchnoon::Refused>(())
/// ```
#[derive(Clone, Copy)]
pub struct List<T, const N: usize> {
    /// Those past the length are any.
    elements: [T; N],
    length: usize,
}

impl<T, const N: usize> List<T, N> {
    /// The first of these elements.
    pub(crate) fn first(length: usize, elements: [T; N]) -> Self {
        assert!(
            length <= N,
            "no more elements are written than there is room for"
        );
        Self { elements, length }
    }
}

impl<T, const N: usize> Deref for List<T, N> {
    type Target = [T];

    fn deref(&self) -> &[T] {
        &self.elements[..self.length]
    }
}

impl<T: PartialEq, const N: usize> PartialEq for List<T, N> {
    fn eq(&self, other: &Self) -> bool {
        **self == **other
    }
}

impl<T: Eq, const N: usize> Eq for List<T, N> {}

impl<T: fmt::Debug, const N: usize> fmt::Debug for List<T, N> {
    fn fmt(&self, f: &mut fmt::Formatter<'_>) -> fmt::Result {
        (**self).fmt(f)
    }
}

/// A text of at most `N` bytes, in place; a `str` of those that there are.
///
/// ```
/// let name: vetchnoon::Text<12> = vetchnoon::chain_name(1)?;
/// assert_eq!(name.len(), 11);
/// assert_eq!(format!("{name}!"), "Meantone[7]!");
/// # Ok::<(), vetchnoon::Refused>(())
/// ```
#[derive(Clone, Copy, PartialEq, Eq)]
pub struct Text<const N: usize>(List<u8, N>);

impl<const N: usize> Text<N> {
    /// The first of these bytes.
    pub(crate) fn first(length: usize, bytes: [u8; N]) -> Self {
        Self(List::first(length, bytes))
    }
}

impl<const N: usize> Deref for Text<N> {
    type Target = str;

    fn deref(&self) -> &str {
        str::from_utf8(&self.0).expect("a text is UTF-8")
    }
}

impl<const N: usize> fmt::Debug for Text<N> {
    fn fmt(&self, f: &mut fmt::Formatter<'_>) -> fmt::Result {
        fmt::Debug::fmt(&**self, f)
    }
}

impl<const N: usize> fmt::Display for Text<N> {
    fn fmt(&self, f: &mut fmt::Formatter<'_>) -> fmt::Result {
        fmt::Display::fmt(&**self, f)
    }
}
