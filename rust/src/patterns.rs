//! Step patterns, and moves on their boards.

use crate::Refused;
use crate::c;

/// A step pattern. Any four numbers may stand here: each call that is given a pattern asks 7 of it
/// first.
#[repr(C)]
#[derive(Clone, Copy, Debug, Default, PartialEq, Eq, Hash)]
pub struct Pattern {
    /// How many primary steps it has.
    pub primary_count: u16,
    /// How many secondary steps.
    pub secondary_count: u16,
    /// How large they are.
    pub primary_step: u16,
    /// And these.
    pub secondary_step: u16,
}

impl Pattern {
    /// Both counts, then both steps, primary first.
    ///
    /// ```
    /// let diatonic = vetchnoon::Pattern::new(5, 2, 2, 1);
    /// assert_eq!((diatonic.primary_count, diatonic.primary_step), (5, 2));
    /// assert_eq!(diatonic.numbers(), [5, 2, 2, 1]);
    /// ```
    pub const fn new(
        primary_count: u16,
        secondary_count: u16,
        primary_step: u16,
        secondary_step: u16,
    ) -> Self {
        Self {
            primary_count,
            secondary_count,
            primary_step,
            secondary_step,
        }
    }

    /// The four numbers, as calls have them: counts, then steps, primary first.
    ///
    /// ```
    /// assert_eq!(vetchnoon::Pattern::new(5, 2, 2, 1).numbers(), [5, 2, 2, 1]);
    /// ```
    pub const fn numbers(self) -> [u16; 4] {
        [
            self.primary_count,
            self.secondary_count,
            self.primary_step,
            self.secondary_step,
        ]
    }

    pub(crate) const fn of([a, b, p, s]: [u16; 4]) -> Self {
        Self::new(a, b, p, s)
    }
}

/// A call that writes one pattern, or nothing.
fn pattern(call: impl FnOnce(*mut u16, usize) -> i64) -> Result<Option<Pattern>, Refused> {
    let (length, numbers) = c::written(call)?;
    Ok((length > 0).then(|| Pattern::of(numbers)))
}

/// Lends a slice of patterns, or moves, as the numbers that they consist of, and tells how many of
/// them were written.
fn lent_by_fours<T, N>(
    out: &mut [T],
    call: impl FnOnce(*mut N, usize) -> i64,
) -> Result<usize, Refused> {
    const { assert!(size_of::<T>() == 4 * size_of::<N>() && align_of::<T>() == align_of::<N>()) }
    c::answered(call(out.as_mut_ptr().cast(), 4 * out.len())).map(|numbers| numbers / 4)
}

/// The child, the next finer pattern: the counts' sum becomes the count of the shorter step, and the
/// steps' difference the longer step; none where a step is 0 or both are equal (7).
///
/// ```
/// use vetchnoon::{Pattern, mos_child};
///
/// let diatonic = Pattern::new(5, 2, 2, 1);
/// assert_eq!(mos_child(diatonic), Ok(Some(Pattern::new(5, 7, 1, 1))));
/// assert_eq!(mos_child(Pattern::new(5, 7, 1, 1)), Ok(None));
/// ```
pub fn mos_child(given: Pattern) -> Result<Option<Pattern>, Refused> {
    let [a, b, p, s] = given.numbers();
    pattern(|out, len| {
        // SAFETY: `pattern` lends so many elements.
        unsafe { c::vn_mos_child(a, b, p, s, out, len) }
    })
}

/// The parent, the next coarser pattern: the counts' difference becomes the larger count, and the
/// steps' sum the step of the smaller count; none where a count is 0 or both are equal (7).
///
/// ```
/// use vetchnoon::{Pattern, mos_parent};
///
/// let diatonic = Pattern::new(5, 2, 2, 1);
/// assert_eq!(mos_parent(diatonic), Ok(Some(Pattern::new(3, 2, 2, 3))));
/// assert_eq!(mos_parent(Pattern::new(1, 1, 7, 5)), Ok(None));
/// ```
pub fn mos_parent(given: Pattern) -> Result<Option<Pattern>, Refused> {
    let [a, b, p, s] = given.numbers();
    pattern(|out, len| {
        // SAFETY: `pattern` lends so many elements.
        unsafe { c::vn_mos_parent(a, b, p, s, out, len) }
    })
}

/// The pattern that the walk of parents ends with (7).
///
/// ```
/// use vetchnoon::{Pattern, mos_genesis};
///
/// let diatonic = Pattern::new(5, 2, 2, 1);
/// assert_eq!(mos_genesis(diatonic), Ok(Pattern::new(1, 1, 7, 5)));
/// ```
pub fn mos_genesis(given: Pattern) -> Result<Pattern, Refused> {
    let [a, b, p, s] = given.numbers();
    let (_, numbers) = c::written(|out, len| {
        // SAFETY: `written` lends so many elements.
        unsafe { c::vn_mos_genesis(a, b, p, s, out, len) }
    })?;
    Ok(Pattern::of(numbers))
}

/// The pattern whose secondary step is exchanged for one close to the primary step, on the same side,
/// with which that has no common divisor but 1; the same pattern where there is none already (7, 8).
///
/// ```
/// use vetchnoon::{Pattern, Question, Refused, mos_coprime};
///
/// let doubled = Pattern::new(5, 2, 4, 2);
/// assert_eq!(mos_coprime(doubled), Ok(Pattern::new(5, 2, 4, 3)));
/// let large = Pattern::new(1, 60_000, 4, 0);
/// assert_eq!(mos_coprime(large), Err(Refused(Question::CoprimeSize)));
/// ```
pub fn mos_coprime(given: Pattern) -> Result<Pattern, Refused> {
    let [a, b, p, s] = given.numbers();
    let (_, numbers) = c::written(|out, len| {
        // SAFETY: `written` lends so many elements.
        unsafe { c::vn_mos_coprime(a, b, p, s, out, len) }
    })?;
    Ok(Pattern::of(numbers))
}

/// The first pattern with so many steps on the walk of children from the genesis of a period and a
/// generator, if there is one (2).
///
/// ```
/// use vetchnoon::{Pattern, mos_find};
///
/// assert_eq!(mos_find(12, 7, 5), Ok(Some(Pattern::new(3, 2, 2, 3))));
/// assert_eq!(mos_find(12, 7, 9), Ok(None));
/// ```
pub fn mos_find(period: u16, generator: u16, steps: u16) -> Result<Option<Pattern>, Refused> {
    pattern(|out, len| {
        // SAFETY: `pattern` lends so many elements.
        unsafe { c::vn_mos_find(period, generator, steps, out, len) }
    })
}

/// The whole walk of children, the given pattern first (7, 10). There are at most
/// primary step + secondary step + 1.
///
/// ```
/// use vetchnoon::{Pattern, mos_children};
///
/// let mut walk = [Pattern::default(); 12];
/// assert_eq!(mos_children(Pattern::new(1, 1, 7, 5), &mut walk), Ok(5));
/// assert_eq!(walk[3..5], [Pattern::new(5, 2, 2, 1), Pattern::new(5, 7, 1, 1)]);
/// ```
pub fn mos_children(given: Pattern, out: &mut [Pattern]) -> Result<usize, Refused> {
    let [a, b, p, s] = given.numbers();
    lent_by_fours(out, |out, len| {
        // SAFETY: `lent_by_fours` lends so many elements.
        unsafe { c::vn_mos_children(a, b, p, s, out, len) }
    })
}

/// The whole walk of parents, the given pattern first (7, 10). There are at most
/// primary count + secondary count + 1.
///
/// ```
/// use vetchnoon::{Pattern, mos_parents};
///
/// let mut walk = [Pattern::default(); 8];
/// assert_eq!(mos_parents(Pattern::new(5, 2, 2, 1), &mut walk), Ok(4));
/// assert_eq!(walk[3], Pattern::new(1, 1, 7, 5));
/// ```
pub fn mos_parents(given: Pattern, out: &mut [Pattern]) -> Result<usize, Refused> {
    let [a, b, p, s] = given.numbers();
    lent_by_fours(out, |out, len| {
        // SAFETY: `lent_by_fours` lends so many elements.
        unsafe { c::vn_mos_parents(a, b, p, s, out, len) }
    })
}

/// Each layer's number, from 0, as often as the layer's size (7, 10): as many numbers as the size
/// divided by the greatest common divisor of the steps, so at most the size.
///
/// ```
/// use vetchnoon::{Pattern, mos_layers};
///
/// let mut layers = [0; 12];
/// assert_eq!(mos_layers(Pattern::new(5, 2, 2, 1), &mut layers), Ok(12));
/// assert_eq!(layers, [0, 0, 0, 0, 0, 0, 0, 1, 1, 1, 1, 1]);
/// ```
pub fn mos_layers(given: Pattern, out: &mut [u16]) -> Result<usize, Refused> {
    let [a, b, p, s] = given.numbers();
    c::lent(out, |out, len| {
        // SAFETY: `lent` lends so many elements.
        unsafe { c::vn_mos_layers(a, b, p, s, out, len) }
    })
}

/// The key so many primary and secondary steps from the origin (7).
///
/// ```
/// use vetchnoon::{Pattern, mos_key};
///
/// assert_eq!(mos_key(Pattern::new(5, 2, 2, 1), 5, 2), Ok(12));
/// assert_eq!(mos_key(Pattern::new(5, 2, 2, 1), -32768, 3), Ok(-65533));
/// ```
pub fn mos_key(given: Pattern, primary: i16, secondary: i16) -> Result<i64, Refused> {
    let [a, b, p, s] = given.numbers();
    let (_, [key]) = c::written(|out, len| {
        // SAFETY: `written` lends so many elements.
        unsafe { c::vn_mos_key(a, b, p, s, primary, secondary, out, len) }
    })?;
    Ok(key)
}

/// A move on the board: so many octaves and generators make a step.
#[repr(C)]
#[derive(Clone, Copy, Debug, Default, PartialEq, Eq, Hash)]
pub struct Move {
    /// How many octaves, below 0 downwards.
    pub octaves: i32,
    /// How many generators.
    pub generators: i32,
}

/// The moves of a pattern's two steps.
#[repr(C)]
#[derive(Clone, Copy, Debug, Default, PartialEq, Eq, Hash)]
pub struct Moves {
    /// What makes the primary step.
    pub primary: Move,
    /// What makes the secondary one.
    pub secondary: Move,
}

impl Moves {
    pub(crate) const fn of([octaves, generators, others, more]: [i32; 4]) -> Self {
        let primary = Move {
            octaves,
            generators,
        };
        let secondary = Move {
            octaves: others,
            generators: more,
        };
        Self { primary, secondary }
    }
}

/// The moves of every pattern on the walk of children from the genesis of a period and a generator,
/// the genesis first (2, 10). There are at most as many as the period.
///
/// ```
/// use vetchnoon::{Move, Moves, Pattern, mos_children, walk_moves};
///
/// let (octave, generator) = (12, 7);
/// let mut patterns = [Pattern::default(); 12];
/// let mut moves = [Moves::default(); 12];
/// assert_eq!(mos_children(Pattern::new(1, 1, 7, 5), &mut patterns), Ok(5));
/// assert_eq!(walk_moves(octave, generator, &mut moves), Ok(5));
/// assert_eq!(moves[1].primary, Move { octaves: -1, generators: 2 });
///
/// for (pattern, moves) in patterns[..5].iter().zip(&moves) {
///     let step = |by: Move| 12 * by.octaves + 7 * by.generators;
///     assert_eq!(step(moves.primary), i32::from(pattern.primary_step));
///     assert_eq!(step(moves.secondary), i32::from(pattern.secondary_step));
/// }
/// ```
pub fn walk_moves(period: u16, generator: u16, out: &mut [Moves]) -> Result<usize, Refused> {
    lent_by_fours(out, |out, len| {
        // SAFETY: `lent_by_fours` lends so many elements.
        unsafe { c::vn_walk_moves(period, generator, out, len) }
    })
}
