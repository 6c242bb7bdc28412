//! Layouts: their numbers, and what is asked about their keys.

use crate::Accidentals;
use crate::Moves;
use crate::Pattern;
use crate::Pergen;
use crate::Refused;
use crate::Text;
use crate::c;
use crate::chains;

/// A chain in a tuning: the chain's code, how many steps make an octave and a tritave, and which
/// of its letters key 0 has. Any four numbers may stand here: each call that is given a layout
/// asks 1, 2, 3, 4 and 18 of it first.
#[derive(Clone, Copy, Debug, PartialEq, Eq, Hash)]
pub struct Layout {
    /// The chain's code, from 0 to 5.
    pub chain: u16,
    /// How many steps make an octave.
    pub octave: u16,
    /// How many steps make a tritave, the ratio 3.
    pub tritave: u16,
    /// The index of key 0's letter among the chain's letters, from 0.
    pub start: u16,
}

impl Layout {
    /// A layout with the chain's own start, which is D's (1). The other questions are asked by the
    /// calls.
    ///
    /// ```
    /// use vetchnoon::{Layout, Question, Refused};
    ///
    /// let twelve = Layout::new(1, 12, 19)?;
    /// assert_eq!(twelve.start, 3);
    /// assert_eq!(Layout::new(6, 12, 19), Err(Refused(Question::Chain)));
    /// # Ok::<(), Refused>(())
    /// ```
    pub fn new(chain: u16, octave: u16, tritave: u16) -> Result<Self, Refused> {
        let start = chains::start(chain)?;
        Ok(Self {
            chain,
            octave,
            tritave,
            start,
        })
    }

    /// The same with another letter on key 0. Spellings are to be compared only within layouts
    /// of one start.
    ///
    /// ```
    /// use vetchnoon::{Layout, Question, Refused, layout_accidentals};
    ///
    /// // F C G D A E B: key 0 is C, and key 1 is C# or Db.
    /// let from_c = Layout::new(1, 12, 19)?.beginning(1);
    /// let spelt = layout_accidentals(from_c, 1)?;
    /// assert_eq!((spelt.sharp_index, spelt.flat_index), (1, 3));
    ///
    /// let from_none = from_c.beginning(7);
    /// assert_eq!(layout_accidentals(from_none, 0), Err(Refused(Question::Start)));
    /// # Ok::<(), Refused>(())
    /// ```
    pub fn beginning(self, start: u16) -> Self {
        Self { start, ..self }
    }

    /// The four numbers, in the order of the calls.
    pub(crate) fn numbers(self) -> [u16; 4] {
        [self.chain, self.octave, self.tritave, self.start]
    }
}

/// The numbers of an accepted layout.
#[derive(Clone, Copy, Debug, PartialEq, Eq, Hash)]
pub struct LayoutNumbers {
    /// The generator.
    pub generator: u16,
    /// What follows from the octave and the generator.
    pub pergen: Pergen,
    /// The step pattern, with as many steps as the chain has letters. Its sharpness is the primary
    /// step minus the secondary one.
    pub pattern: Pattern,
}

/// The layout's numbers (1, 2, 3, 4, 18).
///
/// ```
/// use vetchnoon::{Layout, Pattern, layout};
///
/// let twelve = layout(Layout::new(1, 12, 19)?)?;
/// assert_eq!(twelve.generator, 7);
/// assert_eq!(twelve.pergen.cycles, 1);
/// assert_eq!(twelve.pattern, Pattern::new(5, 2, 2, 1));
/// # Ok::<(), vetchnoon::Refused>(())
/// ```
pub fn layout(layout: Layout) -> Result<LayoutNumbers, Refused> {
    let [chain, octave, tritave, start] = layout.numbers();
    let (_, numbers) = c::written(|out, len| {
        // SAFETY: `written` lends so many elements.
        unsafe { c::vn_layout(chain, octave, tritave, start, out, len) }
    })?;
    let [generator, cycles, reduced_period, inverse, a, b, p, s] = numbers;
    Ok(LayoutNumbers {
        generator,
        pergen: Pergen {
            cycles,
            reduced_period,
            inverse,
        },
        pattern: Pattern::new(a, b, p, s),
    })
}

/// The scale's name (1, 2, 3, 4, 18).
///
/// ```
/// use vetchnoon::{Layout, scale_name};
///
/// assert_eq!(&*scale_name(Layout::new(1, 12, 19)?)?, "diatonic");
/// # Ok::<(), vetchnoon::Refused>(())
/// ```
pub fn scale_name(layout: Layout) -> Result<Text<12>, Refused> {
    let [chain, octave, tritave, start] = layout.numbers();
    let (length, bytes) = c::written(|out, len| {
        // SAFETY: `written` lends so many elements.
        unsafe { c::vn_scale_name(chain, octave, tritave, start, out, len) }
    })?;
    Ok(Text::first(length, bytes))
}

/// How many bytes a key's name has: at most 39,325 (1, 2, 3, 4, 18).
///
/// ```
/// use vetchnoon::{Layout, note_name_len};
///
/// assert_eq!(note_name_len(Layout::new(1, 12, 19)?, 1), Ok(5)); // D#/Eb
/// # Ok::<(), vetchnoon::Refused>(())
/// ```
pub fn note_name_len(layout: Layout, key: i32) -> Result<usize, Refused> {
    let [chain, octave, tritave, start] = layout.numbers();
    c::answered(c::vn_note_name_len(chain, octave, tritave, start, key))
}

/// A key's name in UTF-8 (1, 2, 3, 4, 18, 10).
///
/// ```
/// use vetchnoon::{Layout, note_name};
///
/// let mut name = [0; 16];
/// let bytes = note_name(Layout::new(1, 24, 38)?, 3, &mut name)?;
/// assert_eq!(&name[..bytes], b"(D#/Eb)*");
/// # Ok::<(), vetchnoon::Refused>(())
/// ```
pub fn note_name(layout: Layout, key: i32, out: &mut [u8]) -> Result<usize, Refused> {
    let [chain, octave, tritave, start] = layout.numbers();
    c::lent(out, |out, len| {
        // SAFETY: `lent` lends so many elements.
        unsafe { c::vn_note_name(chain, octave, tritave, start, key, out, len) }
    })
}

/// A key's two spellings (1, 2, 3, 4, 18).
///
/// ```
/// use vetchnoon::{Accidentals, Layout, layout_accidentals};
///
/// // F C G D A E B: key 1 is D# or Eb.
/// let spelt = layout_accidentals(Layout::new(1, 12, 19)?, 1)?;
/// assert_eq!((spelt.sharp_index, spelt.sharp_count), (3, 1));
/// assert_eq!((spelt.flat_index, spelt.flat_count), (5, 1));
/// # Ok::<(), vetchnoon::Refused>(())
/// ```
pub fn layout_accidentals(layout: Layout, key: i32) -> Result<Accidentals, Refused> {
    let [chain, octave, tritave, start] = layout.numbers();
    let (_, numbers) = c::written(|out, len| {
        // SAFETY: `written` lends so many elements.
        unsafe { c::vn_layout_accidentals(chain, octave, tritave, start, key, out, len) }
    })?;
    Ok(Accidentals::of(numbers))
}

/// A letter with signs and stars.
#[derive(Clone, Copy, Debug, Default, PartialEq, Eq, Hash)]
pub struct Spelling {
    /// The letter, by its index along the chain, from 0.
    pub letter: u16,
    /// As many sharps as the number is above 0, or flats as it is below.
    pub signs: i32,
    /// How many stars.
    pub stars: u16,
}

impl Spelling {
    /// A letter with signs and no stars.
    ///
    /// ```
    /// let d_sharp = vetchnoon::Spelling::new(3, 1); // of F C G D A E B
    /// assert_eq!((d_sharp.signs, d_sharp.stars), (1, 0));
    /// ```
    pub const fn new(letter: u16, signs: i32) -> Self {
        Self {
            letter,
            signs,
            stars: 0,
        }
    }
}

/// The key of the octave that a spelling sounds (1, 2, 3, 4, 18, 16, 21).
///
/// ```
/// use vetchnoon::{Layout, Question, Refused, Spelling, sounded_key};
///
/// let twelve = Layout::new(1, 12, 19)?;
/// assert_eq!(sounded_key(twelve, Spelling::new(3, 1)), Ok(1)); // D#
/// assert_eq!(sounded_key(twelve, Spelling::new(5, -1)), Ok(1)); // Eb
/// let starred = Spelling { letter: 3, signs: 0, stars: 1 };
/// assert_eq!(sounded_key(twelve, starred), Err(Refused(Question::Stars)));
/// # Ok::<(), Refused>(())
/// ```
pub fn sounded_key(layout: Layout, spelling: Spelling) -> Result<u16, Refused> {
    let [chain, octave, tritave, start] = layout.numbers();
    let Spelling {
        letter,
        signs,
        stars,
    } = spelling;
    c::number(c::vn_sounded_key(
        chain, octave, tritave, start, letter, signs, stars,
    ))
}

/// The key of 0 to octave − 1 nearest to a key, round the octave, of those that a letter,
/// by its index along the chain, names by itself, with any stars; of two keys equally near,
/// the lower one (1, 2, 3, 4, 18, 16).
///
/// ```
/// use vetchnoon::{Layout, Question, Refused, nearest_natural};
///
/// // F C G D A E B: D and D* are keys 0 and 1.
/// let quarter_tones = Layout::new(1, 24, 38)?;
/// assert_eq!(nearest_natural(quarter_tones, 2, 3), Ok(1));
/// assert_eq!(nearest_natural(quarter_tones, -2, 3), Ok(0));
/// assert_eq!(nearest_natural(quarter_tones, 0, 7), Err(Refused(Question::Letter)));
///
/// // D, D* and D** are keys 0, 1 and 2: from 19 the first and the last are 17 away.
/// assert_eq!(nearest_natural(Layout::new(1, 36, 57)?, 19, 3), Ok(0));
/// # Ok::<(), Refused>(())
/// ```
pub fn nearest_natural(layout: Layout, key: i32, letter: u16) -> Result<u16, Refused> {
    let [chain, octave, tritave, start] = layout.numbers();
    c::number(c::vn_nearest_natural(
        chain, octave, tritave, start, key, letter,
    ))
}

/// All keys of 0 to octave − 1 within a distance of a key, round the octave, each once,
/// rising (1, 2, 3, 4, 18, 10): 2 × distance + 1 of them, or the whole octave where that is
/// more than it has.
///
/// ```
/// use vetchnoon::{Layout, Question, Refused, keys_in_reach};
///
/// let twelve = Layout::new(1, 12, 19)?;
/// let mut keys = [0; 12];
/// assert_eq!(keys_in_reach(twelve, 5, 2, &mut keys), Ok(5));
/// assert_eq!(keys[..5], [3, 4, 5, 6, 7]);
/// assert_eq!(keys_in_reach(twelve, -1, 2, &mut keys), Ok(5)); // past the octave's end
/// assert_eq!(keys[..5], [0, 1, 9, 10, 11]);
///
/// assert_eq!(keys_in_reach(twelve, 5, 6, &mut keys), Ok(12)); // from half the octave on, all
/// let too_few = keys_in_reach(twelve, 5, 6, &mut keys[..11]);
/// assert_eq!(too_few, Err(Refused(Question::Room)));
/// # Ok::<(), Refused>(())
/// ```
pub fn keys_in_reach(
    layout: Layout,
    key: i32,
    distance: u16,
    out: &mut [u16],
) -> Result<usize, Refused> {
    let [chain, octave, tritave, start] = layout.numbers();
    c::lent(out, |out, len| {
        // SAFETY: `lent` lends so many elements.
        unsafe { c::vn_keys_in_reach(chain, octave, tritave, start, key, distance, out, len) }
    })
}

/// The moves of the layout's pattern (1, 2, 3, 4, 18). Octaves times the octave plus generators
/// times the generator are the pattern's step.
///
/// ```
/// use vetchnoon::{Layout, Move, moves};
///
/// let twelve = moves(Layout::new(1, 12, 19)?)?;
/// assert_eq!(twelve.primary, Move { octaves: -1, generators: 2 }); // 2 × 7 − 12 is 2
/// assert_eq!(twelve.secondary, Move { octaves: 3, generators: -5 }); // 3 × 12 − 5 × 7 is 1
/// # Ok::<(), vetchnoon::Refused>(())
/// ```
pub fn moves(layout: Layout) -> Result<Moves, Refused> {
    let [chain, octave, tritave, start] = layout.numbers();
    let (_, numbers) = c::written(|out, len| {
        // SAFETY: `written` lends so many elements.
        unsafe { c::vn_moves(chain, octave, tritave, start, out, len) }
    })?;
    Ok(Moves::of(numbers))
}

/// The entries of the octave's keys in the order of the chain: that of key i goes to
/// cycle × reduced period + degree, as [`generation`](crate::generation) gives them
/// (1, 2, 3, 4, 18, 10). Both lists have at least as many entries as the octave has keys, else it
/// is refused with 10; what `keys` has past them is not read.
///
/// ```
/// use vetchnoon::{Layout, Question, Refused, to_chain_order};
///
/// let twelve = Layout::new(1, 12, 19)?;
/// let keys = [0, 1, 2, 3, 4, 5, 6, 7, 8, 9, 10, 11];
/// let mut chain = [0; 12];
/// assert_eq!(to_chain_order(twelve, &keys, &mut chain), Ok(12));
/// assert_eq!(chain, [0, 7, 2, 9, 4, 11, 6, 1, 8, 3, 10, 5]); // D A E B ..
///
/// let too_few = to_chain_order(twelve, &keys[1..], &mut chain);
/// assert_eq!(too_few, Err(Refused(Question::Room)));
/// # Ok::<(), Refused>(())
/// ```
pub fn to_chain_order(layout: Layout, keys: &[u16], out: &mut [u16]) -> Result<usize, Refused> {
    let [chain, octave, tritave, start] = layout.numbers();
    let (list, count) = (keys.as_ptr(), keys.len());
    c::lent(out, |out, len| {
        // SAFETY: `keys` has so many elements, and `lent` lends so many.
        unsafe { c::vn_to_chain_order(chain, octave, tritave, start, list, count, out, len) }
    })
}

/// The entries in the order of keys again (1, 2, 3, 4, 18, 10): key i gets the one at
/// cycle × reduced period + degree. Each of [`to_chain_order`] and this undoes the other.
///
/// ```
/// use vetchnoon::{Layout, to_key_order};
///
/// let chain = [0, 7, 2, 9, 4, 11, 6, 1, 8, 3, 10, 5];
/// let mut keys = [0; 12];
/// assert_eq!(to_key_order(Layout::new(1, 12, 19)?, &chain, &mut keys), Ok(12));
/// assert_eq!(keys, [0, 1, 2, 3, 4, 5, 6, 7, 8, 9, 10, 11]);
/// # Ok::<(), vetchnoon::Refused>(())
/// ```
pub fn to_key_order(layout: Layout, chain: &[u16], out: &mut [u16]) -> Result<usize, Refused> {
    let (list, count) = (chain.as_ptr(), chain.len());
    let [chain, octave, tritave, start] = layout.numbers();
    c::lent(out, |out, len| {
        // SAFETY: the list has so many elements, and `lent` lends so many.
        unsafe { c::vn_to_key_order(chain, octave, tritave, start, list, count, out, len) }
    })
}
