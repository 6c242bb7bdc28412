//! How far a retuning moves a note.

use crate::Layout;
use crate::Refused;
use crate::Spelling;
use crate::c;

/// Two layouts of one chain, octave and start, with one tritave before a retuning and another
/// after it. Any five numbers may stand here: each call asks 1, 2, 3, 4 and 18 of the first
/// layout, then 3 and 4 of the second.
#[derive(Clone, Copy, Debug, PartialEq, Eq, Hash)]
pub struct Retuning {
    /// The chain's code, from 0 to 5.
    pub chain: u16,
    /// How many steps make an octave.
    pub octave: u16,
    /// The index of key 0's letter among the chain's letters, from 0.
    pub start: u16,
    /// How many steps make a tritave before the retuning.
    pub from_tritave: u16,
    /// How many make one after it.
    pub to_tritave: u16,
}

impl Retuning {
    /// From a layout to the one that has another tritave.
    ///
    /// ```
    /// use vetchnoon::{Layout, Retuning};
    ///
    /// let lesson = Retuning::new(Layout::new(2, 31, 49)?, 50);
    /// assert_eq!((lesson.from_tritave, lesson.to_tritave), (49, 50));
    /// # Ok::<(), vetchnoon::Refused>(())
    /// ```
    pub fn new(layout: Layout, to_tritave: u16) -> Self {
        Self {
            chain: layout.chain,
            octave: layout.octave,
            start: layout.start,
            from_tritave: layout.tritave,
            to_tritave,
        }
    }

    /// The five numbers, in the order of the calls.
    fn numbers(self) -> [u16; 5] {
        [
            self.chain,
            self.octave,
            self.start,
            self.from_tritave,
            self.to_tritave,
        ]
    }
}

/// How many steps round the octave, the shorter way, the key moves that a spelling sounds
/// (1, 2, 3, 4, 18, of the second layout 3, 4, then 16, 21).
///
/// ```
/// use vetchnoon::{Layout, Question, Refused, Retuning, Spelling, moved};
///
/// // C G D A E: D is on key 0, and stays; A is a generator away.
/// let lesson = Retuning::new(Layout::new(2, 31, 49)?, 50);
/// assert_eq!(moved(lesson, Spelling::new(2, 0)), Ok(0));
/// assert_eq!(moved(lesson, Spelling::new(3, 0)), Ok(1));
/// assert_eq!(moved(lesson, Spelling::new(2, 4)), Ok(11));
/// let starred = Spelling { letter: 2, signs: 0, stars: 1 };
/// assert_eq!(moved(lesson, starred), Err(Refused(Question::Stars)));
/// # Ok::<(), Refused>(())
/// ```
pub fn moved(retuning: Retuning, spelling: Spelling) -> Result<u16, Refused> {
    let [chain, octave, start, from, to] = retuning.numbers();
    let Spelling {
        letter,
        signs,
        stars,
    } = spelling;
    c::number(c::vn_moved(
        chain, octave, start, from, to, letter, signs, stars,
    ))
}

/// The moves of all letters with up to eight signs, without stars, on which no move depends:
/// letter by letter along the chain, 17 numbers each, from eight flats to eight sharps; at most 153
/// (1, 2, 3, 4, 18, of the second layout 3, 4, then 10).
///
/// ```
/// use vetchnoon::{Layout, Retuning, move_table};
///
/// let lesson = Retuning::new(Layout::new(2, 31, 49)?, 50);
/// let mut table = [0; 9 * 17];
/// assert_eq!(move_table(lesson, &mut table), Ok(5 * 17));
/// let d = &table[2 * 17..3 * 17];
/// assert_eq!(d, [9, 4, 1, 6, 11, 15, 10, 5, 0, 5, 10, 15, 11, 6, 1, 4, 9]);
/// # Ok::<(), vetchnoon::Refused>(())
/// ```
pub fn move_table(retuning: Retuning, out: &mut [u16]) -> Result<usize, Refused> {
    let [chain, octave, start, from, to] = retuning.numbers();
    c::lent(out, |out, len| {
        // SAFETY: `lent` lends so many elements.
        unsafe { c::vn_move_table(chain, octave, start, from, to, out, len) }
    })
}

/// The largest number that [`move_table`] writes (1, 2, 3, 4, 18, of the second layout 3, 4).
///
/// ```
/// use vetchnoon::{Layout, Retuning, largest_move};
///
/// assert_eq!(largest_move(Retuning::new(Layout::new(2, 31, 49)?, 50)), Ok(15));
/// # Ok::<(), vetchnoon::Refused>(())
/// ```
pub fn largest_move(retuning: Retuning) -> Result<u16, Refused> {
    let [chain, octave, start, from, to] = retuning.numbers();
    c::number(c::vn_largest_move(chain, octave, start, from, to))
}
