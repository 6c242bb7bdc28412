//! The questions that calls ask, and a refusal.

use core::error::Error;
use core::fmt;

/// Declares the questions, each with its number and its sentence.
macro_rules! questions {
    ($($number:literal $name:ident $sentence:literal;)*) => {
        /// A question that calls ask. A call is refused by the first one that has the answer no.
        ///
        /// ```
        /// use vetchnoon::Question;
        ///
        /// assert_eq!(Question::Chain.number(), 1);
        /// assert_eq!(Question::from_number(1), Some(Question::Chain));
        /// assert_eq!(Question::Chain.to_string(), "Is the chain code 0 to 5?");
        /// ```
        #[derive(Clone, Copy, Debug, PartialEq, Eq, PartialOrd, Ord, Hash)]
        #[non_exhaustive]
        #[repr(u8)]
        pub enum Question {
            $(#[doc = $sentence] $name = $number,)*
        }

        impl Question {
            /// All questions, by their numbers.
            pub const ALL: &[Self] = &[$(Self::$name,)*];

            /// The question in a sentence.
            ///
            /// ```
            /// let sentence = vetchnoon::Question::Room.sentence();
            /// assert!(sentence.starts_with("Does the output slice hold the whole output?"));
            /// ```
            pub const fn sentence(self) -> &'static str {
                match self {
                    $(Self::$name => $sentence,)*
                }
            }
        }
    };
}

questions! {
    1 Chain "Is the chain code 0 to 5?";
    2 Period "Is the octave, the period or the denominator at least 1?";
    3 Generator "Does the chain's generator come out whole and not negative, every subtraction \
        included, and for code 3 is 2 × octave at most 65,535?";
    4 Pattern "Does the walk of step patterns meet one with as many steps as the chain has letters?";
    5 Symbols "Is a free format's symbol count at least 1?";
    6 Origin "Is a free format's origin below its symbol count?";
    7 Size "Are both products of a given step pattern, each of a count and its step, and their sum, the \
        size, at most 65,535?";
    8 CoprimeSize "Is the size of a step pattern after coprime at most 65,535?";
    9 LampLayer "Is every sharp and flat layer number of the lamp strip below 100? (No call asks it \
        since 7.0.0.)";
    10 Room "Does the output slice hold the whole output? (Of a list that is put in another order: do \
        both lists have an entry for each key of the octave?)";
    11 BookPairs "Does a book hold its count, at least 1, and that many pairs?";
    12 BookCover "Do a book's pairs cover its text?";
    13 BookKey "Is the key at least 0 and below the book's count?";
    14 Line "Is the key table's line well formed? (The table prints this number; no call returns it.)";
    15 Division "Is the number of steps that the octave is divided into 1 to 400?";
    16 Letter "Is the letter's place below the chain's number of letters?";
    17 Code "Does every code of the strip have a partner among the other width's codes?";
    18 Start "Is the layout's start below the chain's number of letters?";
    19 KbmLines "Has a keyboard mapping its lines, none missing and none left over, each of a form that \
        may stand there?";
    20 KbmNumbers "Are a keyboard mapping's numbers those of the layout?";
    21 Stars "Are the stars below the number of cycles? (Of a retuning: below that of both layouts?)";
    22 FractionalGenerator "Is the fractional generator a number, and not infinite?";
    23 NoteName "Is the text a spelling's, or that of two spellings as a name holds them?";
    24 TwoKeys "Do the two spellings of the text sound one key?";
}

impl Question {
    /// The question's number, as C has it.
    ///
    /// ```
    /// assert_eq!(vetchnoon::Question::Stars.number(), 21);
    /// ```
    pub const fn number(self) -> u8 {
        self as u8
    }

    /// The question of a number, if there is one.
    ///
    /// ```
    /// use vetchnoon::Question;
    ///
    /// assert_eq!(Question::from_number(10), Some(Question::Room));
    /// assert_eq!(Question::from_number(0), None);
    /// ```
    pub fn from_number(number: u8) -> Option<Self> {
        let place = usize::from(number).checked_sub(1)?;
        Self::ALL.get(place).copied()
    }
}

/// Says the question's sentence.
impl fmt::Display for Question {
    fn fmt(&self, f: &mut fmt::Formatter<'_>) -> fmt::Result {
        f.write_str(self.sentence())
    }
}

/// A refusal: the first question that has the answer no.
///
/// ```
/// use vetchnoon::{Question, Refused, rem};
///
/// let refused = rem(-4, 0).unwrap_err();
/// assert_eq!(refused, Refused(Question::Period));
/// assert_eq!(
///     refused.to_string(),
///     "refused 2: Is the octave, the period or the denominator at least 1?"
/// );
/// ```
#[derive(Clone, Copy, Debug, PartialEq, Eq, PartialOrd, Ord, Hash)]
pub struct Refused(pub Question);

/// Says the question's number, as the key table prints it, and its sentence.
impl fmt::Display for Refused {
    fn fmt(&self, f: &mut fmt::Formatter<'_>) -> fmt::Result {
        write!(f, "refused {}: {}", self.0.number(), self.0)
    }
}

impl Error for Refused {}

#[cfg(test)]
mod tests {
    use super::*;

    #[test]
    fn numbers_follow_each_other_from_1() {
        for (place, question) in Question::ALL.iter().enumerate() {
            assert_eq!(usize::from(question.number()), place + 1);
            assert_eq!(Question::from_number(question.number()), Some(*question));
        }
    }
}
