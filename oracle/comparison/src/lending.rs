//! Lending the library slices: of exactly the right length, longer, and one short.
//!
//! Each slice lies within a larger one that is filled with a pattern. After a call
//! everything but the output must still hold it: elements past the output, the
//! whole slice after a refusal, and what lies before and behind the slice.

use std::fmt::Debug;

use judge::shown::shown;
use reading::Outcome;
use reading::fractional::Bits;
use vetchnoon::Fractional;
use vetchnoon::Refused;

use crate::tally::outcome;

/// An element of a lent slice.
pub trait Element: Copy {
    /// What is compared of an element.
    type Read: Clone + PartialEq + Debug;

    /// What an element holds before a call. Two rounds hold different values at
    /// each place, so no output can be taken for what was there.
    fn before(place: usize, round: Round) -> Self;

    fn read(self) -> Self::Read;
}

#[derive(Clone, Copy, Debug)]
pub enum Round {
    Exact,
    Longer,
    Short,
}

macro_rules! elements {
    ($($type:ty),*) => {$(
        impl Element for $type {
            type Read = Self;

            fn before(place: usize, round: Round) -> Self {
                let pattern = (place as $type).wrapping_mul(37).wrapping_add(0x5a);
                match round {
                    Round::Exact => pattern,
                    Round::Longer | Round::Short => !pattern,
                }
            }

            fn read(self) -> Self {
                self
            }
        }
    )*};
}

elements!(u8, u16, i32, u32, i64);

/// A pattern of fractional steps, which are compared bit for bit.
impl Element for Fractional {
    type Read = Bits;

    fn before(place: usize, round: Round) -> Self {
        Self {
            primary_count: u16::before(place, round),
            secondary_count: u16::before(place + 1, round),
            primary_step: f64::from_bits(i64::before(place + 2, round) as u64),
            secondary_step: f64::from_bits(i64::before(place + 3, round) as u64),
        }
    }

    fn read(self) -> Bits {
        Bits {
            counts: [self.primary_count, self.secondary_count],
            steps: [self.primary_step, self.secondary_step].map(f64::to_bits),
        }
    }
}

/// Elements before and behind a lent slice.
const GUARD: usize = 4;

/// By how much the longer slice is longer.
const MORE: usize = 3;

/// The question whether the output slice holds the whole output.
pub const SLICE_HOLDS_OUTPUT: u8 = 10;

/// What the library gives into a slice of `room` elements, or what it did that no
/// call may do. Question 10 comes last: into a slice that is one short the library
/// refuses an output, and a refusal stays what it was.
pub fn lent<T: Element>(
    room: usize,
    call: impl Fn(&mut [T]) -> Result<usize, Refused>,
) -> Result<Outcome<Vec<T::Read>>, String> {
    let exact = exact_and_longer(room, &call)?;
    if room > 0 {
        let expected = exact.as_ref().err().copied().unwrap_or(SLICE_HOLDS_OUTPUT);
        one_short(room, expected, &call)?;
    }
    Ok(exact)
}

/// The same where the output has `room` elements whatever is asked, so that
/// question 10 comes first.
pub fn lent_after_room<T: Element>(
    room: usize,
    call: impl Fn(&mut [T]) -> Result<usize, Refused>,
) -> Result<Outcome<Vec<T::Read>>, String> {
    let exact = exact_and_longer(room, &call)?;
    one_short(room, SLICE_HOLDS_OUTPUT, &call)?;
    Ok(exact)
}

fn exact_and_longer<T: Element>(
    room: usize,
    call: &impl Fn(&mut [T]) -> Result<usize, Refused>,
) -> Result<Outcome<Vec<T::Read>>, String> {
    let exact = filled(room, Round::Exact, call)?;
    let longer = filled(room + MORE, Round::Longer, call)?;
    if longer != exact {
        let (exact, longer) = (shown(&exact), shown(&longer));
        return Err(format!(
            "into {room} elements {exact}, into {MORE} more {longer}"
        ));
    }
    Ok(exact)
}

fn one_short<T: Element>(
    room: usize,
    expected: u8,
    call: &impl Fn(&mut [T]) -> Result<usize, Refused>,
) -> Result<(), String> {
    let short = filled(room - 1, Round::Short, call)?;
    if short != Err(expected) {
        return Err(format!("into {} elements {}", room - 1, shown(&short)));
    }
    Ok(())
}

/// What the library gives into a slice of one length, which may be too short.
pub fn lent_once<T: Element>(
    length: usize,
    call: impl Fn(&mut [T]) -> Result<usize, Refused>,
) -> Result<Outcome<Vec<T::Read>>, String> {
    filled(length, Round::Exact, &call)
}

/// One call with a slice of `length` elements.
fn filled<T: Element>(
    length: usize,
    round: Round,
    call: &impl Fn(&mut [T]) -> Result<usize, Refused>,
) -> Result<Outcome<Vec<T::Read>>, String> {
    let lent = GUARD..GUARD + length;
    let mut elements: Vec<T> = (0..length + 2 * GUARD)
        .map(|place| T::before(place, round))
        .collect();
    let answer = outcome(call(&mut elements[lent.clone()]));

    let written = answer.unwrap_or(0);
    if written > length {
        return Err(format!("{written} elements into a slice of {length}"));
    }
    let output = lent.start..lent.start + written;
    let changed = (0..elements.len())
        .filter(|place| !output.contains(place))
        .find(|place| elements[*place].read() != T::before(*place, round).read());
    match changed {
        Some(place) => Err(format!(
            "answered {answer:?} and changed element {} of a slice of {length}",
            place as i64 - GUARD as i64
        )),
        None => Ok(answer.map(|_| {
            elements[output]
                .iter()
                .map(|element| element.read())
                .collect()
        })),
    }
}

#[cfg(test)]
mod tests {
    use vetchnoon::Question;

    use super::*;

    /// Writes 1, 2, 3 as a call of the library does.
    fn well_behaved(out: &mut [u16]) -> Result<usize, Refused> {
        out.get_mut(..3)
            .ok_or(Refused(Question::Room))?
            .copy_from_slice(&[1, 2, 3]);
        Ok(3)
    }

    #[test]
    fn output_and_refusals_are_handed_on() {
        assert_eq!(lent(3, well_behaved), Ok(Ok(vec![1, 2, 3])));
        assert_eq!(
            lent::<u8>(0, |_| Err(Refused(Question::Pattern))),
            Ok(Err(4))
        );
        // The reading expected fewer elements: a refusal with 10 that a longer
        // slice does not get.
        assert!(lent(2, well_behaved).is_err());
    }

    #[test]
    fn a_change_past_the_output_is_seen() {
        let writes_on = |out: &mut [u16]| {
            if let Some(past) = out.get_mut(3) {
                *past = 0;
            }
            well_behaved(out)
        };
        assert!(lent(3, writes_on).is_err());
    }

    #[test]
    fn a_refusal_that_writes_is_seen() {
        let writes_first = |out: &mut [u16]| {
            if let Some(first) = out.first_mut() {
                *first = 1;
            }
            well_behaved(out)
        };
        assert!(lent(3, writes_first).is_err());
    }

    #[test]
    fn a_short_slice_that_is_accepted_is_seen() {
        let accepts = |out: &mut [u16]| {
            let written = out.len().min(3);
            out[..written].copy_from_slice(&[1, 2, 3][..written]);
            Ok(written)
        };
        assert!(lent(3, accepts).is_err());
    }
}
