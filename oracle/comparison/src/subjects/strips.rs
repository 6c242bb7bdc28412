//! Stored strips: codes of one byte made wide, and wide ones made narrow again. The
//! original has no codes; what its layers make is handed in where a strip is a layout's.

use reading::Outcome;
use reading::codes;
use vetchnoon::Refused;

use crate::lending::Element;
use crate::question::Call;
use crate::question::Question;
use crate::tally::Original;
use crate::tally::Tally;

/// What is expected of a conversion: the reading's answer, and the original's.
pub struct Expected<T> {
    pub reading: Outcome<Vec<T>>,
    pub original: Original<Vec<T>>,
}

impl<T> Expected<T> {
    /// Of codes that belong to no layout.
    fn of_reading(reading: Outcome<Vec<T>>) -> Self {
        Self {
            reading,
            original: Original::Silent,
        }
    }
}

/// Any codes of one byte.
pub fn widen(tally: &mut Tally, strip: &[u8]) {
    widen_to(tally, strip, Expected::of_reading(codes::widened(strip)));
}

/// Any codes of two bytes.
pub fn narrow(tally: &mut Tally, strip: &[u16]) {
    narrow_to(tally, strip, Expected::of_reading(codes::narrowed(strip)));
}

pub fn widen_to(tally: &mut Tally, strip: &[u8], expected: Expected<u16>) {
    convert_to(
        tally,
        Call::WidenStrip,
        vetchnoon::widen_strip,
        strip,
        expected,
    );
}

pub fn narrow_to(tally: &mut Tally, strip: &[u16], expected: Expected<u8>) {
    convert_to(
        tally,
        Call::NarrowStrip,
        vetchnoon::narrow_strip,
        strip,
        expected,
    );
}

/// A conversion either way. It writes as many codes as it reads.
fn convert_to<C: Copy + Into<i64>, T: Element<Read = T>>(
    tally: &mut Tally,
    call: Call,
    library: impl Fn(&[C], &mut [T]) -> Result<usize, Refused>,
    strip: &[C],
    expected: Expected<T>,
) {
    let arguments: Vec<i64> = strip.iter().map(|code| (*code).into()).collect();
    let question = Question {
        call,
        arguments: &arguments,
    };
    let Expected { reading, original } = expected;
    let filling = |out: &mut [T]| library(strip, out);
    tally.compare_filling_in_room(question, strip.len(), reading, original, None, filling);
}
