//! The version; greatest common divisor and remainder.

use reading::fitted;
use reading::numbers;

use crate::classes::Class;
use crate::question::Call;
use crate::question::Question;
use crate::tally::Answers;
use crate::tally::Original;
use crate::tally::Tally;
use crate::tally::outcome;

/// The library's version against the header's, which stands in for the reading.
pub fn version(tally: &mut Tally) {
    let question = Question {
        call: Call::Version,
        arguments: &[],
    };
    let version = vetchnoon::version();
    let numbers = [version.major, version.minor.into(), version.patch.into()];
    let answers = Answers {
        library: Ok(numbers.map(u64::from)),
        reading: Ok(["MAJOR", "MINOR", "PATCH"].map(of_header)),
        original: Original::Silent,
    };
    tally.compare(question, &answers, None);
}

/// A number of the header's version.
fn of_header(part: &str) -> u64 {
    let header = include_str!("../../../../include/vetchnoon.h");
    let defined = format!("#define VN_VERSION_{part} ");
    let number = header.lines().find_map(|line| line.strip_prefix(&defined));
    let number = number.and_then(|number| number.parse().ok());
    number.expect("the header has its version")
}

pub fn gcd(tally: &mut Tally, x: u16, y: u16) {
    let question = Question {
        call: Call::Gcd,
        arguments: &[x.into(), y.into()],
    };
    let answers = Answers {
        library: Ok(vetchnoon::gcd(x, y)),
        reading: Ok(fitted(numbers::gcd(x.into(), y.into()))),
        original: Original::of(judge::numbers::gcd(x, y)),
    };
    tally.compare(question, &answers, None);
}

pub fn remainder(tally: &mut Tally, numer: i32, denom: u16) {
    let question = Question {
        call: Call::Rem,
        arguments: &[numer.into(), denom.into()],
    };
    let answers = Answers {
        library: outcome(vetchnoon::rem(numer, denom)),
        reading: numbers::remainder(numer.into(), denom.into()).map(fitted),
        original: Original::of(judge::numbers::remainder(numer, denom)),
    };
    let class = (denom == 0).then_some(Class::DenominatorZero);
    tally.compare(question, &answers, class);
}
