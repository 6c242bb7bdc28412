//! Counting what was compared, and keeping what has to be reported.

use std::collections::BTreeMap;
use std::fmt::Debug;
use std::ops::AddAssign;

use judge::asking::Answer;
use judge::asking::Panicked;
use judge::classes::Shape;
use judge::shown::shown;
use reading::Outcome;
use vetchnoon::Refused;

use crate::classes::Class;
use crate::lending;
use crate::lending::Element;
use crate::question::Call;
use crate::question::Kept;
use crate::question::Question;

/// What the original has to say of a question.
#[derive(Clone, Debug, PartialEq, Eq)]
pub enum Original<T> {
    /// It has nothing of the kind, or was not asked.
    Silent,
    Answered(T),
    /// It answers what document 01 does not, and a class names this answer.
    Named(T),
    /// `None`, which does not tell a refusal's number.
    Declined,
    Panicked(Panicked),
    /// It answers what no answer of the library can mean.
    Failed(String),
}

impl<T> Original<T> {
    pub fn of(answer: Answer<T>) -> Self {
        match answer {
            Ok(value) => Self::Answered(value),
            Err(panicked) => Self::Panicked(panicked),
        }
    }

    pub fn of_option(answer: Answer<Option<T>>) -> Self {
        match answer {
            Ok(Some(value)) => Self::Answered(value),
            Ok(None) => Self::Declined,
            Err(panicked) => Self::Panicked(panicked),
        }
    }

    /// The shape that a class may name.
    fn shape(&self) -> Option<Shape> {
        match self {
            Self::Named(_) => Some(Shape::NamedAnswer),
            Self::Declined => Some(Shape::NoAnswer),
            Self::Panicked(panicked) if panicked.is_overflow() => Some(Shape::Overflow),
            Self::Panicked(panicked) if panicked.is_division_by_zero() => {
                Some(Shape::DivisionByZero)
            }
            Self::Panicked(_) | Self::Failed(_) | Self::Answered(_) | Self::Silent => None,
        }
    }

    /// The next question to what was answered.
    pub fn then<U>(&self, next: impl FnOnce(&T) -> Original<U>) -> Original<U> {
        match self {
            Self::Silent => Original::Silent,
            Self::Answered(value) | Self::Named(value) => next(value),
            Self::Declined => Original::Declined,
            Self::Panicked(panicked) => Original::Panicked(panicked.clone()),
            Self::Failed(reason) => Original::Failed(reason.clone()),
        }
    }
}

impl<T: PartialEq> Original<T> {
    /// Marks the answer that a class names. Any other answer stays what it was.
    pub fn if_named(self, named: T) -> Self {
        match self {
            Self::Answered(answer) if answer == named => Self::Named(answer),
            other => other,
        }
    }
}

/// An answer of the library.
pub fn outcome<T>(answer: Result<T, Refused>) -> Outcome<T> {
    answer.map_err(|Refused(question)| question.number())
}

/// The answers to one question.
#[derive(Debug)]
pub struct Answers<T> {
    pub library: Outcome<T>,
    pub reading: Outcome<T>,
    pub original: Original<T>,
}

#[derive(Clone, Debug, Default)]
pub struct Tally {
    calls: BTreeMap<Call, Counts>,
    classes: BTreeMap<Class, Noted>,
    unexplained: BTreeMap<Call, Unexplained>,
    /// Panics of the comparison itself, and how often.
    failures: BTreeMap<String, u64>,
}

/// How many questions to one call were compared.
#[derive(Clone, Copy, Debug, Default, PartialEq, Eq)]
pub struct Counts {
    pub given: u64,
    pub refused: u64,
    /// Of these, how many the original was asked as well.
    pub of_original: u64,
    /// And how many are held against what is made of its answers to other questions.
    pub made_of_original: u64,
}

impl Counts {
    pub fn all(self) -> u64 {
        self.given + self.refused
    }

    /// How many are held against the reading alone.
    pub fn of_reading(self) -> u64 {
        self.all() - self.of_original - self.made_of_original
    }
}

impl AddAssign for Counts {
    fn add_assign(&mut self, more: Self) {
        self.given += more.given;
        self.refused += more.refused;
        self.of_original += more.of_original;
        self.made_of_original += more.made_of_original;
    }
}

/// How often a class was met, and its smallest input.
#[derive(Clone, Debug)]
pub struct Noted {
    pub count: u64,
    pub smallest: Kept,
}

/// How many answers of a call nothing explains, and the smallest such input.
#[derive(Clone, Debug)]
pub struct Unexplained {
    pub count: u64,
    pub smallest: Kept,
    pub detail: String,
}

impl Tally {
    /// Compares the answers to one question. The library must say what document 01
    /// says. The original must say the same, unless the input belongs to `class` and
    /// what the original says has the shape that the class names.
    pub fn compare<T: PartialEq + Debug>(
        &mut self,
        question: Question,
        answers: &Answers<T>,
        class: Option<Class>,
    ) {
        self.count(question, &answers.reading, &answers.original);
        if answers.library != answers.reading {
            return self.unexplained(question, || difference(answers));
        }
        if agrees(answers) {
            return;
        }
        match class {
            Some(class) if answers.original.shape() == Some(class.shape()) => {
                self.note(class, question);
            }
            _ => self.unexplained(question, || difference(answers)),
        }
    }

    /// Compares a call that fills a slice, with slices of every fitting length.
    pub fn compare_filling<T: Element>(
        &mut self,
        question: Question,
        reading: Outcome<Vec<T::Read>>,
        original: Original<Vec<T::Read>>,
        class: Option<Class>,
        call: impl Fn(&mut [T]) -> Result<usize, Refused>,
    ) {
        let room = reading.as_ref().map_or(0, Vec::len);
        let library = lending::lent(room, call);
        self.compare_lent(question, reading, original, class, library);
    }

    /// The same for a call that writes `room` elements or none, and asks for room last. A
    /// refusal is seen in that room too, in which a call may have begun to write.
    pub fn compare_filling_in_room<T: Element>(
        &mut self,
        question: Question,
        room: usize,
        reading: Outcome<Vec<T::Read>>,
        original: Original<Vec<T::Read>>,
        class: Option<Class>,
        call: impl Fn(&mut [T]) -> Result<usize, Refused>,
    ) {
        let library = lending::lent(room, call);
        self.compare_lent(question, reading, original, class, library);
    }

    /// Compares a call that writes `room` elements or none, and asks for room first.
    pub fn compare_filling_after_room<T: Element>(
        &mut self,
        question: Question,
        room: usize,
        reading: Outcome<Vec<T::Read>>,
        call: impl Fn(&mut [T]) -> Result<usize, Refused>,
    ) {
        let library = lending::lent_after_room(room, call);
        self.compare_lent(question, reading, Original::Silent, None, library);
    }

    /// Compares a call of no class with a slice of one length: question 10 comes last.
    pub fn compare_filling_of_length<T: Element>(
        &mut self,
        question: Question,
        length: usize,
        reading: &Outcome<Vec<T::Read>>,
        call: impl Fn(&mut [T]) -> Result<usize, Refused>,
    ) {
        let reading = match reading {
            Ok(output) if output.len() > length => Err(lending::SLICE_HOLDS_OUTPUT),
            reading => reading.clone(),
        };
        let library = lending::lent_once(length, call);
        self.compare_lent(question, reading, Original::Silent, None, library);
    }

    /// Compares what the library wrote into what it was lent, or what it did that no call may do.
    pub fn compare_lent<T: PartialEq + Debug>(
        &mut self,
        question: Question,
        reading: Outcome<Vec<T>>,
        original: Original<Vec<T>>,
        class: Option<Class>,
        library: Result<Outcome<Vec<T>>, String>,
    ) {
        match library {
            Ok(library) => {
                let answers = Answers {
                    library,
                    reading,
                    original,
                };
                self.compare(question, &answers, class);
            }
            Err(misbehaviour) => {
                self.count(question, &reading, &original);
                self.unexplained(question, || misbehaviour.clone());
            }
        }
    }

    /// Holds what the Rust package makes of a call against the reading. The call itself is
    /// compared, and counted, by the slices that are lent to it.
    pub fn compare_packaged<T: PartialEq + Debug>(
        &mut self,
        question: Question,
        reading: &Outcome<T>,
        packaged: Result<T, Refused>,
    ) {
        let packaged = outcome(packaged);
        if packaged != *reading {
            self.unexplained(question, || {
                let (packaged, reading) = (shown(&packaged), shown(reading));
                format!("the Rust package gives {packaged}, the reading {reading}")
            });
        }
    }

    fn count<T>(&mut self, question: Question, reading: &Outcome<T>, original: &Original<T>) {
        let counts = self.calls.entry(question.call).or_default();
        match reading {
            Ok(_) => counts.given += 1,
            Err(_) => counts.refused += 1,
        }
        match original {
            Original::Silent => (),
            _ if question.is_the_originals() => counts.of_original += 1,
            _ => counts.made_of_original += 1,
        }
    }

    fn note(&mut self, class: Class, question: Question) {
        let noted = self.classes.entry(class).or_insert_with(|| Noted {
            count: 0,
            smallest: question.kept(),
        });
        noted.count += 1;
        if question.is_below(&noted.smallest) {
            noted.smallest = question.kept();
        }
    }

    /// Counts an answer that nothing explains.
    pub fn unexplained(&mut self, question: Question, detail: impl Fn() -> String) {
        let unexplained = self
            .unexplained
            .entry(question.call)
            .or_insert_with(|| Unexplained {
                count: 0,
                smallest: question.kept(),
                detail: detail(),
            });
        unexplained.count += 1;
        if question.is_below(&unexplained.smallest) {
            unexplained.smallest = question.kept();
            unexplained.detail = detail();
        }
    }

    /// Counts a panic of the comparison itself: of its own code or of the reading.
    pub fn failed(&mut self, panicked: Panicked) {
        *self.failures.entry(panicked.to_string()).or_default() += 1;
    }

    /// Adds what another thread counted. The order of adding does not matter.
    pub fn add(&mut self, other: Self) {
        for (call, counts) in other.calls {
            *self.calls.entry(call).or_default() += counts;
        }
        for (class, noted) in other.classes {
            merge(&mut self.classes, class, noted, |sum, noted| {
                sum.count += noted.count;
                sum.smallest = noted.smallest.min(sum.smallest.clone());
            });
        }
        for (call, unexplained) in other.unexplained {
            merge(&mut self.unexplained, call, unexplained, |sum, more| {
                let count = sum.count + more.count;
                if more.smallest < sum.smallest {
                    *sum = more;
                }
                sum.count = count;
            });
        }
        for (failure, count) in other.failures {
            *self.failures.entry(failure).or_default() += count;
        }
    }

    pub fn calls(&self) -> &BTreeMap<Call, Counts> {
        &self.calls
    }

    pub fn class(&self, class: Class) -> Option<&Noted> {
        self.classes.get(&class)
    }

    pub fn all_unexplained(&self) -> &BTreeMap<Call, Unexplained> {
        &self.unexplained
    }

    pub fn failures(&self) -> &BTreeMap<String, u64> {
        &self.failures
    }

    /// The calls of the library that no question was put to.
    pub fn never_asked(&self) -> Vec<Call> {
        let asked = |call: &Call| self.calls.contains_key(call);
        Call::ALL
            .iter()
            .copied()
            .filter(|call| !asked(call))
            .collect()
    }

    /// The classes that no input belonged to.
    pub fn never_met(&self) -> Vec<Class> {
        let met = |class: &Class| self.classes.contains_key(class);
        Class::ALL.into_iter().filter(|class| !met(class)).collect()
    }

    /// Whether everything was compared and explained: all calls and classes.
    pub fn is_clean(&self) -> bool {
        self.unexplained.is_empty()
            && self.failures.is_empty()
            && self.never_asked().is_empty()
            && self.never_met().is_empty()
    }
}

fn merge<K: Ord, V>(map: &mut BTreeMap<K, V>, key: K, value: V, add: impl FnOnce(&mut V, V)) {
    match map.get_mut(&key) {
        Some(sum) => add(sum, value),
        None => {
            map.insert(key, value);
        }
    }
}

/// The questions to which the original has the answer `None`: a layout's generator
/// and pattern, and the size of a given pattern; and where its layers make no strip of
/// one-byte codes.
const DECLINED: [u8; 4] = [3, 4, 7, 17];

/// A `None` of the original agrees with a refusal where it stands for one.
fn agrees<T: PartialEq>(answers: &Answers<T>) -> bool {
    match (&answers.original, &answers.library) {
        (Original::Silent, _) => true,
        (Original::Answered(original), Ok(library)) => original == library,
        (Original::Declined, Err(number)) => DECLINED.contains(number),
        _ => false,
    }
}

fn difference<T: Debug>(answers: &Answers<T>) -> String {
    let Answers {
        library,
        reading,
        original,
    } = answers;
    [
        format!("library  {}", shown(library)),
        format!("reading  {}", shown(reading)),
        format!("original {}", shown(original)),
    ]
    .join("\n")
}

#[cfg(test)]
mod tests {
    use super::*;

    fn compared(answers: Answers<u16>, class: Option<Class>) -> Tally {
        let mut tally = Tally::default();
        for argument in [7, 3, 5] {
            let question = Question {
                call: Call::Gcd,
                arguments: &[argument],
            };
            tally.compare(question, &answers, class);
        }
        tally
    }

    fn answers(
        library: Outcome<u16>,
        reading: Outcome<u16>,
        original: Original<u16>,
    ) -> Answers<u16> {
        Answers {
            library,
            reading,
            original,
        }
    }

    #[test]
    fn agreement_is_only_counted() {
        for original in [Original::Answered(1), Original::Silent] {
            let tally = compared(answers(Ok(1), Ok(1), original), None);
            assert!(tally.all_unexplained().is_empty());
            assert_eq!(tally.calls()[&Call::Gcd].given, 3);
        }
        let tally = compared(answers(Err(4), Err(4), Original::Declined), None);
        assert!(tally.all_unexplained().is_empty());
    }

    fn panicked(message: &str) -> Original<u16> {
        Original::Panicked(Panicked {
            message: message.to_owned(),
            place: String::new(),
        })
    }

    #[test]
    fn a_class_keeps_its_smallest_input() {
        let overflow = || panicked("attempt to multiply with overflow");
        let class = Class::ProductWithInverse;
        let tally = compared(answers(Ok(1), Ok(1), overflow()), Some(class));
        let noted = tally.class(class).unwrap();
        assert_eq!(
            (noted.count, noted.smallest.to_string()),
            (3, "vn_gcd 3".to_owned())
        );
        assert!(tally.all_unexplained().is_empty());

        let tally = compared(answers(Ok(1), Ok(1), overflow()), None);
        assert_eq!(tally.all_unexplained()[&Call::Gcd].count, 3);
    }

    /// Everything that the original may say instead of 1, and its shape.
    fn disagreements() -> Vec<(Original<u16>, Option<Shape>)> {
        vec![
            (Original::Answered(2), None),
            (Original::Answered(2).if_named(3), None),
            (Original::Answered(3).if_named(3), Some(Shape::NamedAnswer)),
            (Original::Declined, Some(Shape::NoAnswer)),
            (
                panicked("attempt to add with overflow"),
                Some(Shape::Overflow),
            ),
            (
                panicked("attempt to subtract with overflow"),
                Some(Shape::Overflow),
            ),
            (
                panicked("attempt to divide by zero"),
                Some(Shape::DivisionByZero),
            ),
            (
                panicked("attempt to calculate the remainder with a divisor of zero"),
                Some(Shape::DivisionByZero),
            ),
            (panicked("index out of bounds"), None),
            (Original::Failed("no number means it".to_owned()), None),
        ]
    }

    #[test]
    fn a_class_explains_the_shape_that_it_names_alone() {
        for class in Class::ALL {
            let named = |(_, shape): &(_, Option<Shape>)| *shape == Some(class.shape());
            assert!(disagreements().iter().any(named), "{}", class.name());
            for (original, shape) in disagreements() {
                let excused = shape == Some(class.shape());
                let context = format!("{}: {original:?}", class.name());
                let tally = compared(answers(Ok(1), Ok(1), original), Some(class));
                assert_eq!(tally.class(class).is_some(), excused, "{context}");
                assert_eq!(tally.all_unexplained().is_empty(), excused, "{context}");
            }
        }
    }

    #[test]
    fn what_is_made_of_the_original_is_counted_apart() {
        let counted = |call, arguments: &[i64], original| {
            let mut tally = Tally::default();
            let question = Question { call, arguments };
            tally.compare(question, &answers(Ok(1), Ok(1), original), None);
            let counts = tally.calls()[&call];
            [
                counts.of_original,
                counts.made_of_original,
                counts.of_reading(),
            ]
        };
        let answered = || Original::Answered(1);
        assert_eq!(counted(Call::Gcd, &[1, 1], answered()), [1, 0, 0]);
        assert_eq!(
            counted(Call::Lamp, &[1, 12, 19, 3, 0], answered()),
            [0, 1, 0]
        );
        assert_eq!(counted(Call::Gcd, &[1, 1], Original::Silent), [0, 0, 1]);
    }

    #[test]
    fn a_tally_that_lacks_a_call_or_a_class_is_not_clean() {
        let mut tally = Tally::default();
        assert_eq!(tally.never_asked(), Call::ALL);
        assert_eq!(tally.never_met(), Class::ALL);
        for call in Call::ALL {
            let question = Question {
                call: *call,
                arguments: &[0; 8],
            };
            tally.compare(question, &answers(Ok(1), Ok(1), Original::Silent), None);
        }
        assert_eq!(tally.never_asked(), []);
        for class in Class::ALL {
            assert!(!tally.is_clean());
            let question = Question {
                call: Call::Gcd,
                arguments: &[],
            };
            tally.note(class, question);
        }
        assert!(tally.is_clean());
    }

    #[test]
    fn no_class_explains_the_library() {
        let wrong = answers(Ok(2), Ok(1), Original::Answered(2));
        let tally = compared(wrong, Some(Class::ProductWithInverse));
        let unexplained = &tally.all_unexplained()[&Call::Gcd];
        assert_eq!(unexplained.smallest.arguments, [3]);

        let mut sum = tally.clone();
        sum.add(tally);
        assert_eq!(sum.all_unexplained()[&Call::Gcd].count, 6);
    }
}
