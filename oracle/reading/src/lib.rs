//! Document 01, as the requests of document 02 amend it, read plainly and written
//! down in Rust: the second judge.
//!
//! It is written from the documents' sentences alone. It judges where the
//! original panics, refuses without a number, or has nothing of the kind: refusal
//! numbers, lamp strips, books and the key table program. Numbers are exact, but for
//! fractional steps, so nothing here can overflow; searches go through all candidates where that is
//! the document's wording. It is slow and meant to be.

pub mod books;
pub mod chains;
pub mod codes;
pub mod edo;
pub mod former;
pub mod fractional;
pub mod layers;
pub mod layouts;
pub mod mappings;
pub mod moves;
pub mod names;
pub mod numbers;
pub mod orders;
pub mod patterns;
pub mod pergens;
pub mod powers;
pub mod reach;
pub mod retunings;
pub mod sheets;
pub mod tables;
pub mod typed;

/// A whole number, wide enough for every sum and product here.
pub type Whole = i128;

/// The largest number that 16 bits hold.
pub const LARGEST: Whole = 65_535;

/// The answer, or the number of the first question that has the answer no.
pub type Outcome<T> = Result<T, u8>;

/// "The first no gives its number": `Ok` where the answer is yes.
pub fn ask(question: u8, yes: bool) -> Outcome<()> {
    if yes { Ok(()) } else { Err(question) }
}

/// A number of the reading in the type of an answer, which holds it.
pub fn fitted<T: TryFrom<Whole>>(number: Whole) -> T {
    T::try_from(number)
        .ok()
        .expect("document 01 bounds this number by its type")
}
