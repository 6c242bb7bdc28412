//! Asks the original, Woyten/tune at 0b79b5a85a, and hands back plain values, or
//! the panic that came instead of an answer.
//!
//! The functions here put questions and compute no answer of their own; layer
//! sizes alone are counted here, from the original's list, and strips and books
//! made of its layers and names, in document 01's form. Build with overflow checks,
//! as the workspace's usual profiles do: without them a wrapped number looks like
//! an answer. [`asking::overflow_is_checked`] tells whether they are on.

pub mod asking;
pub mod classes;
pub mod edo;
pub mod fractional;
pub mod keys;
pub mod layouts;
pub mod numbers;
pub mod patterns;
pub mod shown;
pub mod spelling;
pub mod words;
