//! What is compared, by subject. A function here takes one input and puts every
//! question about it; which inputs are taken, [`crate::plan`] says.

pub mod books;
pub mod chains;
pub mod edo;
pub mod explanations;
pub mod fractional;
pub mod keys;
pub mod layouts;
pub mod mappings;
pub mod moves;
pub mod numbers;
pub mod orders;
pub mod patterns;
pub mod pergens;
pub mod reach;
pub mod retunings;
pub mod sheets;
pub mod strips;
pub mod tables;
pub mod typed;
