//! The proved library for Rust, over its C interface (`include/vetchnoon.h`).
//!
//! Each function makes one call. Where the call is refused, the answer is [`Refused`], which tells
//! the first [`Question`] that has the answer no; the numbers at a function are those that it asks,
//! in this order. A key is any `i32`: it is first brought round the octave, in a free pergen round
//! the period, with the remainder that is never negative; a layer's list and a lamp strip repeat,
//! upwards and downwards. A book alone has the keys from 0 to its count − 1.
//!
//! What has a length that the arguments tell, or a small one, is returned: numbers by name, lists
//! and texts of a few elements in place. What may be long is written to the front of a slice that
//! the caller lends, and the answer is how many elements there are; a refusal changes none, and
//! those past the output keep their contents. With the feature `std`, which is on unless a
//! caller turns it off, [`owned`] returns the same as `Vec` and `String`. Without it the package
//! needs neither `std` nor `alloc`.
//!
//! A lamp's code is a `u16`; up to 6.0.0 it was a `u8`. [`widen_strip`] and [`narrow_strip`]
//! convert strips that were stored then.
//!
//! ```
//! use vetchnoon::{Layout, Question, Refused, note_name};
//!
//! let twelve = Layout::new(1, 12, 19)?;
//! let mut name = [0; 16];
//! let bytes = note_name(twelve, 1, &mut name)?;
//! assert_eq!(&name[..bytes], b"D#/Eb");
//!
//! let bytes = note_name(twelve, -1, &mut name)?;
//! assert_eq!(&name[..bytes], b"C#/Db");
//!
//! let bytes = note_name(twelve.beginning(1), 0, &mut name)?;
//! assert_eq!(&name[..bytes], b"C");
//!
//! let refused = note_name(Layout::new(0, 12, 19)?, 1, &mut name);
//! assert_eq!(refused, Err(Refused(Question::Pattern)));
//! assert_eq!(Question::Pattern.number(), 4);
//! # Ok::<(), Refused>(())
//! ```
#![no_std]
#![warn(missing_docs, clippy::undocumented_unsafe_blocks)]

#[cfg(feature = "std")]
extern crate std;

mod books;
pub mod c;
mod chains;
mod edo;
mod explanations;
mod fractional;
mod layers;
mod layouts;
mod lists;
mod mappings;
mod numbers;
#[cfg(feature = "std")]
pub mod owned;
mod patterns;
mod questions;
mod retunings;
mod sheets;
mod strips;
mod typed;

pub use books::book;
pub use books::book_find;
pub use books::book_len;
pub use books::key_table;
pub use chains::Letters;
pub use chains::chain_letters;
pub use chains::chain_name;
pub use chains::start;
pub use edo::EdoLayout;
pub use edo::EdoLayouts;
pub use edo::Tritaves;
pub use edo::edo_report;
pub use edo::find_by_edo;
pub use edo::tritaves;
pub use explanations::Explanation;
pub use explanations::Standing;
pub use explanations::Verdict;
pub use explanations::explain;
pub use explanations::explain_text;
pub use explanations::explain_text_len;
pub use fractional::Fractional;
pub use fractional::fractional_child;
pub use fractional::fractional_children;
pub use fractional::fractional_children_len;
pub use layers::LayerKind;
pub use layers::layer;
pub use layers::layer_count;
pub use layers::layer_kind;
pub use layers::layout_layers;
pub use layouts::Layout;
pub use layouts::LayoutNumbers;
pub use layouts::Spelling;
pub use layouts::keys_in_reach;
pub use layouts::layout;
pub use layouts::layout_accidentals;
pub use layouts::moves;
pub use layouts::nearest_natural;
pub use layouts::note_name;
pub use layouts::note_name_len;
pub use layouts::scale_name;
pub use layouts::sounded_key;
pub use layouts::to_chain_order;
pub use layouts::to_key_order;
pub use lists::List;
pub use lists::Text;
pub use mappings::kbm;
pub use mappings::kbm_len;
pub use mappings::kbm_read;
pub use numbers::Accidentals;
pub use numbers::Generation;
pub use numbers::Pergen;
pub use numbers::Version;
pub use numbers::accidentals;
pub use numbers::gcd;
pub use numbers::generation;
pub use numbers::pergen;
pub use numbers::rem;
pub use numbers::version;
pub use patterns::Move;
pub use patterns::Moves;
pub use patterns::Pattern;
pub use patterns::mos_child;
pub use patterns::mos_children;
pub use patterns::mos_coprime;
pub use patterns::mos_find;
pub use patterns::mos_genesis;
pub use patterns::mos_key;
pub use patterns::mos_layers;
pub use patterns::mos_parent;
pub use patterns::mos_parents;
pub use patterns::walk_moves;
pub use questions::Question;
pub use questions::Refused;
pub use retunings::Retuning;
pub use retunings::largest_move;
pub use retunings::move_table;
pub use retunings::moved;
pub use sheets::Record;
pub use sheets::sheet;
pub use strips::lamp;
pub use strips::lamp_strip;
pub use strips::narrow_strip;
pub use strips::widen_strip;
pub use typed::TypedSpelling;
pub use typed::find_key;
pub use typed::read_spelling;
