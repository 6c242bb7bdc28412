//! One question, as it is counted and reported.

use std::fmt;

use reading::Whole;
use reading::chains;
use reading::fitted;

/// Declares the calls, each with its name in C.
macro_rules! calls {
    ($($call:ident = $name:literal,)*) => {
        /// The calls of the library, in the order of `include/vetchnoon.h`.
        #[derive(Clone, Copy, Debug, PartialEq, Eq, PartialOrd, Ord)]
        pub enum Call {
            $($call,)*
        }

        impl Call {
            pub const ALL: &[Self] = &[$(Self::$call,)*];

            pub fn name(self) -> &'static str {
                match self {
                    $(Self::$call => $name,)*
                }
            }
        }
    };
}

calls! {
    Version = "vn_version",
    Gcd = "vn_gcd",
    Rem = "vn_rem",
    Pergen = "vn_pergen",
    Generation = "vn_generation",
    Accidentals = "vn_accidentals",
    MosChild = "vn_mos_child",
    MosParent = "vn_mos_parent",
    MosGenesis = "vn_mos_genesis",
    MosCoprime = "vn_mos_coprime",
    MosFind = "vn_mos_find",
    WalkMoves = "vn_walk_moves",
    MosChildren = "vn_mos_children",
    MosParents = "vn_mos_parents",
    MosLayers = "vn_mos_layers",
    MosKey = "vn_mos_key",
    FractionalChild = "vn_fractional_child",
    FractionalChildrenLen = "vn_fractional_children_len",
    FractionalChildren = "vn_fractional_children",
    ChainLetters = "vn_chain_letters",
    ChainName = "vn_chain_name",
    Start = "vn_start",
    Tritaves = "vn_tritaves",
    FindByEdo = "vn_find_by_edo",
    EdoReport = "vn_edo_report",
    Layout = "vn_layout",
    ScaleName = "vn_scale_name",
    NoteNameLen = "vn_note_name_len",
    NoteName = "vn_note_name",
    LayoutAccidentals = "vn_layout_accidentals",
    SoundedKey = "vn_sounded_key",
    ReadSpelling = "vn_read_spelling",
    FindKey = "vn_find_key",
    Explain = "vn_explain",
    ExplainTextLen = "vn_explain_text_len",
    ExplainText = "vn_explain_text",
    NearestNatural = "vn_nearest_natural",
    KeysInReach = "vn_keys_in_reach",
    Moved = "vn_moved",
    MoveTable = "vn_move_table",
    LargestMove = "vn_largest_move",
    ToChainOrder = "vn_to_chain_order",
    ToKeyOrder = "vn_to_key_order",
    Moves = "vn_moves",
    LayerCount = "vn_layer_count",
    LayoutLayers = "vn_layout_layers",
    Layer = "vn_layer",
    LayerKind = "vn_layer_kind",
    LampStrip = "vn_lamp_strip",
    Lamp = "vn_lamp",
    WidenStrip = "vn_widen_strip",
    NarrowStrip = "vn_narrow_strip",
    KbmLen = "vn_kbm_len",
    Kbm = "vn_kbm",
    KbmRead = "vn_kbm_read",
    Sheet = "vn_sheet",
    BookLen = "vn_book_len",
    Book = "vn_book",
    BookFind = "vn_book_find",
    KeyTable = "vn_key_table",
}

/// A call with its arguments, in order. Bytes are arguments as well, and so are the codes
/// of a strip, the entries of a list that is lent and the keys of a sheet; those of a lookup are
/// the key and then the book, those of a mapping or a name that is read the layout and then the
/// text, those of an explanation the layout, the length of the first text, and both texts. A fractional number is two arguments, the upper and the lower 32 of its bits.
/// Questions are put by the million, so one borrows its arguments; only those that
/// are reported are kept.
#[derive(Clone, Copy, Debug)]
pub struct Question<'a> {
    pub call: Call,
    pub arguments: &'a [i64],
}

impl Question<'_> {
    pub fn kept(self) -> Kept {
        Kept {
            arguments: self.arguments.to_vec(),
            call: self.call,
        }
    }

    /// Whether it is smaller than one that is kept.
    pub fn is_below(self, kept: &Kept) -> bool {
        (self.arguments, self.call) < (&kept.arguments, kept.call)
    }

    /// Whether the original has this very question: a call of its own, with a key of its 16
    /// bits, about a layout that begins on the letter on which it begins that chain. Else an
    /// answer is made of what it answers to others.
    pub fn is_the_originals(self) -> bool {
        match self.call {
            Call::Gcd
            | Call::Rem
            | Call::Pergen
            | Call::MosChild
            | Call::MosParent
            | Call::MosGenesis
            | Call::MosCoprime
            | Call::MosChildren
            | Call::MosParents
            | Call::MosLayers
            | Call::MosKey
            | Call::FractionalChild
            | Call::FractionalChildren
            | Call::ChainName
            | Call::FindByEdo => true,
            Call::Generation => self.has_16_bits_at(2),
            Call::Accidentals => self.has_16_bits_at(4),
            Call::Layout | Call::ScaleName | Call::LayoutLayers => self.begins_on_own_letter(),
            Call::NoteName | Call::LayoutAccidentals => {
                self.begins_on_own_letter() && self.has_16_bits_at(4)
            }
            _ => false,
        }
    }

    fn has_16_bits_at(self, place: usize) -> bool {
        u16::try_from(self.arguments[place]).is_ok()
    }

    /// Of a layout's chain, octave, tritave and start: whether the start is the chain's own.
    fn begins_on_own_letter(self) -> bool {
        let [code, _, _, start] = [0, 1, 2, 3].map(|place| self.arguments[place]);
        chains::chain(fitted(code.into())).is_ok_and(|chain| chain.start == Whole::from(start))
    }
}

/// A question that is kept for the report. The smallest is the first in dictionary
/// order of the arguments.
#[derive(Clone, Debug, PartialEq, Eq, PartialOrd, Ord)]
pub struct Kept {
    pub arguments: Vec<i64>,
    pub call: Call,
}

impl Kept {
    /// The arguments as the bytes that they are.
    fn text(&self) -> Vec<u8> {
        self.arguments.iter().map(|byte| *byte as u8).collect()
    }
}

impl fmt::Display for Kept {
    fn fmt(&self, f: &mut fmt::Formatter<'_>) -> fmt::Result {
        /// Books are long.
        const SHOWN: usize = 160;

        write!(f, "{}", self.call.name())?;
        if self.call == Call::KeyTable {
            return write!(f, " \"{}\"", self.text().escape_ascii());
        }
        for argument in self.arguments.iter().take(SHOWN) {
            write!(f, " {argument}")?;
        }
        match self.arguments.len() {
            0..=SHOWN => Ok(()),
            all => write!(f, " .. ({all} numbers)"),
        }
    }
}

#[cfg(test)]
mod tests {
    use super::*;

    #[test]
    fn the_calls_are_those_of_the_header() {
        let header = include_str!("../../../include/vetchnoon.h");
        let declared = header
            .lines()
            .filter_map(|line| line.strip_prefix("int64_t ")?.split('(').next());
        let known = Call::ALL.iter().map(|call| call.name());
        assert!(known.eq(declared));
    }

    #[test]
    fn the_original_has_its_own_keys_and_starts() {
        let has = |call, arguments: &[i64]| Question { call, arguments }.is_the_originals();
        assert!(has(Call::Generation, &[12, 7, 65_535]));
        assert!(!has(Call::Generation, &[12, 7, -1]));
        assert!(!has(Call::Accidentals, &[12, 7, 7, 3, 65_536]));
        assert!(has(Call::NoteName, &[1, 12, 19, 3, 0]));
        assert!(!has(Call::NoteName, &[1, 12, 19, 3, -1]));
        assert!(!has(Call::NoteName, &[1, 12, 19, 1, 0]));
        assert!(has(Call::LayoutLayers, &[2, 12, 19, 2]));
        assert!(!has(Call::Layer, &[1, 12, 19, 3, 0]));
    }
}
