//! The questions, as the program `replay` reads them: a name and numbers with one
//! space before each, and the room in front where a short slice is lent.

use std::fmt;
use std::fmt::Display;
use std::fmt::Formatter;

use judge::patterns::Pattern;
use judge::words::words;
use reading::Outcome;
use reading::fractional::Bits;
use reading::layouts;
use reading::pergens::Pergen;
use reading::retunings;

use crate::fractional::double_text;
use crate::fractional::pattern_text;

/// A chain code, the step counts of octave and tritave, and a start, where it is not to be
/// the chain's own.
#[derive(Clone, Copy, Debug, PartialEq, Eq, Hash)]
pub struct Layout {
    pub code: u16,
    pub octave: u16,
    pub tritave: u16,
    pub start: Option<u16>,
}

/// A chain code, an octave and a start, and the tritaves before a retuning and after it.
#[derive(Clone, Copy, Debug, PartialEq, Eq)]
pub struct Retuning {
    pub code: u16,
    pub octave: u16,
    pub start: u16,
    pub from: u16,
    pub to: u16,
}

/// A free period and generator.
#[derive(Clone, Copy, Debug, PartialEq, Eq)]
pub struct FreePergen {
    pub period: u16,
    pub generator: u16,
}

impl Layout {
    /// What document 01 makes of it.
    pub fn read(self) -> Outcome<layouts::Layout> {
        let Self {
            code,
            octave,
            tritave,
            start,
        } = self;
        match start {
            None => layouts::Layout::new(code, octave, tritave),
            Some(start) => layouts::Layout::beginning(code, octave, tritave, start),
        }
    }

    /// What stands behind the name of a question where a start is among its numbers.
    fn suffix(self) -> &'static str {
        match self.start {
            None => "",
            Some(_) => "_from",
        }
    }
}

impl Retuning {
    /// What document 02 makes of it.
    pub fn read(self) -> Outcome<retunings::Retuning> {
        let Self {
            code,
            octave,
            start,
            from,
            to,
        } = self;
        retunings::Retuning::new(code, octave, start, from, to)
    }
}

impl FreePergen {
    /// What document 01 makes of it.
    pub fn read(self) -> Outcome<Pergen> {
        Pergen::new(self.period.into(), self.generator.into())
    }
}

#[derive(Clone, Copy, Debug, PartialEq, Eq)]
pub enum OfPattern {
    Numbers,
    Child,
    Parent,
    Genesis,
    Dual,
    Mirror,
    Coprime,
    Children,
    Parents,
    LayerSizes,
    Layers,
}

impl OfPattern {
    pub const ALL: [Self; 11] = [
        Self::Numbers,
        Self::Child,
        Self::Parent,
        Self::Genesis,
        Self::Dual,
        Self::Mirror,
        Self::Coprime,
        Self::Children,
        Self::Parents,
        Self::LayerSizes,
        Self::Layers,
    ];

    fn name(self) -> &'static str {
        match self {
            Self::Numbers => "pattern",
            Self::Child => "child",
            Self::Parent => "parent",
            Self::Genesis => "genesis",
            Self::Dual => "dual",
            Self::Mirror => "mirror",
            Self::Coprime => "coprime",
            Self::Children => "children",
            Self::Parents => "parents",
            Self::LayerSizes => "layer_sizes",
            Self::Layers => "layers",
        }
    }
}

#[derive(Clone, Copy, Debug, PartialEq, Eq)]
pub enum OfLayout {
    Numbers,
    Names,
    KeyLayers,
    Lamps,
}

impl OfLayout {
    pub const ALL: [Self; 4] = [Self::Numbers, Self::Names, Self::KeyLayers, Self::Lamps];

    fn name(self) -> &'static str {
        match self {
            Self::Numbers => "layout",
            Self::Names => "names",
            Self::KeyLayers => "key_layers",
            Self::Lamps => "lamps",
        }
    }
}

#[derive(Clone, Debug, PartialEq, Eq)]
pub enum Question {
    Gcd(u16, u16),
    Simplify(u16, u16),
    Odd(u16),
    Divide16(i32, u16),
    Divide32(i32, u32),
    Pergen(FreePergen),
    Generation(FreePergen, i32),
    Accidentals {
        pergen: FreePergen,
        num_symbols: u16,
        genchain_origin: u16,
        key: i32,
    },
    NewGenesis(FreePergen),
    NewCollapsed(u16, u16),
    OfPattern(OfPattern, Pattern),
    GetKey(Pattern, i16, i16),
    Chain(u16),
    /// Of an octave of so many steps, and of one chain there, by its code.
    Tritaves(u16),
    FindByEdo(u16),
    FindChainByEdo(u16, u16),
    EdoReport,
    OfLayout(OfLayout, Layout),
    Spelling(Layout, i32),
    Name(Layout, i32),
    /// One key's layer, and its lamp code.
    Layer(Layout, i32),
    Lamp(Layout, i32),
    BookLength(Layout),
    Book(Layout),
    /// A key looked up in a layout's book.
    Find(Layout, i32),
    /// A key looked up in any bytes.
    FindIn(i32, Vec<u8>),
    /// A key and a letter's place, and a key and a distance; the layout has a start.
    Nearest(Layout, i32, u16),
    Reach(Layout, i32, u16),
    /// How far a spelling moves: a letter's place, signs and stars; the table of moves, and the
    /// largest in it.
    Moved(Retuning, u16, i32, u16),
    MoveTable(Retuning),
    LargestMove(Retuning),
    /// A list in the order of the chain, and in that of keys; the layout has a start.
    ToChainOrder(Layout, Vec<u16>),
    ToKeyOrder(Layout, Vec<u16>),
    /// A pattern with its moves: a layout's, which has a start, the genesis, and a walk's at a
    /// place from 0; and the moves alone, of a layout and of a whole walk.
    Moves(Layout),
    GenesisMoves(FreePergen),
    NthMoves(FreePergen, u32),
    WriteMoves(Layout),
    WalkMoves(FreePergen),
    /// The Scala keyboard mapping of a layout, which has a start, and its length; the keys that
    /// any bytes map.
    KbmLength(Layout),
    Kbm(Layout),
    ReadKbm(Layout, Vec<u8>),
    /// A sheet of four keys; the layout has a start.
    Sheet(Layout, [i32; 4]),
    /// The child of a pattern with fractional steps; and of a fractional generator, by its bits,
    /// the genesis, the pattern at a place from 0, the number of patterns, and a walk of eight.
    FractionalChild(Bits),
    FractionalGenesis(u64),
    FractionalNth(u64, u32),
    FractionalLen(u64),
    FractionalChildren(u64),
    /// Stored codes of one byte, and the way back.
    Widen(Vec<u8>),
    Narrow(Vec<u16>),
    /// The line that the key table program is given, without its line feed.
    Table(String),
    /// A question, and how many elements the slice has that is lent for its answer.
    InRoom(u16, Box<Question>),
    /// A line that is no question.
    Unreadable(&'static str),
}

impl Display for Layout {
    fn fmt(&self, f: &mut Formatter<'_>) -> fmt::Result {
        write!(f, "{} {} {}", self.code, self.octave, self.tritave)?;
        match self.start {
            None => Ok(()),
            Some(start) => write!(f, " {start}"),
        }
    }
}

impl Display for Retuning {
    fn fmt(&self, f: &mut Formatter<'_>) -> fmt::Result {
        let numbers = [self.code, self.octave, self.start, self.from, self.to];
        f.write_str(&words(numbers))
    }
}

impl Display for FreePergen {
    fn fmt(&self, f: &mut Formatter<'_>) -> fmt::Result {
        write!(f, "{} {}", self.period, self.generator)
    }
}

impl Display for Question {
    fn fmt(&self, f: &mut Formatter<'_>) -> fmt::Result {
        match self {
            Self::Gcd(x, y) => write!(f, "gcd {x} {y}"),
            Self::Simplify(x, y) => write!(f, "simplify {x} {y}"),
            Self::Odd(x) => write!(f, "odd {x}"),
            Self::Divide16(numer, denom) => write!(f, "divide16 {numer} {denom}"),
            Self::Divide32(numer, denom) => write!(f, "divide32 {numer} {denom}"),
            Self::Pergen(pergen) => write!(f, "pergen {pergen}"),
            Self::Generation(pergen, key) => write!(f, "generation {pergen} {key}"),
            Self::Accidentals {
                pergen,
                num_symbols,
                genchain_origin,
                key,
            } => write!(
                f,
                "accidentals {pergen} {num_symbols} {genchain_origin} {key}"
            ),
            Self::NewGenesis(pergen) => write!(f, "new_genesis {pergen}"),
            Self::NewCollapsed(large, small) => write!(f, "new_collapsed {large} {small}"),
            Self::OfPattern(asked, pattern) => {
                write!(f, "{} {}", asked.name(), words(*pattern))
            }
            Self::GetKey(pattern, primary, secondary) => {
                write!(f, "get_key {} {primary} {secondary}", words(*pattern))
            }
            Self::Chain(code) => write!(f, "chain {code}"),
            Self::Tritaves(n) => write!(f, "tritaves {n}"),
            Self::FindByEdo(n) => write!(f, "find_by_edo {n}"),
            Self::FindChainByEdo(n, code) => write!(f, "find_chain_by_edo {n} {code}"),
            Self::EdoReport => f.write_str("edo_report"),
            Self::OfLayout(asked, layout) => {
                write!(f, "{}{} {layout}", asked.name(), layout.suffix())
            }
            Self::Spelling(layout, key) => write!(f, "spelling{} {layout} {key}", layout.suffix()),
            Self::Name(layout, key) => write!(f, "name{} {layout} {key}", layout.suffix()),
            Self::Layer(layout, key) => write!(f, "layer{} {layout} {key}", layout.suffix()),
            Self::Lamp(layout, key) => write!(f, "lamp{} {layout} {key}", layout.suffix()),
            Self::BookLength(layout) => write!(f, "book_len{} {layout}", layout.suffix()),
            Self::Book(layout) => write!(f, "book{} {layout}", layout.suffix()),
            Self::Find(layout, key) => write!(f, "find{} {layout} {key}", layout.suffix()),
            Self::FindIn(key, book) => write!(f, "find_in {key}{}", listed(book)),
            Self::Nearest(layout, key, letter) => write!(f, "nearest {layout} {key} {letter}"),
            Self::Reach(layout, key, distance) => write!(f, "reach {layout} {key} {distance}"),
            Self::Moved(retuning, letter, signs, stars) => {
                write!(f, "moved {retuning} {letter} {signs} {stars}")
            }
            Self::MoveTable(retuning) => write!(f, "move_table {retuning}"),
            Self::LargestMove(retuning) => write!(f, "largest_move {retuning}"),
            Self::Sheet(layout, keys) => write!(f, "sheet {layout} {}", words(keys)),
            Self::FractionalChild(pattern) => {
                write!(f, "fractional_child {}", pattern_text(*pattern))
            }
            Self::FractionalGenesis(generator) => {
                write!(f, "fractional_genesis {}", double_text(*generator))
            }
            Self::FractionalNth(generator, place) => {
                write!(f, "fractional_nth {} {place}", double_text(*generator))
            }
            Self::FractionalLen(generator) => {
                write!(f, "fractional_len {}", double_text(*generator))
            }
            Self::FractionalChildren(generator) => {
                write!(f, "fractional_children {}", double_text(*generator))
            }
            Self::ToChainOrder(layout, list) => {
                write!(f, "to_chain_order {layout}{}", listed(list))
            }
            Self::ToKeyOrder(layout, list) => write!(f, "to_key_order {layout}{}", listed(list)),
            Self::Moves(layout) => write!(f, "moves {layout}"),
            Self::GenesisMoves(pergen) => write!(f, "genesis_moves {pergen}"),
            Self::NthMoves(pergen, place) => write!(f, "nth_moves {pergen} {place}"),
            Self::WriteMoves(layout) => write!(f, "write_moves {layout}"),
            Self::WalkMoves(pergen) => write!(f, "walk_moves {pergen}"),
            Self::KbmLength(layout) => write!(f, "kbm_len {layout}"),
            Self::Kbm(layout) => write!(f, "kbm {layout}"),
            Self::ReadKbm(layout, text) => write!(f, "read_kbm {layout}{}", listed(text)),
            Self::Widen(strip) => write!(f, "widen{}", listed(strip)),
            Self::Narrow(strip) => write!(f, "narrow{}", listed(strip)),
            Self::Table(line) => write!(f, "table {line}"),
            Self::InRoom(room, question) => write!(f, "{room} {question}"),
            Self::Unreadable(line) => f.write_str(line),
        }
    }
}

/// Numbers with a space before each.
fn listed<T: Display>(numbers: &[T]) -> String {
    numbers.iter().map(|number| format!(" {number}")).collect()
}
