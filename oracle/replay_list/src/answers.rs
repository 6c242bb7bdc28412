//! The answer to each question, as the program `replay` has to print it: what the
//! original says, or the refusal that document 01 gives. Where the two
//! contradict each other, the list is not made.

use std::fmt::Display;
use std::fmt::Write;

use judge::asking::Answer;
use judge::keys::asked_at;
use judge::layouts;
use judge::numbers;
use judge::patterns;
use judge::patterns::Pattern;
use judge::spelling;
use judge::words;
use judge::words::words;
use reading::Outcome;
use reading::ask;
use reading::books;
use reading::chains;
use reading::codes;
use reading::layouts::repeated;
use reading::numbers::remainder;
use reading::orders;
use reading::pergens::Format;
use reading::reach;
use reading::tables;
use tune::layout::Genchain;
use tune::layout::IsomorphicLayout;
use tune::layout::Layer;
use tune::pergen::AccidentalsFormat;
use tune::pergen::Mos;
use tune::pergen::PerGen;

use crate::edo;
use crate::fractional;
use crate::mappings;
use crate::questions::FreePergen;
use crate::questions::Layout;
use crate::questions::OfLayout;
use crate::questions::OfPattern;
use crate::questions::Question;
use crate::retunings;
use crate::sheets;

/// Why there is no answer.
pub enum Absent {
    /// Document 01 refuses it.
    Refused(u8),
    /// The original overflows where document 01 has an answer, so nobody is
    /// there to say which: docs/DIFFERENCES.md lists the classes.
    Overflow,
}

impl From<u8> for Absent {
    fn from(number: u8) -> Self {
        Self::Refused(number)
    }
}

pub type Text = Result<String, Absent>;

/// The room of a question that names none.
const USUAL_ROOM: u16 = 65_535;

/// The answer's lines, or `None` where the original overflows.
pub fn answer(question: &Question) -> Option<String> {
    let (room, question) = match question {
        Question::InRoom(room, question) => (*room, &**question),
        _ => (USUAL_ROOM, question),
    };
    match text_in_room(question, room.into()) {
        Ok(mut text) => {
            // A table and a report end their own lines.
            if !matches!(question, Question::Table(_) | Question::EdoReport) {
                text.push('\n');
            }
            Some(text)
        }
        Err(Absent::Refused(number)) => Some(format!("refused {number}\n")),
        Err(Absent::Overflow) => None,
    }
}

/// A question's line and its answer, which the original does not overflow at.
#[cfg(test)]
pub fn answered(question: Question) -> (String, String) {
    let answer = answer(&question).expect("no overflow");
    (question.to_string(), answer)
}

/// Every question is refused, and not for its room alone.
#[cfg(test)]
pub fn assert_refused(questions: Vec<Question>) {
    for question in questions {
        let (line, answer) = answered(question);
        assert!(answer.starts_with("refused "), "{line}");
        assert_ne!(answer, "refused 10\n", "{line}");
    }
}

/// Question 10 comes after 1 to 8 and 17, and before those on a book.
fn text_in_room(question: &Question, room: usize) -> Text {
    if let Question::Find(layout, _) = question {
        ask(10, book(*layout)?.len() <= room)?;
    }
    let text = text(question)?;
    ask(10, elements(question, &text) <= room)?;
    Ok(text)
}

/// How many elements of the lent slice an answer fills.
fn elements(question: &Question, text: &str) -> usize {
    match question {
        Question::Chain(_) | Question::Name(..) | Question::Table(_) => text.len(),
        Question::EdoReport => text.len(),
        Question::FindByEdo(_) if text != "-" => text.split(' ').count(),
        Question::OfPattern(..) | Question::OfLayout(..) | Question::Book(_) if text != "-" => {
            text.split(' ').count()
        }
        Question::ReadKbm(..) if text == "-" => 0,
        Question::Reach(..)
        | Question::Kbm(_)
        | Question::ReadKbm(..)
        | Question::MoveTable(_)
        | Question::ToChainOrder(..)
        | Question::ToKeyOrder(..)
        | Question::WriteMoves(_)
        | Question::WalkMoves(_) => text.split(' ').count(),
        Question::Widen(strip) => strip.len(),
        Question::Narrow(strip) => strip.len(),
        _ => 0,
    }
}

fn text(question: &Question) -> Text {
    match question {
        Question::Gcd(x, y) => given(numbers::gcd(*x, *y)).map(|gcd| gcd.to_string()),
        Question::Simplify(x, y) => {
            given(numbers::simplified(*x, *y)).map(|(numer, denom)| format!("{numer} {denom}"))
        }
        Question::Odd(x) => given(numbers::odd_factors(*x)).map(|odd| odd.to_string()),
        Question::Divide16(numer, denom) => {
            let read = remainder((*numer).into(), (*denom).into());
            settled(read, numbers::divided(*numer, *denom)).map(divided_text)
        }
        Question::Divide32(numer, denom) => {
            let read = remainder((*numer).into(), (*denom).into());
            settled(read, numbers::divided(*numer, *denom)).map(divided_text)
        }
        Question::Pergen(pergen) => pergen_text(&created(*pergen)?),
        Question::Generation(pergen, key) => {
            let key = asked_at(*key, pergen.period);
            given(spelling::generation(&created(*pergen)?, key))
                .map(|generation| format!("{} {}", generation.degree, words(generation.cycle)))
        }
        Question::Accidentals {
            pergen,
            num_symbols,
            genchain_origin,
            key,
        } => {
            let read = Format {
                symbols: (*num_symbols).into(),
                origin: (*genchain_origin).into(),
            };
            pergen.read()?.accidentals(read, (*key).into())?;
            let format = AccidentalsFormat {
                num_symbols: *num_symbols,
                genchain_origin: *genchain_origin,
            };
            let key = asked_at(*key, pergen.period);
            given(spelling::accidentals(&created(*pergen)?, &format, key)).map(words::spelling)
        }
        Question::NewGenesis(pergen) => {
            let genesis = patterns::create_genesis(pergen.period, pergen.generator);
            settled(pergen.read(), genesis).map(words::pattern)
        }
        Question::NewCollapsed(large, small) => {
            given(patterns::create_collapsed(*large, *small)).map(words::pattern)
        }
        Question::OfPattern(asked, pattern) => of_pattern(*asked, *pattern),
        Question::GetKey(pattern, primary, secondary) => {
            let mos = created_pattern(*pattern)?;
            given(patterns::key(mos, *primary, *secondary)).map(|key| key.to_string())
        }
        Question::Chain(code) => {
            chains::chain(*code)?;
            Ok(original_chain(*code).to_string())
        }
        Question::KbmLength(layout) => mappings::length(*layout),
        Question::Kbm(layout) => mappings::file(*layout),
        Question::ReadKbm(layout, text) => mappings::keys(*layout, text),
        Question::Moved(retuning, letter, signs, stars) => {
            retunings::moved(*retuning, *letter, *signs, *stars)
        }
        Question::MoveTable(retuning) => retunings::table(*retuning),
        Question::LargestMove(retuning) => retunings::largest(*retuning),
        Question::Tritaves(n) => edo::tritaves(*n),
        Question::FindByEdo(n) => edo::layouts(*n),
        Question::FindChainByEdo(n, code) => edo::layout_of_chain(*n, *code),
        Question::EdoReport => given(judge::edo::report()),
        Question::OfLayout(asked, layout) => of_layout(*asked, &created_layout(*layout)?),
        Question::Spelling(layout, key) => {
            let key = asked_at(*key, layout.octave);
            given(layouts::accidentals(&created_layout(*layout)?, key)).map(words::spelling)
        }
        Question::Name(layout, key) => {
            let key = asked_at(*key, layout.octave);
            given(layouts::note_name(&created_layout(*layout)?, key))
        }
        // The original has lists of all keys alone.
        Question::Layer(layout, key) => {
            let layers = given(layouts::layers(&created_layout(*layout)?))?;
            Ok(layer_text(repeated(&layers, *key)))
        }
        Question::Lamp(layout, key) => {
            let strip = given(layouts::strip(&created_layout(*layout)?))?;
            Ok(repeated(&strip, *key).to_string())
        }
        // The original has its names alone.
        Question::Nearest(layout, key, letter) => {
            let original = created_layout(*layout)?;
            let letter = reach::letter(&layout.read()?, *letter)?;
            let nearest = given(layouts::nearest(&original, letter, *key))?;
            Ok(nearest.expect("each letter names a key").to_string())
        }
        Question::Reach(layout, key, distance) => {
            let read = layout.read()?;
            Ok(words(reach::keys_in_reach(&read, *key, *distance)))
        }
        // The original has the cycles and degrees of keys alone.
        Question::ToChainOrder(layout, list) => {
            let along = along(*layout, list)?;
            Ok(words(layouts::in_chain_order(&along, list)))
        }
        Question::ToKeyOrder(layout, list) => {
            let along = along(*layout, list)?;
            Ok(words(layouts::in_key_order(&along, list)))
        }
        // And its patterns, which leave one table of moves each.
        Question::Moves(layout) => {
            let original = created_layout(*layout)?;
            Ok(moves_text(original.mos(), original.pergen()))
        }
        Question::GenesisMoves(pergen) => Ok(moves_text(walk(*pergen)?[0], &created(*pergen)?)),
        Question::NthMoves(pergen, place) => {
            let (walk, created) = (walk(*pergen)?, created(*pergen)?);
            let found = walk.get(*place as usize);
            Ok(found.map_or_else(|| "none".to_owned(), |mos| moves_text(*mos, &created)))
        }
        Question::WriteMoves(layout) => {
            let original = created_layout(*layout)?;
            Ok(words(moves(original.mos(), original.pergen())))
        }
        Question::WalkMoves(pergen) => {
            let (walk, created) = (walk(*pergen)?, created(*pergen)?);
            Ok(words(walk.into_iter().flat_map(|mos| moves(mos, &created))))
        }
        Question::Sheet(layout, keys) => sheets::text(*layout, keys),
        Question::FractionalChild(pattern) => fractional::child_text(*pattern),
        Question::FractionalGenesis(generator) => fractional::genesis_text(*generator),
        Question::FractionalNth(generator, place) => fractional::nth_text(*generator, *place),
        Question::FractionalLen(generator) => fractional::len_text(*generator),
        Question::FractionalChildren(generator) => fractional::children_text(*generator),
        Question::Widen(strip) => Ok(list_text(codes::widened(strip)?)),
        Question::Narrow(strip) => Ok(list_text(codes::narrowed(strip)?)),
        Question::BookLength(layout) => Ok(book(*layout)?.len().to_string()),
        Question::Book(layout) => book(*layout).map(words),
        Question::Find(layout, key) => Ok(found_text(&book(*layout)?, *key)),
        Question::FindIn(key, book) => Ok(found_text(book, *key)),
        Question::Table(line) => table_text(line),
        Question::InRoom(..) => unreachable!("a question has one room"),
        Question::Unreadable(_) => Ok("?".to_owned()),
    }
}

/// What the original answers to a question that the document does not refuse.
pub fn given<T>(answer: Answer<T>) -> Result<T, Absent> {
    match answer {
        Ok(value) => Ok(value),
        Err(panicked) if panicked.is_overflow() => Err(Absent::Overflow),
        Err(panicked) => unreachable!("document 01 has an answer; the original {panicked}"),
    }
}

/// A question that the original panics at wherever the document refuses it.
fn settled<R, T>(read: Outcome<R>, answer: Answer<T>) -> Result<T, Absent> {
    match (read, answer) {
        (Ok(_), answer) => given(answer),
        (Err(number), Err(_)) => Err(number.into()),
        (Err(number), Ok(_)) => {
            unreachable!("document 01 refuses with {number}; the original has an answer")
        }
    }
}

fn created(asked: FreePergen) -> Result<PerGen, Absent> {
    settled(
        asked.read(),
        spelling::create(asked.period, asked.generator),
    )
}

fn created_pattern(pattern: Pattern) -> Result<Mos, Absent> {
    match (
        reading::patterns::Pattern::given(pattern),
        patterns::create(pattern),
    ) {
        (Ok(_), Ok(Some(mos))) => Ok(mos),
        (Err(number), Ok(None)) => Err(number.into()),
        (read, answer) => {
            unreachable!("document 01 reads {read:?}; the original: {answer:?}")
        }
    }
}

pub fn created_layout(layout: Layout) -> Result<IsomorphicLayout, Absent> {
    let read = layout.read().map(|_| ());
    // The original knows the chains by name, so it cannot be asked for a code above 5.
    chains::chain(layout.code)?;
    let chain = original_chain(layout.code);
    match (read, layouts::create(chain, layout.octave, layout.tritave)) {
        (Ok(()), Ok(Some(original))) => Ok(match layout.start {
            None => original,
            Some(start) => layouts::beginning(&original, start),
        }),
        (Err(number), Ok(None)) => Err(number.into()),
        // The original has a start for each chain, and no question about it.
        (Err(18), Ok(Some(_))) => Err(Absent::Refused(18)),
        // The original divides by an octave of 0.
        (Err(2), Err(_)) => Err(Absent::Refused(2)),
        (read, answer) => unreachable!(
            "{layout}: document 01 says {read:?}; the original has a layout: {:?}",
            answer.map(|layout| layout.is_some())
        ),
    }
}

/// The original's keys along the chain, where the list has an entry for each.
fn along(layout: Layout, list: &[u16]) -> Result<Vec<u16>, Absent> {
    let original = created_layout(layout)?;
    orders::holds_octave(&layout.read()?, list)?;
    given(layouts::keys_along_chain(&original))
}

/// The original's patterns from the genesis on.
fn walk(pergen: FreePergen) -> Result<Vec<Mos>, Absent> {
    let genesis = patterns::create_genesis(pergen.period, pergen.generator);
    given(patterns::children(settled(pergen.read(), genesis)?))
}

fn moves(mos: Mos, pergen: &PerGen) -> [i32; 4] {
    patterns::moves(mos, pergen.period(), pergen.generator()).expect("a pattern of the walk")
}

/// The numbers of a pattern, and its moves.
fn moves_text(mos: Mos, pergen: &PerGen) -> String {
    format!("{} {}", words::pattern(mos), words(moves(mos, pergen)))
}

fn original_chain(code: u16) -> Genchain {
    layouts::chain(code).expect("document 01 and the original have the same chains")
}

fn of_pattern(asked: OfPattern, pattern: Pattern) -> Text {
    let mos = created_pattern(pattern)?;
    match asked {
        OfPattern::Numbers => given(patterns::derived(mos)).map(|derived| {
            format!(
                "{} {} {} {} {}",
                derived.sharpness,
                derived.num_steps,
                derived.size,
                derived.num_cycles,
                derived.reduced_size
            )
        }),
        OfPattern::Child => given(patterns::child(mos)).map(words::pattern_or_none),
        OfPattern::Parent => given(patterns::parent(mos)).map(words::pattern_or_none),
        OfPattern::Genesis => given(patterns::genesis(mos)).map(words::pattern),
        OfPattern::Dual => given(patterns::dual(mos)).map(words::pattern),
        OfPattern::Mirror => given(patterns::mirror(mos)).map(words::pattern),
        OfPattern::Coprime => {
            let read = reading::patterns::Pattern::given(pattern)?.coprime();
            settled(read, patterns::coprime(mos)).map(words::pattern)
        }
        OfPattern::Children => given(patterns::children(mos)).map(walk_text),
        OfPattern::Parents => given(patterns::parents(mos)).map(walk_text),
        OfPattern::LayerSizes => {
            given(patterns::layers(mos)).map(|layers| words(patterns::layer_sizes(&layers)))
        }
        OfPattern::Layers => given(patterns::layers(mos)).map(words),
    }
}

fn of_layout(asked: OfLayout, layout: &IsomorphicLayout) -> Text {
    match asked {
        OfLayout::Numbers => {
            let pergen = pergen_text(layout.pergen())?;
            let pattern = words::pattern(layout.mos());
            let scale = given(layouts::scale_name(layout))?;
            Ok(format!("{scale} {pergen} {pattern}"))
        }
        OfLayout::Names => given(layouts::note_names(layout)).map(words),
        OfLayout::KeyLayers => {
            given(layouts::layers(layout)).map(|layers| words(layers.into_iter().map(layer_text)))
        }
        OfLayout::Lamps => given(layouts::strip(layout)).map(words),
    }
}

fn book(layout: Layout) -> Result<Vec<u8>, Absent> {
    given(layouts::book(&created_layout(layout)?))
}

/// Offset and length, and the name; or the refusal, which both calls tell.
fn found_text(book: &[u8], key: i32) -> String {
    match books::find(book, key) {
        Ok([offset, length]) => {
            let name = &book[offset as usize..][..length as usize];
            let name = str::from_utf8(name).expect("the list asks for text alone");
            format!("{offset} {length} {name}")
        }
        Err(number) => format!("refused {number} refused {number}"),
    }
}

/// All that the key table program prints for a line, a refusal too.
fn table_text(line: &str) -> Text {
    match table_lines(line) {
        Err(Absent::Refused(number)) => Ok(format!("refused {number}\n")),
        lines => lines,
    }
}

fn table_lines(line: &str) -> Text {
    let [code, octave, tritave] = tables::line(format!("{line}\n").as_bytes())?;
    let layout = created_layout(Layout {
        code,
        octave,
        tritave,
        start: None,
    })?;
    let mut text = String::new();
    // One octave, even where the strip has two.
    for (key, lamp) in (0..octave).zip(given(layouts::strip(&layout))?) {
        let name = given(layouts::note_name(&layout, key))?;
        writeln!(text, "{key} {name} {lamp}").expect("a string takes any text");
    }
    Ok(text)
}

fn divided_text<D: Display>((quotient, remainder): (i32, D)) -> String {
    format!("{quotient} {remainder}")
}

fn pergen_text(pergen: &PerGen) -> Text {
    let derived = given(spelling::derived(pergen))?;
    Ok(format!(
        "{} {} {} {} {}",
        pergen.period(),
        pergen.generator(),
        derived.num_cycles,
        derived.reduced_period,
        derived.inverse
    ))
}

fn layer_text(layer: Layer) -> String {
    match layer {
        Layer::Natural => "n".to_owned(),
        Layer::Sharp(level) => format!("s{level}"),
        Layer::Enharmonic(level) => format!("e{level}"),
        Layer::Flat(level) => format!("f{level}"),
    }
}

/// Numbers, or `-` where there is none.
pub fn list_text<T: Display>(numbers: Vec<T>) -> String {
    match numbers.is_empty() {
        true => "-".to_owned(),
        false => words(numbers),
    }
}

fn walk_text(walk: Vec<Mos>) -> String {
    words(walk.into_iter().map(words::pattern))
}

#[cfg(test)]
mod tests {
    use super::*;

    fn table(line: &str) -> Option<String> {
        answer(&Question::Table(line.to_owned()))
    }

    #[test]
    fn the_printed_table() {
        assert_eq!(
            table("1 12 19").as_deref(),
            Some(
                "\
0 D 0
1 D#/Eb 65535
2 E 1
3 F 1
4 F#/Gb 65535
5 G 1
6 G#/Ab 65535
7 A 1
8 A#/Bb 65535
9 B 1
10 C 1
11 C#/Db 65535
"
            )
        );
    }

    #[test]
    fn refused_tables() {
        for (line, number) in [
            ("6 12 19", 1),
            ("1 0 19", 2),
            ("3 12 19", 3),
            ("0 12 19", 4),
            ("1 12", 14),
        ] {
            assert_eq!(table(line), Some(format!("refused {number}\n")), "{line}");
        }
    }

    #[test]
    fn a_strip() {
        let layout = Layout {
            code: 1,
            octave: 7,
            tritave: 11,
            start: None,
        };
        assert_eq!(
            answer(&Question::OfLayout(OfLayout::Lamps, layout)).as_deref(),
            Some("0 1 65535 65535 65535 65535 1 0 1 65535 65535 65535 65535 1\n")
        );
    }

    #[test]
    fn a_table_of_one_octave() {
        let lines = "0 D 0\n1 E 1\n2 F 65535\n3 G 65535\n4 A 65535\n5 B 65535\n6 C 1\n";
        assert_eq!(table("1 7 11").as_deref(), Some(lines));
    }

    #[test]
    fn a_lookup() {
        let layout = Layout {
            code: 1,
            octave: 12,
            tritave: 19,
            start: None,
        };
        let find = |key| Question::Find(layout, key);
        assert_eq!(answer(&find(1)).as_deref(), Some("101 5 D#/Eb\n"));
        assert_eq!(
            answer(&find(12)).as_deref(),
            Some("refused 13 refused 13\n")
        );
        let in_room = |room| answer(&Question::InRoom(room, Box::new(find(12))));
        assert_eq!(in_room(132).as_deref(), Some("refused 13 refused 13\n"));
        assert_eq!(in_room(131).as_deref(), Some("refused 10\n"));
    }

    #[test]
    fn rooms() {
        let in_room = |room, question| answer(&Question::InRoom(room, Box::new(question)));
        let table = |line: &str| Question::Table(line.to_owned());
        assert_eq!(in_room(11, table("1 12")).as_deref(), Some("refused 14\n"));
        assert_eq!(in_room(10, table("1 12")).as_deref(), Some("refused 10\n"));
        let chain = Question::Chain(1);
        assert_eq!(in_room(11, chain.clone()).as_deref(), Some("Meantone[7]\n"));
        assert_eq!(in_room(10, chain).as_deref(), Some("refused 10\n"));
    }

    #[test]
    fn conversions() {
        let widen = |codes: &[u8]| Question::Widen(codes.to_vec());
        let narrow = |codes: &[u16]| Question::Narrow(codes.to_vec());
        let in_room = |room, question| answer(&Question::InRoom(room, Box::new(question)));
        let wide = in_room(3, widen(&[3, 103, 255]));
        assert_eq!(wide.as_deref(), Some("4 5 65535\n"));
        let back = in_room(3, narrow(&[4, 5, 65_535]));
        assert_eq!(back.as_deref(), Some("3 103 255\n"));
        assert_eq!(in_room(0, widen(&[])).as_deref(), Some("-\n"));
        assert_eq!(in_room(0, widen(&[201])).as_deref(), Some("refused 10\n"));
        assert_eq!(in_room(0, widen(&[202])).as_deref(), Some("refused 17\n"));
        assert_eq!(in_room(1, narrow(&[202])).as_deref(), Some("refused 17\n"));
    }

    #[test]
    fn an_overflow_is_no_answer() {
        let pergen = FreePergen {
            period: 32_770,
            generator: 32_769,
        };
        assert_eq!(answer(&Question::Generation(pergen, 65_535)), None);
    }
}
