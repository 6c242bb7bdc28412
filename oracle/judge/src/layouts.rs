//! Questions to layout.rs.

use reading::Outcome;
use reading::books;
use reading::codes;
use reading::codes::Lamp;
use reading::former;
use reading::layers::Kind;
use reading::layouts::lamps_of;
use reading::layouts::repeated;
use reading::mappings;
use reading::reach;
use reading::sheets::Record;
use tune::layout;
use tune::layout::Genchain;
use tune::layout::IsomorphicLayout;
use tune::layout::Layer;
use tune::pitch::Ratio;
use tune::temperament::Val;

use crate::asking::Answer;
use crate::asking::ask;
use crate::keys::asked_at;
use crate::patterns;
use crate::spelling;
use crate::spelling::Accidentals;
use crate::spelling::Generation;

/// The original's chains by code. The original itself has no codes.
pub const CHAINS: [Genchain; 6] = [
    Genchain::Mavila9,
    Genchain::Meantone7,
    Genchain::Meantone5,
    Genchain::Porcupine8,
    Genchain::Tetracot7,
    Genchain::Hanson7,
];

pub fn chain(code: u16) -> Option<Genchain> {
    CHAINS.get(usize::from(code)).copied()
}

/// The layout of a chain for the given step counts, or `None` where the original
/// finds none: it does not say which question has the answer no.
pub fn create(chain: Genchain, octave: u16, tritave: u16) -> Answer<Option<IsomorphicLayout>> {
    ask(|| layout::create_layout_for_oracle(chain, &val(octave, tritave)))
}

/// The same layout with another letter on key 0, which the original has not: its record
/// is given the start as its origin. Its own spelling formula, note formatter and
/// layers read it there.
pub fn beginning(layout: &IsomorphicLayout, start: u16) -> IsomorphicLayout {
    let mut layout = layout.clone();
    layout::begin_layout_for_oracle(&mut layout, start);
    layout
}

/// A val of two step counts. `create_layout` reads these alone, and not the
/// step size, so any step size will do.
pub fn val(octave: u16, tritave: u16) -> Val {
    Val::create(Ratio::octave(), vec![octave, tritave]).expect("two values are not too many")
}

pub fn scale_name(layout: &IsomorphicLayout) -> Answer<&'static str> {
    ask(|| layout.get_scale_name())
}

pub fn accidentals(layout: &IsomorphicLayout, key: u16) -> Answer<Accidentals> {
    ask(|| layout.get_accidentals(key).into())
}

pub fn note_name(layout: &IsomorphicLayout, key: u16) -> Answer<String> {
    ask(|| layout.get_note_name(key))
}

/// One layer for each key of the octave, or of two octaves at sharpness 0.
pub fn layers(layout: &IsomorphicLayout) -> Answer<Vec<Layer>> {
    ask(|| layout.get_layers())
}

/// A layer of the original, in document 01's words.
pub fn kind_of(layer: Layer) -> Kind {
    match layer {
        Layer::Natural => Kind::Natural,
        Layer::Sharp(level) => Kind::Sharp(level.into()),
        Layer::Enharmonic(level) => Kind::Enharmonic(level.into()),
        Layer::Flat(level) => Kind::Flat(level.into()),
    }
}

/// The strip that all of the original's layers make with the codes of 16 bits (W-207),
/// home's going first (W-206).
pub fn strip(layout: &IsomorphicLayout) -> Answer<Vec<u16>> {
    Ok(lamps(layout)?.into_iter().map(codes::code).collect())
}

/// The strip that they make with document 01's codes of one byte, or the refusal where
/// they have none.
pub fn former_strip(layout: &IsomorphicLayout) -> Answer<Outcome<Vec<u8>>> {
    Ok(former::strip(&lamps(layout)?))
}

fn lamps(layout: &IsomorphicLayout) -> Answer<Vec<Lamp>> {
    let kinds: Vec<Kind> = layers(layout)?.into_iter().map(kind_of).collect();
    Ok(lamps_of(layout.pergen().period().into(), &kinds))
}

/// The Scala keyboard mapping of the keys whose layer in the first octave is natural. The
/// original has no such files (W-210).
pub fn mapping(layout: &IsomorphicLayout) -> Answer<Vec<u8>> {
    let octave = layout.pergen().period().into();
    let layers = layers(layout)?.into_iter().take(octave);
    let natural: Vec<bool> = layers.map(|layer| layer == Layer::Natural).collect();
    Ok(mappings::written(&natural))
}

/// A sheet of keys. The original has no such call (W-208); it is asked for each key by itself,
/// and for its layers once.
pub fn sheet(layout: &IsomorphicLayout, keys: &[i32]) -> Answer<Vec<Record>> {
    let strip = strip(layout)?;
    let octave = layout.pergen().period();
    let record = |key: i32| {
        let spelt = accidentals(layout, asked_at(key, octave))?;
        Ok(Record {
            key,
            sharp_index: spelt.sharp_index,
            sharp_count: spelt.sharp_count,
            flat_index: spelt.flat_index,
            flat_count: spelt.flat_count,
            stars: spelt.cycle.unwrap_or(0),
            lamp: repeated(&strip, key),
        })
    };
    keys.iter().copied().map(record).collect()
}

/// The names of the octave's keys.
pub fn note_names(layout: &IsomorphicLayout) -> Answer<Vec<String>> {
    (0..layout.pergen().period())
        .map(|key| note_name(layout, key))
        .collect()
}

/// The keys of the octave that the original names by a letter alone, with any stars. It has
/// no such call (W-203); its names are searched.
pub fn keys_of_letter(layout: &IsomorphicLayout, letter: &str) -> Answer<Vec<u16>> {
    Ok(reach::keys_of(letter, &note_names(layout)?))
}

/// Of these keys the one that is nearest to a key, which may be any.
pub fn nearest(layout: &IsomorphicLayout, letter: &str, key: i32) -> Answer<Option<u16>> {
    let keys = keys_of_letter(layout, letter)?;
    Ok(reach::nearest(layout.pergen().period().into(), &keys, key))
}

/// The keys of the octave in the order of the chain, one cycle after the other. The original
/// has no such call (W-214); its keys are put in the order of their cycles and degrees.
pub fn keys_along_chain(layout: &IsomorphicLayout) -> Answer<Vec<u16>> {
    let keys = 0..layout.pergen().period();
    let found: Vec<Generation> = keys
        .clone()
        .map(|key| spelling::generation(layout.pergen(), key))
        .collect::<Answer<_>>()?;
    let mut along: Vec<u16> = keys.collect();
    along.sort_by_key(|key| {
        let Generation { cycle, degree } = found[usize::from(*key)];
        (cycle, degree)
    });
    Ok(along)
}

/// The entries of the keys in this order.
pub fn in_chain_order(along: &[u16], list: &[u16]) -> Vec<u16> {
    along.iter().map(|key| list[usize::from(*key)]).collect()
}

/// The entries in the order of keys again.
pub fn in_key_order(along: &[u16], list: &[u16]) -> Vec<u16> {
    let mut keys = vec![0; along.len()];
    for (key, entry) in along.iter().zip(list) {
        keys[usize::from(*key)] = *entry;
    }
    keys
}

/// The moves of the layout's own pattern, where its steps have some.
pub fn moves(layout: &IsomorphicLayout) -> Option<[i32; 4]> {
    let pergen = layout.pergen();
    patterns::moves(layout.mos(), pergen.period(), pergen.generator())
}

/// The original's names, laid down as document 01 says.
pub fn book(layout: &IsomorphicLayout) -> Answer<Vec<u8>> {
    Ok(books::of_names(&note_names(layout)?))
}

#[cfg(test)]
mod tests {
    use tune::pergen::AccidentalsFormat;

    use super::*;

    /// Every accepted layout of some octaves, with its number of letters.
    fn accepted() -> Vec<(IsomorphicLayout, u16)> {
        let mut layouts = Vec::new();
        for chain in CHAINS {
            for octave in 5..=24 {
                for tritave in 0..=3 * octave {
                    layouts.extend(create(chain, octave, tritave).unwrap());
                }
            }
        }
        let with_letters = |layout: IsomorphicLayout| {
            let letters = layout.mos().num_steps() as u16;
            (layout, letters)
        };
        layouts.into_iter().map(with_letters).collect()
    }

    #[test]
    fn a_layout_begins_as_a_free_format_does() {
        for (layout, letters) in accepted() {
            for start in 0..letters {
                let begun = beginning(&layout, start);
                let format = AccidentalsFormat {
                    num_symbols: letters,
                    genchain_origin: start,
                };
                for key in 0..layout.pergen().period() {
                    let free = spelling::accidentals(layout.pergen(), &format, key);
                    assert_eq!(accidentals(&begun, key), free);
                }
                assert_eq!(accidentals(&begun, 0).unwrap().sharp_index, start);
            }
        }
    }

    #[test]
    fn with_its_own_start_a_layout_is_what_it_was() {
        for (layout, _) in accepted() {
            let start = accidentals(&layout, 0).unwrap().sharp_index;
            let begun = beginning(&layout, start);
            assert_eq!(note_names(&begun), note_names(&layout));
            assert_eq!(layers(&begun), layers(&layout));
        }
    }

    #[test]
    fn a_strip_of_two_octaves() {
        let seven = create(Genchain::Meantone7, 7, 11).unwrap().unwrap();
        let e = 65_535;
        let codes = vec![0, 1, e, e, e, e, 1, 0, 1, e, e, e, e, 1];
        assert_eq!(strip(&seven), Ok(codes));
        let codes = vec![0, 1, 255, 255, 255, 255, 1, 0, 1, 255, 255, 255, 255, 1];
        assert_eq!(former_strip(&seven), Ok(Ok(codes)));
    }

    #[test]
    fn each_letter_names_as_many_keys_as_there_are_cycles() {
        for (layout, _) in accepted() {
            let cycles = spelling::derived(layout.pergen()).unwrap().num_cycles;
            let symbol = note_name(&layout, 0).unwrap();
            assert_eq!(
                keys_of_letter(&layout, &symbol).unwrap().len(),
                usize::from(cycles)
            );
        }
    }

    #[test]
    fn the_nearest_d() {
        let quarter_tones = create(Genchain::Meantone7, 24, 38).unwrap().unwrap();
        assert_eq!(keys_of_letter(&quarter_tones, "D"), Ok(vec![0, 1]));
        let nearest = [2, 13, -1].map(|key| nearest(&quarter_tones, "D", key));
        assert_eq!(nearest, [Ok(Some(1)), Ok(Some(0)), Ok(Some(0))]);
        // From another letter, D and D* are four keys higher.
        let from_c = beginning(&quarter_tones, 1);
        assert_eq!(keys_of_letter(&from_c, "D"), Ok(vec![4, 5]));
    }

    #[test]
    fn keys_and_moves_of_quarter_tones() {
        let quarter_tones = create(Genchain::Meantone7, 24, 38).unwrap().unwrap();
        let along = keys_along_chain(&quarter_tones).unwrap();
        assert_eq!(along[..4], [0, 14, 4, 18]);
        assert_eq!(along[12..16], [1, 15, 5, 19]);
        let list: Vec<u16> = (100..124).collect();
        let chain = in_chain_order(&along, &list);
        assert_eq!(chain[12..16], [101, 115, 105, 119]);
        assert_eq!(in_key_order(&along, &chain), list);
        assert_eq!(moves(&quarter_tones), Some([-1, 2, 3, -5]));
    }

    #[test]
    fn a_sheet_of_quarter_tones() {
        let quarter_tones = create(Genchain::Meantone7, 24, 38).unwrap().unwrap();
        let records = sheet(&quarter_tones, &[3, -1, 3]).unwrap();
        let keys_and_stars: Vec<(i32, u16)> =
            records.iter().map(|one| (one.key, one.stars)).collect();
        assert_eq!(keys_and_stars, [(3, 1), (-1, 1), (3, 1)]);
        assert_eq!((records[1].sharp_index, records[1].flat_index), (1, 3));
        assert_eq!(records[0], records[2]);
        assert_eq!(sheet(&quarter_tones, &[]), Ok(vec![]));
    }

    #[test]
    fn the_twelve_from_c() {
        let twelve = create(Genchain::Meantone7, 12, 19).unwrap().unwrap();
        let names = note_names(&beginning(&twelve, 1)).unwrap().join(" ");
        assert_eq!(names, "C C#/Db D D#/Eb E F F#/Gb G G#/Ab A A#/Bb B");
    }
}
