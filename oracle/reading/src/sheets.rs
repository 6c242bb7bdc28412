//! W-208: a sheet of keys in one call.

use super::fitted;
use super::layouts::Layout;
use super::layouts::repeated;
use super::pergens::Spellings;

/// One of "a list of records, each with a key number and a place for its sharp and flat spelling
/// and its lamp code".
#[derive(Clone, Copy, Debug, PartialEq, Eq)]
pub struct Record {
    pub key: i32,
    pub sharp_index: u16,
    pub sharp_count: u16,
    pub flat_index: u16,
    pub flat_count: u16,
    /// "The cycle number .., 0 if absent."
    pub stars: u16,
    pub lamp: u16,
}

/// "Every record shall hold what single calls would have given, in list order." What a record
/// held before, its key aside, does not matter.
pub fn sheet(layout: &Layout, keys: &[i32]) -> Vec<Record> {
    let strip = layout.strip();
    let filled = keys.iter().map(|key| record(layout, &strip, *key));
    filled.collect()
}

/// "A lamp code is the strip's at the key's remainder, never negative, by the strip's length."
fn record(layout: &Layout, strip: &[u16], key: i32) -> Record {
    let Spellings {
        sharp_index,
        sharp_count,
        flat_index,
        flat_count,
    } = layout.spellings(key);
    let stars = layout.pergen.cycle(key.into()).unwrap_or(0);
    Record {
        key,
        sharp_index: fitted(sharp_index),
        sharp_count: fitted(sharp_count),
        flat_index: fitted(flat_index),
        flat_count: fitted(flat_count),
        stars: fitted(stars),
        lamp: repeated(strip, key),
    }
}

#[cfg(test)]
mod tests {
    use super::super::Whole;
    use super::super::names;
    use super::super::names::Spelling;
    use super::*;

    fn sheet_in((code, octave, tritave): (u16, u16, u16), keys: &[i32]) -> Vec<[i64; 7]> {
        let layout = Layout::new(code, octave, tritave).unwrap();
        sheet(&layout, keys).into_iter().map(numbers).collect()
    }

    fn numbers(record: Record) -> [i64; 7] {
        [
            record.key.into(),
            record.sharp_index.into(),
            record.sharp_count.into(),
            record.flat_index.into(),
            record.flat_count.into(),
            record.stars.into(),
            record.lamp.into(),
        ]
    }

    #[test]
    fn equal_keys_and_keys_below_0_in_list_order() {
        let e = 65_535;
        assert_eq!(
            sheet_in((1, 12, 19), &[1, 0, 1, -1]),
            [
                [1, 3, 1, 5, 1, 0, e],
                [0, 3, 0, 3, 0, 0, 0],
                [1, 3, 1, 5, 1, 0, e],
                [-1, 1, 1, 3, 1, 0, e]
            ]
        );
        assert!(sheet_in((1, 12, 19), &[]).is_empty());
    }

    #[test]
    fn stars() {
        let quarter_tones = sheet_in((1, 24, 38), &[3, -1]);
        assert_eq!(
            quarter_tones,
            [[3, 3, 1, 5, 1, 1, 3], [-1, 1, 1, 3, 1, 1, 3]]
        );
    }

    #[test]
    fn lamps_by_the_length_of_the_strip() {
        let lamps: Vec<i64> = sheet_in((3, 8, 13), &[1, 9, -8, -7])
            .iter()
            .map(|numbers| numbers[6])
            .collect();
        assert_eq!(lamps, [1, 65_535, 0, 65_535]);
    }

    #[test]
    fn spellings_sound_their_keys() {
        let layout = Layout::new(1, 24, 38).unwrap();
        let keys: Vec<i32> = (-30..30).chain([i32::MIN, i32::MAX]).collect();
        for record in sheet(&layout, &keys) {
            let sharp = (record.sharp_index, Whole::from(record.sharp_count));
            let flat = (record.flat_index, -Whole::from(record.flat_count));
            for (letter, signs) in [sharp, flat] {
                let spelling = Spelling {
                    letter: letter.into(),
                    signs,
                    stars: record.stars.into(),
                };
                let key = Whole::from(record.key).rem_euclid(24);
                assert_eq!(names::sounded(&layout, spelling), Ok(key));
            }
        }
    }
}
