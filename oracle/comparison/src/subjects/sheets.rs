//! Sheets of keys.
//!
//! The original has no such call; it is asked for each key by itself. The library's own single
//! calls are asked as well.

use judge::keys::asked_at;
use judge::layouts;
use judge::shown::shown;
use reading::Outcome;
use reading::sheets;
use vetchnoon::Layout;
use vetchnoon::Record;

use crate::classes;
use crate::classes::Class;
use crate::question::Call;
use crate::question::Question;
use crate::subjects::layouts::GivenLayout;
use crate::tally::Original;
use crate::tally::Tally;
use crate::tally::outcome;

/// Records before and behind a lent sheet.
const GUARD: usize = 2;

/// What records hold behind their keys before a call: the pattern, or what is not the pattern, so
/// that nothing written can be taken for what was there.
#[derive(Clone, Copy, Debug)]
enum Round {
    Pattern,
    Inverse,
}

impl GivenLayout {
    /// A sheet of these keys.
    pub fn compare_sheet(&self, tally: &mut Tally, keys: &[i32]) {
        let given = self.arguments.into_iter();
        let arguments: Vec<i64> = given.chain(keys.iter().map(|key| (*key).into())).collect();
        let question = Question {
            call: Call::Sheet,
            arguments: &arguments,
        };
        let reading = self.read(|layout| sheets::sheet(layout, keys));
        let original = self
            .original
            .then(|layout| Original::of(layouts::sheet(layout, keys)));
        let library = filled_alike(self.given, keys);
        let class = self.sheet_class(keys);
        tally.compare_lent(question, reading, original, class, library);
    }

    /// The original makes its layers first.
    fn sheet_class(&self, keys: &[i32]) -> Option<Class> {
        let octave = self.given.octave;
        self.class(|layout| {
            let of_key = |key: &i32| classes::of_layout_key(layout, asked_at(*key, octave));
            classes::of_layout_layers(layout).or_else(|| keys.iter().find_map(of_key))
        })
    }
}

/// What the library makes of a sheet, whatever its records held before, and the same by its single
/// calls; or what it did that no call may do.
fn filled_alike(layout: Layout, keys: &[i32]) -> Result<Outcome<Vec<sheets::Record>>, String> {
    let sheet = filled(layout, keys, Round::Pattern)?;
    let again = filled(layout, keys, Round::Inverse)?;
    if again != sheet {
        let (sheet, again) = (shown(&sheet), shown(&again));
        return Err(format!("{sheet}, and over other contents {again}"));
    }
    let single = by_single_calls(layout, keys);
    if single != sheet {
        let (sheet, single) = (shown(&sheet), shown(&single));
        return Err(format!("{sheet}, and by single calls {single}"));
    }
    Ok(sheet)
}

/// One call with a sheet of these keys.
fn filled(
    layout: Layout,
    keys: &[i32],
    round: Round,
) -> Result<Outcome<Vec<sheets::Record>>, String> {
    let lent = GUARD..GUARD + keys.len();
    let guard = [0; GUARD];
    let all = [&guard, keys, &guard].concat().into_iter().enumerate();
    let before: Vec<Record> = all
        .map(|(place, key)| holding(place as u16, key, round))
        .collect();
    let mut records = before.clone();
    let answer = outcome(vetchnoon::sheet(layout, &mut records[lent.clone()]));

    if answer.is_ok_and(|count| count != keys.len()) {
        return Err(format!("answered {answer:?} for {} records", keys.len()));
    }
    let may_change = |place: &usize| answer.is_ok() && lent.contains(place);
    let changed = (0..records.len())
        .filter(|place| !may_change(place))
        .find(|place| records[*place] != before[*place]);
    match changed {
        Some(place) => Err(format!(
            "answered {answer:?} and changed record {} of a sheet of {}",
            place as i64 - GUARD as i64,
            keys.len()
        )),
        None => Ok(answer.map(|_| records[lent].iter().map(read).collect())),
    }
}

/// A record that asks for a key, and has no 0 behind it.
fn holding(place: u16, key: i32, round: Round) -> Record {
    let number = |field: u16| {
        let pattern = place.wrapping_mul(37).wrapping_add(0x5a5a + field);
        match round {
            Round::Pattern => pattern,
            Round::Inverse => !pattern,
        }
    };
    Record {
        key,
        sharp_index: number(0),
        sharp_count: number(1),
        flat_index: number(2),
        flat_count: number(3),
        stars: number(4),
        lamp: number(5),
    }
}

/// A record of the library, as the reading has it.
fn read(record: &Record) -> sheets::Record {
    let Record {
        key,
        sharp_index,
        sharp_count,
        flat_index,
        flat_count,
        stars,
        lamp,
    } = *record;
    sheets::Record {
        key,
        sharp_index,
        sharp_count,
        flat_index,
        flat_count,
        stars,
        lamp,
    }
}

/// The sheet that the library's calls for one key make.
fn by_single_calls(layout: Layout, keys: &[i32]) -> Outcome<Vec<sheets::Record>> {
    let generator = outcome(vetchnoon::layout(layout))?.generator;
    keys.iter()
        .map(|key| outcome(single(layout, generator, *key)))
        .collect()
}

fn single(layout: Layout, generator: u16, key: i32) -> Result<sheets::Record, vetchnoon::Refused> {
    let spelt = vetchnoon::layout_accidentals(layout, key)?;
    let generation = vetchnoon::generation(layout.octave, generator, key)?;
    Ok(sheets::Record {
        key,
        sharp_index: spelt.sharp_index,
        sharp_count: spelt.sharp_count,
        flat_index: spelt.flat_index,
        flat_count: spelt.flat_count,
        stars: generation.cycle.unwrap_or(0),
        lamp: vetchnoon::lamp(layout, key)?,
    })
}
