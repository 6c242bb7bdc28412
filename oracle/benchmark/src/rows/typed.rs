//! Typed names: the key of a name.

use super::LARGE;
use super::MIDDLE;
use super::Numbers;
use super::Row;
use super::SMALL;
use super::made_anew;

pub fn rows() -> Vec<Row> {
    let mut rows = Vec::from([SMALL, MIDDLE, LARGE].map(in_names_made_anew));
    rows.extend([SMALL, MIDDLE, LARGE].map(in_names_made_beforehand));
    rows
}

/// Twelve names, from all over the octave.
fn typed(n: Numbers) -> Vec<String> {
    let layout = made_anew(n)();
    let keys = (0..12).map(|place| place * (n.1 / 12));
    keys.map(|key| layout.get_note_name(key)).collect()
}

fn names(n: Numbers) -> Vec<String> {
    let layout = made_anew(n)();
    (0..n.1).map(|key| layout.get_note_name(key)).collect()
}

/// The original reads no names: its caller searches the names of the octave, made for each.
fn in_names_made_anew(n: Numbers) -> Row {
    let what = "a name read back; the original's names are made and searched";
    row(what, n, move |name| place_of(&names(n), name))
}

/// The same among names that are made once and kept.
fn in_names_made_beforehand(n: Numbers) -> Row {
    let what = "a name read back; the original's names are made beforehand and searched";
    let names = names(n);
    row(what, n, move |name| place_of(&names, name))
}

fn place_of(names: &[String], name: &str) -> usize {
    names
        .iter()
        .position(|of_key| of_key == name)
        .expect("a name")
}

fn row(what: &'static str, n: Numbers, search: impl Fn(&str) -> usize + 'static) -> Row {
    let given = n.layout();
    let typed = typed(n);
    let same = typed.clone();
    Row::new(
        what,
        n.words(),
        (typed.len(), "name"),
        move || {
            let found = typed.iter().map(|name| {
                let key = vetchnoon::find_key(given, name.as_bytes());
                usize::from(key.unwrap())
            });
            found.sum()
        },
        move || same.iter().map(|name| search(name)).sum(),
    )
}
