//! Scala keyboard mappings: writing one, and reading it again.

use tune::layout::Layer;

use super::Numbers;
use super::Row;
use super::SIZES;
use super::made_anew;

pub fn rows() -> Vec<Row> {
    let mut rows = Vec::from(SIZES.map(file));
    rows.extend(SIZES.map(reading));
    rows
}

/// The original has no such files; its caller writes one by its layers.
fn file(n: Numbers) -> Row {
    let given = n.layout();
    let layout = made_anew(n);
    let mut text = vec![0; vetchnoon::kbm_len(given).unwrap()];
    n.row_of_keys(
        "a keyboard mapping; by the original's layers",
        move || vetchnoon::kbm(given, &mut text).unwrap(),
        move || {
            let layers = layout().get_layers();
            let entries = (0..n.1).zip(layers).map(|(key, layer)| match layer {
                Layer::Natural => format!("{key}\n"),
                _ => "x\n".to_owned(),
            });
            let mut text = format!("{0}\n0\n127\n60\n69\n440.000000\n{0}\n", n.1);
            text.extend(entries);
            text.len()
        },
    )
}

/// The other side is a reader as a caller would write it, which parses each line that is no
/// mark and compares it.
fn reading(n: Numbers) -> Row {
    let given = n.layout();
    let mut text = vec![0; vetchnoon::kbm_len(given).unwrap()];
    vetchnoon::kbm(given, &mut text).unwrap();
    let same_text = text.clone();
    let mut keys = vec![0; n.1.into()];
    n.row_of_keys(
        "a keyboard mapping, read; by a plain reader",
        move || vetchnoon::kbm_read(given, &text, &mut keys).unwrap(),
        move || plain_keys(n.1, &same_text).expect("a mapping").len(),
    )
}

fn plain_keys(octave: u16, text: &[u8]) -> Option<Vec<u16>> {
    let text = str::from_utf8(text).ok()?;
    let mut lines = text.lines().filter(|line| !line.starts_with('!'));
    let size = octave.to_string();
    for due in [&size, "0", "127", "60", "69", "440.000000", &size] {
        if lines.next() != Some(due) {
            return None;
        }
    }
    let mut keys = Vec::new();
    for key in 0..octave {
        let line = lines.next()?;
        if line == "x" {
            continue;
        }
        if line.parse() != Ok(key) {
            return None;
        }
        keys.push(key);
    }
    lines.next().is_none().then_some(keys)
}
