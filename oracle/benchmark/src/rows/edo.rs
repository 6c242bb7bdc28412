//! Layouts from the number of steps alone, and the report over all numbers.

use std::fmt::Write;
use std::ops::RangeInclusive;

use judge::layouts::CHAINS;
use reading::edo::LARGEST_DIVISION;
use tune::layout::IsomorphicLayout;
use vetchnoon::c;

use super::Row;

const ALL: RangeInclusive<u16> = 1..=LARGEST_DIVISION;

pub fn rows() -> Vec<Row> {
    let mut rows: Vec<Row> = [12, 31, 400].map(|n| listing(n.to_string(), n..=n)).into();
    rows.push(listing("1 to 400".to_owned(), ALL));
    rows.push(report());
    rows
}

fn listing(input: String, divisions: RangeInclusive<u16>) -> Row {
    let same_divisions = divisions.clone();
    let mut numbers = [0; 15];
    Row::new(
        "layouts of so many steps",
        input,
        (divisions.clone().count(), "number of steps"),
        move || {
            let listed = divisions.clone();
            listed
                .map(|n| {
                    // SAFETY: the slice has so many elements, and is lent for the call.
                    let answer =
                        unsafe { c::vn_find_by_edo(n, numbers.as_mut_ptr(), numbers.len()) };
                    c::answered(answer).unwrap() / 3
                })
                .sum()
        },
        move || {
            let listed = same_divisions.clone();
            listed.map(|n| IsomorphicLayout::find_by_edo(n).len()).sum()
        },
    )
}

/// The original has no report; its caller counts.
fn report() -> Row {
    let mut text = [0; 57];
    Row::new(
        "report over all numbers of steps; the original's layouts are counted",
        "1 to 400",
        (ALL.count(), "number of steps"),
        move || {
            // SAFETY: the slice has so many elements, and is lent for the call.
            let answer = unsafe { c::vn_edo_report(text.as_mut_ptr(), text.len()) };
            c::answered(answer).unwrap()
        },
        || their_report().len(),
    )
}

fn their_report() -> String {
    let mut counts = [[0; 3]; 6];
    for layout in ALL.flat_map(IsomorphicLayout::find_by_edo) {
        let chain = CHAINS.iter().position(|chain| *chain == layout.genchain());
        let column = match layout.mos().sharpness() {
            1.. => 0,
            0 => 2,
            _ => 1,
        };
        counts[chain.unwrap()][column] += 1;
    }
    let mut text = String::new();
    for (code, [above, below, at]) in counts.iter().enumerate() {
        writeln!(text, "{code} {above} {below} {at}").expect("a string takes all text");
    }
    text
}
