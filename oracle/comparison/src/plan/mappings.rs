//! Scala keyboard mappings of layouts, and texts that were changed or never were one.

use std::iter;

use reading::mappings;

use super::Mode;
use super::Task;
use super::layouts::CODES;
use super::layouts::accepted_at_random;
use super::layouts::at_limits;
use super::layouts::starts;
use crate::randoms::LIMITS;
use crate::randoms::Randoms;
use crate::subjects::layouts::GivenLayout;
use crate::subjects::layouts::own_start;
use crate::tally::Tally;

/// The streams of random numbers that are used here.
const STREAM: u64 = 12_000_000;

/// Layouts whose files are changed byte by byte: five keys, an equalized scale, the twelve.
const SMALL: [(u16, u16, u16); 3] = [(2, 5, 8), (1, 7, 11), (1, 12, 19)];

/// Lines that may stand somewhere in a file, or that differ a little from one that may.
const LINES: [&str; 28] = [
    "x",
    "X",
    "xx",
    " x",
    "x\r",
    "",
    "!",
    "!x",
    " !",
    "0",
    "00",
    "00000",
    "000000",
    "-0",
    "+1",
    "1 ",
    "127",
    "60",
    "69",
    "068",
    "440",
    "440.000000",
    "440.00000",
    "440.0000000",
    "441.000000",
    "65535",
    "65536",
    "99999",
];

pub fn plan(tasks: &mut Vec<Task>, mode: Mode, seed: u64) {
    for (index, octave) in LIMITS.into_iter().enumerate() {
        let randoms = Randoms::new(seed, STREAM + index as u64);
        tasks.push(Box::new(move |tally| {
            at_limits(octave, &mut randoms.clone(), |layout, _| {
                layout.compare_mapping(tally);
            });
        }));
    }
    for stream in 0..mode.pick(32, 256) {
        let randoms = Randoms::new(seed, STREAM + 10_000 + stream);
        tasks.push(Box::new(move |tally| large(tally, randoms.clone())));
    }
    for stream in 0..mode.pick(64, 512) {
        let randoms = Randoms::new(seed, STREAM + 20_000 + stream);
        tasks.push(Box::new(move |tally| {
            lines_at_random(tally, randoms.clone())
        }));
        let randoms = Randoms::new(seed, STREAM + 30_000 + stream);
        tasks.push(Box::new(move |tally| any_bytes(tally, randoms.clone())));
    }
    for small in SMALL {
        tasks.push(Box::new(move |tally| single_changes(tally, small)));
        tasks.push(Box::new(move |tally| cut_and_extended(tally, small)));
        tasks.push(Box::new(move |tally| changed_lines(tally, small)));
        tasks.push(Box::new(move |tally| every_choice(tally, small)));
    }
    for octave in (0..=60).rev() {
        tasks.push(Box::new(move |tally| all_of_octave(tally, octave)));
    }
}

/// Every chain with each tritave up to 6 × octave + 6, from every letter and from what is
/// none.
fn all_of_octave(tally: &mut Tally, octave: u16) {
    for code in CODES {
        for tritave in 0..=6 * octave + 6 {
            let own = own_start(code).unwrap_or(0);
            for start in iter::once(own).chain(starts(code, octave, tritave)) {
                GivenLayout::beginning(code, octave, tritave, start).compare_mapping(tally);
            }
        }
    }
}

fn given((code, octave, tritave): (u16, u16, u16)) -> GivenLayout {
    GivenLayout::new(code, octave, tritave)
}

fn file_of(layout: &GivenLayout) -> Vec<u8> {
    layout.read(mappings::file).expect("an accepted layout")
}

/// Every other value of every byte, every byte left out, and every byte put in anywhere.
fn single_changes(tally: &mut Tally, layout: (u16, u16, u16)) {
    let layout = given(layout);
    let file = file_of(&layout);
    for place in 0..=file.len() {
        for byte in 0..=u8::MAX {
            let mut longer = file.clone();
            longer.insert(place, byte);
            layout.compare_text(tally, &longer);
            if let Some(changed) = longer.get(place + 1) {
                if *changed != byte {
                    longer.remove(place + 1);
                    layout.compare_text(tally, &longer);
                }
            }
        }
        if place < file.len() {
            let mut shorter = file.clone();
            shorter.remove(place);
            layout.compare_text(tally, &shorter);
        }
    }
}

/// Every beginning, every end, and what is left where a part is cut out.
fn cut_and_extended(tally: &mut Tally, layout: (u16, u16, u16)) {
    let layout = given(layout);
    let file = file_of(&layout);
    for from in 0..=file.len() {
        layout.compare_text(tally, &file[..from]);
        layout.compare_text(tally, &file[from..]);
        for to in from + 1..=file.len() {
            let parts = [&file[..from], &file[to..]];
            layout.compare_text(tally, &parts.concat());
            let twice = [&file[..to], &file[from..]];
            layout.compare_text(tally, &twice.concat());
        }
    }
}

/// The lines of a text, each with its line feed.
fn lines_of(text: &[u8]) -> Vec<Vec<u8>> {
    text.split_inclusive(|byte| *byte == b'\n')
        .map(<[u8]>::to_vec)
        .collect()
}

/// Each line changed for each of some, each of these put in anywhere, and every two lines
/// exchanged.
fn changed_lines(tally: &mut Tally, layout: (u16, u16, u16)) {
    let layout = given(layout);
    let lines = lines_of(&file_of(&layout));
    let numbers = (0..=layout.given.octave + 1).map(|number| number.to_string());
    let other: Vec<String> = LINES
        .map(str::to_owned)
        .into_iter()
        .chain(numbers)
        .collect();
    for place in 0..=lines.len() {
        for line in &other {
            let mut longer = lines.clone();
            longer.insert(place, format!("{line}\n").into_bytes());
            layout.compare_text(tally, &longer.concat());
            if place < lines.len() {
                longer.remove(place + 1);
                layout.compare_text(tally, &longer.concat());
            }
        }
        for second in place + 1..lines.len() {
            let mut exchanged = lines.clone();
            exchanged.swap(place, second);
            layout.compare_text(tally, &exchanged.concat());
        }
    }
}

/// Every choice of mapped keys.
fn every_choice(tally: &mut Tally, layout: (u16, u16, u16)) {
    let layout = given(layout);
    let octave = layout.given.octave;
    for choice in 0..1u32 << octave {
        let mapped: Vec<bool> = (0..octave).map(|key| choice >> key & 1 == 1).collect();
        layout.compare_text(tally, &mappings::written(&mapped));
    }
}

/// Accepted layouts of any size: the file, other choices of keys, and files with a line or a
/// byte changed.
fn large(tally: &mut Tally, mut randoms: Randoms) {
    let layout = accepted_at_random(&mut randoms);
    layout.compare_mapping(tally);
    // The layout was accepted; its start may be none.
    let Ok(file) = layout.read(mappings::file) else {
        return;
    };
    for _ in 0..4 {
        let keys = 0..layout.given.octave;
        let mapped: Vec<bool> = keys.map(|_| randoms.below(2) == 0).collect();
        layout.compare_text(tally, &mappings::written(&mapped));

        let mut bytes = file.clone();
        let place = randoms.below(file.len() as u64) as usize;
        bytes[place] = randoms.of(b"0129x!\n\r X");
        layout.compare_text(tally, &bytes);

        let mut lines = lines_of(&file);
        let place = randoms.below(lines.len() as u64) as usize;
        lines[place] = format!("{}\n", random_line(&mut randoms)).into_bytes();
        layout.compare_text(tally, &lines.concat());
    }
}

/// A line of a file, or one that is like it.
fn random_line(randoms: &mut Randoms) -> String {
    match randoms.below(3) {
        0 => randoms.any_length().to_string(),
        1 => randoms.below(200_000).to_string(),
        _ => randoms.of(&LINES).to_owned(),
    }
}

/// Small files of which some lines are others, some are put in and some left out.
fn lines_at_random(tally: &mut Tally, mut randoms: Randoms) {
    let layout = given(randoms.of(&SMALL));
    for _ in 0..400 {
        let mut lines = lines_of(&file_of(&layout));
        for _ in 0..=randoms.below(4) {
            let place = randoms.below(lines.len() as u64) as usize;
            let line = format!("{}\n", random_line(&mut randoms)).into_bytes();
            match randoms.below(4) {
                0 => lines.insert(place, line),
                1 => {
                    lines.remove(place);
                }
                2 => lines.insert(place, b"!440.000000\n".to_vec()),
                _ => lines[place] = line,
            }
        }
        layout.compare_text(tally, &lines.concat());
    }
}

/// Random bytes; and such of which many stand in a file. At times the layout is refused.
fn any_bytes(tally: &mut Tally, mut randoms: Randoms) {
    let refused = [(6, 0, 0), (1, 0, 0), (3, 12, 19), (0, 12, 19)];
    let layouts = SMALL.into_iter().chain(refused).map(given);
    for layout in layouts {
        for _ in 0..200 {
            let length = randoms.below(64) as usize;
            let mut bytes = randoms.bytes(length);
            layout.compare_text(tally, &bytes);
            for byte in &mut bytes {
                *byte = b"0x!\n5\n12\n"[usize::from(*byte) % 9];
            }
            layout.compare_text(tally, &bytes);
        }
    }
}

#[cfg(test)]
mod tests {
    use super::*;

    #[test]
    fn every_file_to_change_is_there() {
        for small in SMALL {
            let lines = lines_of(&file_of(&given(small)));
            assert_eq!(lines.len(), 7 + usize::from(small.1));
        }
    }
}
