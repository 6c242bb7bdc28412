//! Lines for the key table program, and what is no such line.

use super::Mode;
use super::Task;
use crate::randoms::Randoms;
use crate::subjects::tables;
use crate::tally::Tally;

/// The streams of random numbers that are used here.
const STREAM: u64 = 5_000_000;

/// Bytes that a line may go wrong by, and some that belong to it.
const ALPHABET: [u8; 8] = *b"019 \n\r-x";

/// A line that is answered, whose bytes are changed.
const LINE: &[u8] = b"1 12 19\n";

/// Lines with long tables: 819 cycles, of 1,720,118 bytes, the longest that was found; 585
/// cycles; and the largest octave with one cycle, whose names have the most signs.
const LONG_TABLES: [&[u8]; 3] = [b"2 4095 4914\n", b"1 4095 6435\n", b"2 4096 4097\n"];

pub fn plan(tasks: &mut Vec<Task>, mode: Mode, seed: u64) {
    for octave in (0..=mode.pick(72, 144)).rev() {
        tasks.push(Box::new(move |tally| all_of_octave(tally, octave)));
    }
    let longest = mode.pick(6, 7);
    for first in ALPHABET {
        tasks.push(Box::new(move |tally| {
            all_beginning(tally, &mut vec![first], longest);
        }));
    }
    for line in LONG_TABLES {
        tasks.push(Box::new(|tally| tables::print(tally, line)));
    }
    tasks.push(Box::new(changed_line));
    tasks.push(Box::new(limits));
    for stream in 0..mode.pick(256, 2_048) {
        let randoms = Randoms::new(seed, STREAM + stream);
        tasks.push(Box::new(move |tally| at_random(tally, randoms.clone())));
    }
}

fn all_of_octave(tally: &mut Tally, octave: u16) {
    for code in 0..=6 {
        for tritave in 0..=2 * octave + 6 {
            tables::print(tally, format!("{code} {octave} {tritave}\n").as_bytes());
        }
    }
}

/// Every text of the alphabet that begins so, up to a length.
fn all_beginning(tally: &mut Tally, text: &mut Vec<u8>, longest: usize) {
    tables::print(tally, text);
    if text.len() == longest {
        return;
    }
    for byte in ALPHABET {
        text.push(byte);
        all_beginning(tally, text, longest);
        text.pop();
    }
}

/// Every byte of a line changed, left out and put in; and every beginning.
fn changed_line(tally: &mut Tally) {
    tables::print(tally, b"");
    for place in 0..=LINE.len() {
        tables::print(tally, &LINE[..place]);
        for byte in 0..=u8::MAX {
            let mut longer = LINE.to_vec();
            longer.insert(place, byte);
            tables::print(tally, &longer);
            if place < LINE.len() {
                let mut changed = LINE.to_vec();
                changed[place] = byte;
                tables::print(tally, &changed);
            }
        }
        if place < LINE.len() {
            let mut shorter = LINE.to_vec();
            shorter.remove(place);
            tables::print(tally, &shorter);
        }
    }
}

/// Numbers at the limits of each place, and just beyond.
fn limits(tally: &mut Tally) {
    for code in [0, 1, 5, 6, 65_535, 65_536] {
        for octave in [0, 1, 5, 4_095, 4_096, 4_097, 65_535, 65_536, 99_999] {
            for tritave in [0, 1, 8, 6_492, 65_535, 65_536, 99_999, 100_000] {
                tables::print(tally, format!("{code} {octave} {tritave}\n").as_bytes());
            }
        }
    }
}

fn at_random(tally: &mut Tally, mut randoms: Randoms) {
    for _ in 0..100 {
        let mut line = random_line(&mut randoms);
        tables::print(tally, &line);
        let place = randoms.below(line.len() as u64) as usize;
        line[place] = randoms.of(&ALPHABET);
        tables::print(tally, &line);
    }
}

/// Any three numbers within or around the limits, at times with leading zeros and
/// with bytes after the line.
fn random_line(randoms: &mut Randoms) -> Vec<u8> {
    let code = randoms.between(0, 6);
    let octave = randoms.between(0, 4100) >> randoms.below(8);
    let tritave = match randoms.below(4) {
        0 => u64::from(randoms.any()),
        1 => 65_530 + randoms.below(12),
        _ => u64::from(octave) + randoms.below(u64::from(octave) + 1),
    };
    let zeros = randoms.of(&[1, 1, 2, 5, 6]);
    let after = randoms.of(&["", "", " ", "1 12 19\n"]);
    format!("{code:0zeros$} {octave} {tritave:0zeros$}\n{after}").into_bytes()
}
