//! Writes the list of questions that the program `replay` is run with, and the
//! answers that it has to give: the original's, and document 01's where the
//! original has none. The proved library is not asked.

mod answers;
mod books;
mod conversions;
mod edo;
mod fractional;
mod keys;
mod list;
mod mappings;
mod moves;
mod orders;
mod questions;
mod random;
mod reach;
mod retunings;
mod sheets;
mod starts;
mod strips;

use std::env;
use std::fs;
use std::path::Path;
use std::process::ExitCode;

use judge::asking;

use crate::questions::Question;

const USAGE: &str = "\
usage: replay_list FOLDER             write FOLDER/stdin and FOLDER/stdout
       replay_list --check FOLDER     say whether they hold what would be written
";

/// A line has at most as many bytes as the program has room for.
const LONGEST_LINE: usize = 512;

fn main() -> ExitCode {
    let words: Vec<String> = env::args().skip(1).collect();
    let words: Vec<&str> = words.iter().map(String::as_str).collect();
    let (folder, check) = match words[..] {
        ["--check", folder] => (folder, true),
        [folder] if !folder.starts_with('-') => (folder, false),
        _ => {
            eprint!("{USAGE}");
            return ExitCode::from(2);
        }
    };
    if !asking::overflow_is_checked() {
        eprintln!(
            "replay: built without overflow checks: a wrapped number would pass for an answer"
        );
        return ExitCode::FAILURE;
    }

    let replay = Replay::made();
    println!("{}", replay.summary());
    let files = [("stdin", replay.stdin), ("stdout", replay.stdout)];
    let folder = Path::new(folder);
    let done = files.into_iter().all(|(name, text)| {
        let path = folder.join(name);
        if check {
            holds(&path, &text)
        } else {
            write(&path, &text)
        }
    });
    match done {
        true => ExitCode::SUCCESS,
        false => ExitCode::FAILURE,
    }
}

/// The two files, and what they were made of.
struct Replay {
    stdin: String,
    stdout: String,
    answered: usize,
    refused: usize,
    left_out: usize,
}

impl Replay {
    fn made() -> Self {
        let mut replay = Self {
            stdin: String::new(),
            stdout: String::new(),
            answered: 0,
            refused: 0,
            left_out: 0,
        };
        for question in list::all() {
            replay.add(&question);
        }
        replay
    }

    fn add(&mut self, question: &Question) {
        let line = format!("{question}\n");
        assert!(line.len() <= LONGEST_LINE, "too long a line: {line}");
        let Some(answer) = answers::answer(question) else {
            self.left_out += 1;
            return;
        };
        if answer.starts_with("refused ") {
            self.refused += 1;
        } else {
            self.answered += 1;
        }
        self.stdin.push_str(&line);
        self.stdout.push_str(&answer);
    }

    fn summary(&self) -> String {
        format!(
            "replay: {} questions, {} answered and {} refused; {} left out, where the original overflows; {} and {} bytes",
            self.answered + self.refused,
            self.answered,
            self.refused,
            self.left_out,
            self.stdin.len(),
            self.stdout.len(),
        )
    }
}

fn write(path: &Path, text: &str) -> bool {
    match fs::write(path, text) {
        Ok(()) => true,
        Err(error) => {
            eprintln!("replay: {}: {error}", path.display());
            false
        }
    }
}

fn holds(path: &Path, text: &str) -> bool {
    match fs::read(path) {
        Ok(bytes) if bytes == text.as_bytes() => true,
        Ok(_) => {
            eprintln!("replay: {}: holds something else", path.display());
            false
        }
        Err(error) => {
            eprintln!("replay: {}: {error}", path.display());
            false
        }
    }
}
