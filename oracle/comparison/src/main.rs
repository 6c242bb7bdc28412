//! Compares the proved library, linked as the firmware links it, with the original
//! and with a plain reading of document 01, and says in a last line how many
//! answers nothing explains.

mod classes;
mod lending;
mod plan;
mod question;
mod randoms;
mod raw;
mod report;
mod subjects;
mod tally;

use std::env;
use std::process::ExitCode;

use plan::Mode;

const USAGE: &str = "\
usage: comparison [short | long] [SEED]

Short, the default, takes about a minute, long about ten. The seed, a number,
chooses the inputs that are taken at random; without one it is always the same.
";

/// The seed of a run that names none.
const DEFAULT_SEED: u64 = 1;

fn main() -> ExitCode {
    let arguments: Vec<String> = env::args().skip(1).collect();
    let Some((mode, seed)) = parse(&arguments) else {
        eprint!("{USAGE}");
        return ExitCode::from(2);
    };
    if !judge::asking::overflow_is_checked() {
        eprintln!("comparison: the original was built without overflow checks and cannot judge");
        return ExitCode::from(2);
    }
    let tally = plan::run(plan::tasks(mode, seed));
    print!("{}", report::text(&tally, mode, seed));
    ExitCode::from(u8::from(!tally.is_clean()))
}

fn parse(arguments: &[String]) -> Option<(Mode, u64)> {
    let (mode, rest) = match arguments.first().map(String::as_str) {
        Some("short") => (Mode::Short, &arguments[1..]),
        Some("long") => (Mode::Long, &arguments[1..]),
        _ => (Mode::Short, arguments),
    };
    let seed = match rest {
        [] => DEFAULT_SEED,
        [seed] => seed.parse().ok()?,
        _ => return None,
    };
    Some((mode, seed))
}

#[cfg(test)]
mod tests {
    use super::*;

    fn parsed(arguments: &[&str]) -> Option<(Mode, u64)> {
        let arguments: Vec<String> = arguments.iter().map(|word| word.to_string()).collect();
        parse(&arguments)
    }

    #[test]
    fn mode_and_seed_are_both_optional() {
        assert_eq!(parsed(&[]), Some((Mode::Short, DEFAULT_SEED)));
        assert_eq!(parsed(&["long"]), Some((Mode::Long, DEFAULT_SEED)));
        assert_eq!(parsed(&["long", "7"]), Some((Mode::Long, 7)));
        assert_eq!(parsed(&["7"]), Some((Mode::Short, 7)));
        assert_eq!(parsed(&["7", "8"]), None);
        assert_eq!(parsed(&["fast"]), None);
    }
}
