//! Puts one question to the original and prints what it answers, in plain lines.

mod report;

use std::env;
use std::io;
use std::io::BufWriter;
use std::io::ErrorKind;
use std::io::Write;
use std::process::ExitCode;

use judge::layouts;
use judge::patterns::Pattern;
use tune::layout::Genchain;

const USAGE: &str = "\
usage: judge QUESTION

  gcd X Y                                     greatest common divisor
  simplify X Y                                the fraction in lowest terms
  odd X                                       the number without factors of two
  div NUMERATOR DENOMINATOR                   quotient, rounded down
  rem NUMERATOR DENOMINATOR                   remainder, never negative
  accidentals PERIOD GENERATOR SYMBOLS ORIGIN KEY
                                              a key of a free pergen and format
  mos COUNT COUNT STEP STEP                   a given pattern, primary before secondary
  key COUNT COUNT STEP STEP PRIMARY SECONDARY the key at a place of its board
  walk PERIOD GENERATOR                       the patterns from the genesis on
  fractional GENERATOR                        the patterns from a fractional generator on
  layout CODE OCTAVE TRITAVE                  a layout and the keys of its octave
  edo STEPS                                   the layouts of an octave of so many steps
  edo_report                                  their numbers by chain, over 1 to 400 steps
  classes                                     where the original panics, smallest inputs

Chain codes: 0 Mavila[9], 1 Meantone[7], 2 Meantone[5], 3 Porcupine[8],
4 Tetracot[7], 5 Hanson[7]. Numbers are 0 to 65535; a numerator has 32 signed
bits, a denominator 32 bits, a place 16 signed bits; a fractional generator is a
decimal number.

A part that the original has no answer for is printed as none. A part at which
it panics is printed as panicked, with the message and the place in its source.
";

/// One question to the original.
enum Question {
    Gcd(u16, u16),
    Simplified(u16, u16),
    OddFactors(u16),
    Quotient(i32, u32),
    Remainder(i32, u32),
    Accidentals {
        period: u16,
        generator: u16,
        num_symbols: u16,
        genchain_origin: u16,
        key: u16,
    },
    Mos(Pattern),
    Key(Pattern, i16, i16),
    Walk {
        period: u16,
        generator: u16,
    },
    Fractional(f64),
    Layout {
        chain: Genchain,
        octave: u16,
        tritave: u16,
    },
    Edo(u16),
    EdoReport,
    Classes,
}

fn main() -> ExitCode {
    let words: Vec<String> = env::args().skip(1).collect();
    let words: Vec<&str> = words.iter().map(String::as_str).collect();

    let Some(question) = parse(&words) else {
        eprint!("{USAGE}");
        return ExitCode::from(2);
    };

    let mut out = BufWriter::new(io::stdout().lock());
    match answer(&question, &mut out).and_then(|()| out.flush()) {
        Ok(()) => ExitCode::SUCCESS,
        // The reader has seen enough, as `head` has.
        Err(error) if error.kind() == ErrorKind::BrokenPipe => ExitCode::SUCCESS,
        Err(error) => {
            eprintln!("judge: {error}");
            ExitCode::FAILURE
        }
    }
}

fn parse(words: &[&str]) -> Option<Question> {
    Some(match words {
        ["gcd", x, y] => Question::Gcd(x.parse().ok()?, y.parse().ok()?),
        ["simplify", x, y] => Question::Simplified(x.parse().ok()?, y.parse().ok()?),
        ["odd", x] => Question::OddFactors(x.parse().ok()?),
        ["div", numer, denom] => Question::Quotient(numer.parse().ok()?, denom.parse().ok()?),
        ["rem", numer, denom] => Question::Remainder(numer.parse().ok()?, denom.parse().ok()?),
        ["accidentals", period, generator, symbols, origin, key] => Question::Accidentals {
            period: period.parse().ok()?,
            generator: generator.parse().ok()?,
            num_symbols: symbols.parse().ok()?,
            genchain_origin: origin.parse().ok()?,
            key: key.parse().ok()?,
        },
        ["mos", pattern @ ..] => Question::Mos(parse_pattern(pattern)?),
        ["key", pattern @ .., primary, secondary] => Question::Key(
            parse_pattern(pattern)?,
            primary.parse().ok()?,
            secondary.parse().ok()?,
        ),
        ["walk", period, generator] => Question::Walk {
            period: period.parse().ok()?,
            generator: generator.parse().ok()?,
        },
        ["fractional", generator] => Question::Fractional(generator.parse().ok()?),
        ["layout", code, octave, tritave] => Question::Layout {
            chain: layouts::chain(code.parse().ok()?)?,
            octave: octave.parse().ok()?,
            tritave: tritave.parse().ok()?,
        },
        ["edo", steps] => Question::Edo(steps.parse().ok()?),
        ["edo_report"] => Question::EdoReport,
        ["classes"] => Question::Classes,
        _ => return None,
    })
}

fn parse_pattern(words: &[&str]) -> Option<Pattern> {
    let numbers: Option<Vec<u16>> = words.iter().map(|word| word.parse().ok()).collect();
    numbers?.try_into().ok()
}

fn answer(question: &Question, out: &mut impl Write) -> io::Result<()> {
    match *question {
        Question::Gcd(x, y) => report::gcd(out, x, y),
        Question::Simplified(x, y) => report::simplified(out, x, y),
        Question::OddFactors(x) => report::odd_factors(out, x),
        Question::Quotient(numer, denom) => report::quotient(out, numer, denom),
        Question::Remainder(numer, denom) => report::remainder(out, numer, denom),
        Question::Accidentals {
            period,
            generator,
            num_symbols,
            genchain_origin,
            key,
        } => report::accidentals(out, period, generator, num_symbols, genchain_origin, key),
        Question::Mos(pattern) => report::mos(out, pattern),
        Question::Key(pattern, primary, secondary) => report::key(out, pattern, primary, secondary),
        Question::Walk { period, generator } => report::walk(out, period, generator),
        Question::Fractional(generator) => report::fractional(out, generator),
        Question::Layout {
            chain,
            octave,
            tritave,
        } => report::layout(out, chain, octave, tritave),
        Question::Edo(steps) => report::edo(out, steps),
        Question::EdoReport => report::edo_report(out),
        Question::Classes => report::classes(out),
    }
}
