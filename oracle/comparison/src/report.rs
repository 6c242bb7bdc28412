//! The text of the report.

use std::fmt::Write;

use crate::classes::Class;
use crate::plan::Mode;
use crate::tally::Counts;
use crate::tally::Tally;

pub fn text(tally: &Tally, mode: Mode, seed: u64) -> String {
    let mut text = format!("{} run, seed {seed}\n\n", mode.name());
    push_counts(&mut text, tally);
    push_classes(&mut text, tally);
    let unexplained = push_unexplained(&mut text, tally);
    let failed = push_failures(&mut text, tally);
    push_missing(&mut text, tally);
    push_verdict(&mut text, tally, unexplained, failed);
    text
}

/// What was compared, as the table that docs/DIFFERENCES.md has. Every answer is held against
/// the reading of document 01; the last three columns say what else it is held against.
fn push_counts(text: &mut String, tally: &Tally) {
    let heads = [
        "answers",
        "refusals",
        "original itself",
        "made of its answers",
        "reading alone",
    ];
    push_row(text, "call", &heads.map(str::to_owned));
    line(text, format_args!("|---|{}", "---:|".repeat(heads.len())));
    let mut sum = Counts::default();
    for (call, counts) in tally.calls() {
        push_row(text, &format!("`{}`", call.name()), &columns(*counts));
        sum += *counts;
    }
    push_row(text, "all", &columns(sum));
}

fn push_row(text: &mut String, name: &str, columns: &[String; 5]) {
    let [answers, refusals, original, made, reading] = columns;
    line(
        text,
        format_args!(
            "| {name:<28} | {answers:>11} | {refusals:>11} | {original:>15} | {made:>19} | {reading:>13} |"
        ),
    );
}

fn columns(counts: Counts) -> [String; 5] {
    [
        counts.all(),
        counts.refused,
        counts.of_original,
        counts.made_of_original,
        counts.of_reading(),
    ]
    .map(in_thousands)
}

/// The classes of docs/DIFFERENCES.md, each with its count and smallest input.
fn push_classes(text: &mut String, tally: &Tally) {
    text.push_str("\nintended differences from the original, with the smallest input\n");
    for class in Class::ALL {
        let (count, smallest) = match tally.class(class) {
            Some(noted) => (noted.count, noted.smallest.to_string()),
            None => (0, "not met".to_owned()),
        };
        line(
            text,
            format_args!("{:>12}  {}: {smallest}", in_thousands(count), class.name()),
        );
    }
}

fn push_unexplained(text: &mut String, tally: &Tally) -> u64 {
    let mut sum = 0;
    for unexplained in tally.all_unexplained().values() {
        sum += unexplained.count;
        line(
            text,
            format_args!("\nunexplained: {}", unexplained.smallest),
        );
        for detail in unexplained.detail.lines() {
            line(text, format_args!("  {detail}"));
        }
        if unexplained.count > 1 {
            let more = in_thousands(unexplained.count - 1);
            line(text, format_args!("  and {more} more of this call"));
        }
    }
    sum
}

/// Where a part of the comparison panicked, the rest of it was not compared.
fn push_failures(text: &mut String, tally: &Tally) -> u64 {
    for (failure, count) in tally.failures() {
        line(text, format_args!("\nfailed, {}: {failure}", parts(*count)));
    }
    tally.failures().values().sum()
}

/// What should have been compared and was not.
fn push_missing(text: &mut String, tally: &Tally) {
    for call in tally.never_asked() {
        line(text, format_args!("\nnever asked: {}", call.name()));
    }
    for class in tally.never_met() {
        line(text, format_args!("\nnever met: {}", class.name()));
    }
}

fn push_verdict(text: &mut String, tally: &Tally, unexplained: u64, failed: u64) {
    let never_asked = tally.never_asked().len() as u64;
    let never_met = tally.never_met().len() as u64;
    let mut verdict = format!("{} unexplained", in_thousands(unexplained));
    if failed > 0 {
        verdict += &format!(", {} of the comparison failed", parts(failed));
    }
    if never_asked > 0 {
        verdict += &format!(", calls never asked: {never_asked}");
    }
    if never_met > 0 {
        verdict += &format!(", classes never met: {never_met}");
    }
    line(text, format_args!("\n{verdict}"));
}

fn parts(count: u64) -> String {
    match count {
        1 => "1 part".to_owned(),
        _ => format!("{} parts", in_thousands(count)),
    }
}

fn line(text: &mut String, arguments: std::fmt::Arguments) {
    writeln!(text, "{arguments}").expect("a string takes every text");
}

fn in_thousands(number: u64) -> String {
    let digits = number.to_string();
    let mut text = String::new();
    for (index, digit) in digits.chars().enumerate() {
        if index > 0 && (digits.len() - index).is_multiple_of(3) {
            text.push(',');
        }
        text.push(digit);
    }
    text
}

#[cfg(test)]
mod tests {
    use judge::asking::Panicked;

    use super::*;
    use crate::question::Call;

    #[test]
    fn thousands_are_set_apart() {
        assert_eq!(in_thousands(0), "0");
        assert_eq!(in_thousands(999), "999");
        assert_eq!(in_thousands(1_234_567), "1,234,567");
    }

    #[test]
    fn an_empty_tally_lacks_every_call_and_class() {
        let text = text(&Tally::default(), Mode::Short, 1);
        let (calls, classes) = (Call::ALL.len(), Class::ALL.len());
        assert!(text.contains("\nnever asked: vn_gcd\n"));
        assert!(text.ends_with(&format!(
            "\n0 unexplained, calls never asked: {calls}, classes never met: {classes}\n"
        )));
    }

    #[test]
    fn a_failure_is_told_in_the_last_line() {
        let mut tally = Tally::default();
        tally.failed(Panicked {
            message: "no such number".to_owned(),
            place: "reading/src/lib.rs line 1".to_owned(),
        });
        let text = text(&tally, Mode::Short, 1);
        assert!(
            text.contains(
                "\nfailed, 1 part: panicked: no such number (reading/src/lib.rs line 1)\n"
            )
        );
        assert!(text.contains("\n0 unexplained, 1 part of the comparison failed"));
    }
}
