//! Times the proved library and the original, in one process and on the same work,
//! and prints a table in Markdown. Words on the command line choose rows.

mod rows;
mod timing;

use std::env;
use std::fs;

use rows::Row;
use timing::Times;

/// The whole table is gone through so many times, and each row has so many rounds
/// each time: a machine that is busy for a while spoils no row for good.
const SWEEPS: usize = 6;
const ROUNDS: usize = 6;

fn main() {
    let words: Vec<String> = env::args().skip(1).collect();
    println!("Processor: {}", processor());
    println!("Best of {} rounds for each side.", SWEEPS * ROUNDS);
    table("the original's", rows::of_the_original(), &words);
    table("single calls", rows::of_single_calls(), &words);
    table("a fill", rows::of_a_fill(), &words);
}

/// Times the rows that have every word, and prints them.
fn table(other: &str, mut rows: Vec<Row>, words: &[String]) {
    rows.retain(|row| words.iter().all(|word| title(row).contains(word.as_str())));
    if rows.is_empty() {
        return;
    }
    // The same work has the same result.
    for row in &mut rows {
        assert_eq!((row.ours)(), (row.theirs)(), "{}", title(row));
    }
    let mut times = vec![Times::NONE; rows.len()];
    for _ in 0..SWEEPS {
        for (row, best) in rows.iter_mut().zip(&mut times) {
            *best = timing::best_of(ROUNDS, *best, &mut row.ours, &mut row.theirs);
        }
    }
    print(other, &rows, &times);
}

fn title(row: &Row) -> String {
    format!("{}, {}", row.what, row.input)
}

fn print(other: &str, rows: &[Row], times: &[Times]) {
    println!();
    println!("| work | input | per | ours, ns | {other}, ns | ratio |");
    println!("|---|---|---|---:|---:|---:|");
    for (row, times) in rows.iter().zip(times) {
        let nanoseconds = 1e9 / row.units as f64;
        println!(
            "| {} | {} | {} | {:.2} | {:.2} | {:.2} |",
            row.what,
            row.input,
            row.unit,
            times.ours * nanoseconds,
            times.theirs * nanoseconds,
            times.ours / times.theirs
        );
    }
}

fn processor() -> String {
    fs::read_to_string("/proc/cpuinfo")
        .unwrap_or_default()
        .lines()
        .find_map(|line| line.strip_prefix("model name")?.split_once(": "))
        .map_or_else(|| "unknown".to_owned(), |(_, model)| model.to_owned())
}
