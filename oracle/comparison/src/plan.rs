//! Which inputs are compared: small ones all, then limits and numbers at random.

mod books;
mod chains;
mod edo;
mod explanations;
mod fractional;
mod known;
mod layouts;
mod mappings;
mod moves;
mod orders;
mod patterns;
mod pergens;
mod reach;
mod retunings;
mod sheets;
mod strips;
mod tables;
mod typed;

use std::num::NonZero;
use std::sync::Mutex;
use std::sync::atomic::AtomicUsize;
use std::sync::atomic::Ordering;
use std::thread;

use judge::asking;

use crate::tally::Tally;

#[derive(Clone, Copy, Debug, PartialEq, Eq)]
pub enum Mode {
    Short,
    Long,
}

impl Mode {
    pub fn name(self) -> &'static str {
        match self {
            Self::Short => "short",
            Self::Long => "long",
        }
    }

    /// One of two values.
    fn pick<T>(self, short: T, long: T) -> T {
        match self {
            Self::Short => short,
            Self::Long => long,
        }
    }
}

/// A part of the work. What it counts depends on nothing but the part itself.
pub type Task = Box<dyn Fn(&mut Tally) + Send + Sync>;

pub fn tasks(mode: Mode, seed: u64) -> Vec<Task> {
    let mut tasks = Vec::new();
    known::plan(&mut tasks);
    // The longest first, so that no thread is left alone with one at the end.
    layouts::plan(&mut tasks, mode, seed);
    reach::plan(&mut tasks, mode, seed);
    retunings::plan(&mut tasks, mode, seed);
    sheets::plan(&mut tasks, mode, seed);
    orders::plan(&mut tasks, mode, seed);
    moves::plan(&mut tasks, mode, seed);
    fractional::plan(&mut tasks, mode, seed);
    patterns::plan(&mut tasks, mode, seed);
    pergens::plan(&mut tasks, mode, seed);
    mappings::plan(&mut tasks, mode, seed);
    typed::plan(&mut tasks, mode, seed);
    explanations::plan(&mut tasks, mode, seed);
    books::plan(&mut tasks, mode, seed);
    tables::plan(&mut tasks, mode, seed);
    strips::plan(&mut tasks, mode, seed);
    chains::plan(&mut tasks, mode, seed);
    edo::plan(&mut tasks);
    tasks
}

/// Runs all tasks, on as many threads as the machine has cores, and adds up. A task
/// that panics, by itself or in the reading, leaves what it counted before.
pub fn run(tasks: Vec<Task>) -> Tally {
    let threads = thread::available_parallelism().map_or(1, NonZero::get);
    let next = AtomicUsize::new(0);
    let sum = Mutex::new(Tally::default());
    thread::scope(|scope| {
        for _ in 0..threads {
            scope.spawn(|| {
                let mut tally = Tally::default();
                while let Some(task) = tasks.get(next.fetch_add(1, Ordering::Relaxed)) {
                    if let Err(panicked) = asking::ask(|| task(&mut tally)) {
                        tally.failed(panicked);
                    }
                }
                sum.lock().expect("no thread fails while adding").add(tally);
            });
        }
    });
    sum.into_inner().expect("all threads have ended")
}

#[cfg(test)]
mod tests {
    use super::*;
    use crate::subjects::numbers;

    #[test]
    fn a_task_that_panics_is_counted_and_the_others_go_on() {
        let ends_early: Task = Box::new(|tally| {
            numbers::gcd(tally, 12, 18);
            panic!("no such number");
        });
        let tally = run(vec![
            ends_early,
            Box::new(|tally| numbers::gcd(tally, 2, 3)),
        ]);
        let failures: Vec<_> = tally.failures().iter().collect();
        let [(failure, 1)] = failures[..] else {
            panic!("one failure, once: {failures:?}");
        };
        assert!(failure.starts_with("panicked: no such number (comparison/src/plan.rs line "));
        assert_eq!(
            tally
                .calls()
                .values()
                .map(|counts| counts.given)
                .sum::<u64>(),
            2
        );
    }
}
