//! Timing two sides of one row in turn, so that a busy machine disturbs both alike.

use std::hint;
use std::time::Duration;
use std::time::Instant;

/// A piece of work. What it returns is compared with the other side's and keeps the
/// compiler from dropping it.
pub type Work<'a> = Box<dyn FnMut() -> usize + 'a>;

/// A round repeats the work until it takes at least this long.
const ROUND: Duration = Duration::from_millis(4);

/// Seconds of one run of the work, the least that was seen.
#[derive(Clone, Copy)]
pub struct Times {
    pub ours: f64,
    pub theirs: f64,
}

impl Times {
    /// Before anything was seen.
    pub const NONE: Self = Self {
        ours: f64::INFINITY,
        theirs: f64::INFINITY,
    };

    fn least(self, other: Self) -> Self {
        Self {
            ours: self.ours.min(other.ours),
            theirs: self.theirs.min(other.theirs),
        }
    }
}

/// The best of so many rounds for each side, and of what was seen before.
pub fn best_of(rounds: usize, seen: Times, ours: &mut Work, theirs: &mut Work) -> Times {
    let our_repeats = repeats(ours);
    let their_repeats = repeats(theirs);
    (0..rounds)
        .map(|_| Times {
            ours: round(ours, our_repeats),
            theirs: round(theirs, their_repeats),
        })
        .fold(seen, Times::least)
}

/// How often the work is repeated in a round. This also warms caches up.
fn repeats(work: &mut Work) -> u32 {
    let mut repeats = 1;
    while round(work, repeats) * f64::from(repeats) < ROUND.as_secs_f64() {
        repeats *= 2;
    }
    repeats
}

fn round(work: &mut Work, repeats: u32) -> f64 {
    let begun = Instant::now();
    for _ in 0..repeats {
        hint::black_box(work());
    }
    begun.elapsed().as_secs_f64() / f64::from(repeats)
}
