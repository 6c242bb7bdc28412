//! Octaves of n equal steps: all n.

use reading::edo::LARGEST_DIVISION;

use super::Task;
use crate::subjects::edo;

/// How many n that are refused go into a task.
const AT_ONCE: u16 = 4_096;

pub fn plan(tasks: &mut Vec<Task>) {
    tasks.push(Box::new(edo::compare_report));
    for n in 0..=LARGEST_DIVISION {
        tasks.push(Box::new(move |tally| edo::compare(tally, n)));
    }
    for first in (LARGEST_DIVISION + 1..=u16::MAX).step_by(AT_ONCE.into()) {
        let last = first.saturating_add(AT_ONCE - 1);
        tasks.push(Box::new(move |tally| {
            (first..=last).for_each(|n| edo::compare(tally, n));
        }));
    }
}
