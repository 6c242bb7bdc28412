//! How near the original's logarithms come to deciding otherwise than the exact powers of
//! document 02, W-202: docs/DIFFERENCES.md gives these numbers.
//!
//! The number of octaves in a tritave lies between two fractions, since 3^31867 is above
//! 2^50508 and 3^15601 below 2^24727. With them the place of n tritaves among the steps is known
//! to less than a millionth of a step.

use judge::edo;
use reading::edo::LARGEST_DIVISION;
use reading::powers::power;

const BELOW: (f64, f64) = (50_508.0, 31_867.0);
const ABOVE: (f64, f64) = (24_727.0, 15_601.0);

/// How many steps n tritaves in octaves are above k, by a fraction. Products and differences
/// of these numbers are exact, and one division rounds.
fn above((numer, denom): (f64, f64), n: u16, k: u16) -> f64 {
    (f64::from(n) * numer - f64::from(k) * denom) / denom
}

/// The tritave that rounding gives, and by how many steps it is too small.
fn exact(n: u16) -> (u16, f64) {
    let k = reading::edo::tritaves(n).unwrap()[0];
    let (low, high) = (above(BELOW, n, k), above(ABOVE, n, k));
    assert!(low < high && high - low < 1e-6);
    (k, (low + high) / 2.0)
}

/// The division with the least of the given distances.
fn nearest(distance: impl Fn(f64) -> f64) -> (u16, u16, f64) {
    let divisions = 1..=LARGEST_DIVISION;
    let distances = divisions.map(|n| {
        let (k, error) = exact(n);
        (n, k, distance(error))
    });
    distances
        .min_by(|one, other| one.2.total_cmp(&other.2))
        .unwrap()
}

#[test]
fn the_fractions_are_on_both_sides() {
    assert!(power(3, 31_867) > power(2, 50_508));
    assert!(power(3, 15_601) < power(2, 24_727));
}

/// Rounding to k decides at half a step.
#[test]
fn the_nearest_case_of_rounding() {
    let (n, k, distance) = nearest(|error| 0.5 - error.abs());
    assert_eq!((n, k), (153, 242));
    assert!((distance - 0.000_737).abs() < 1e-6);
}

/// The second choice is tried from a third of a step on.
#[test]
fn the_nearest_case_of_the_second_choice() {
    let (n, k, distance) = nearest(|error| (error.abs() - 1.0 / 3.0).abs());
    assert_eq!((n, k), (102, 162));
    assert!((distance - 0.000_492).abs() < 1e-6);
}

/// The original's own numbers are within a millionth of a step of the exact ones, so it could
/// decide otherwise only a hundred times nearer than any case comes.
#[test]
fn the_error_of_the_logarithms() {
    for n in 1..=LARGEST_DIVISION {
        let (k, error) = exact(n);
        let patent = edo::patent_val(n);
        assert_eq!(patent.values()[..2], [n, k]);
        let theirs = -edo::error_of_tritave(&patent);
        assert!((theirs - error).abs() < 1e-6, "{n}: {theirs} and {error}");
    }
}
