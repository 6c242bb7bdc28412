//! Our stand-in for the registry crate `assert_approx_eq`, so that the doc
//! examples of the original that use its macro run without a registry.
//! It offers what those examples use and nothing else.

/// Panics unless two floats differ by less than a millionth.
#[macro_export]
macro_rules! assert_approx_eq {
    ($left:expr, $right:expr $(,)?) => {{
        let (left, right): (f64, f64) = ($left, $right);
        assert!(
            (left - right).abs() < 1.0e-6,
            "{left} and {right} differ by a millionth or more"
        );
    }};
}

#[cfg(test)]
mod tests {
    #[test]
    fn near_numbers_pass() {
        assert_approx_eq!(0.1 + 0.2, 0.3);
    }

    #[test]
    #[should_panic(expected = "differ")]
    fn far_numbers_fail() {
        assert_approx_eq!(0.0, 1.0e-6);
    }

    #[test]
    #[should_panic(expected = "differ")]
    fn what_is_not_a_number_fails() {
        assert_approx_eq!(f64::NAN, f64::NAN);
    }
}
