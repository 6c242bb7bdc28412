//! Where the original is asked for a key.

/// The original's keys are numbers of 16 bits, and it is asked for such a key itself.
/// Of any other number it knows nothing; it is asked for the key that document 02
/// (W-201) brings it round to, the remainder by the octave, or by a free period, that
/// is never negative. No original is made of an octave of 0, and any key will do.
pub fn asked_at(key: i32, octave: u16) -> u16 {
    u16::try_from(key).unwrap_or_else(|_| {
        let remainder = key.rem_euclid(i32::from(octave.max(1)));
        u16::try_from(remainder).expect("a remainder is below its divisor")
    })
}

#[cfg(test)]
mod tests {
    use super::asked_at;

    #[test]
    fn a_key_of_16_bits_is_asked_for_itself() {
        assert_eq!(
            [0, 13, 65_535].map(|key| asked_at(key, 12)),
            [0, 13, 65_535]
        );
    }

    #[test]
    fn any_other_is_asked_for_at_its_remainder() {
        assert_eq!([-1, -12, 65_536].map(|key| asked_at(key, 12)), [11, 0, 4]);
        assert_eq!([i32::MIN, i32::MAX].map(|key| asked_at(key, 12)), [4, 7]);
        assert_eq!(asked_at(i32::MIN, 65_535), 32_767);
        assert_eq!(asked_at(-1, 0), 0);
    }
}
