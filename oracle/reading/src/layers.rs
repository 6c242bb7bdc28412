//! "Layer sizes", and what a layer's number means.

use super::Whole;
use super::patterns::Pattern;

/// The sizes of a pattern's layers: "the natural layer ..; each count's e div 2
/// sharp layers, full ones with both counts first, then the ones with the count
/// left over; one enharmonic layer of the counts with odd e; the sharp layers again
/// in reverse. Empty layers drop out."
pub fn sizes(pattern: Pattern) -> Vec<Whole> {
    let cycles = pattern.cycles();
    let primary = Part::new(pattern.primary_count, pattern.primary_step, cycles);
    let secondary = Part::new(pattern.secondary_count, pattern.secondary_step, cycles);

    let mut sharp = Vec::new();
    for level in 0..(primary.extra / 2).max(secondary.extra / 2) {
        sharp.push(primary.at_sharp_level(level) + secondary.at_sharp_level(level));
    }

    let mut sizes = vec![primary.natural() + secondary.natural()];
    sizes.extend(&sharp);
    sizes.push(primary.enharmonic() + secondary.enharmonic());
    sizes.extend(sharp.iter().rev());
    sizes.retain(|size| *size > 0);
    sizes
}

/// Each layer's number, from 0, as often as its size.
pub fn numbers(pattern: Pattern) -> Vec<u16> {
    let sizes = sizes(pattern);
    (0..sizes.len())
        .flat_map(|layer| std::iter::repeat_n(layer as u16, sizes[layer] as usize))
        .collect()
}

/// What one of the two counts gives to the layers.
struct Part {
    count: Whole,
    step: Whole,
    /// e: "the quotient less 1, or 0 for step 0".
    extra: Whole,
}

impl Part {
    fn new(count: Whole, step: Whole, cycles: Whole) -> Self {
        Self {
            count,
            step,
            extra: if step == 0 { 0 } else { step / cycles - 1 },
        }
    }

    fn natural(&self) -> Whole {
        if self.step > 0 { self.count } else { 0 }
    }

    fn at_sharp_level(&self, level: Whole) -> Whole {
        if level < self.extra / 2 {
            self.count
        } else {
            0
        }
    }

    fn enharmonic(&self) -> Whole {
        if self.extra % 2 == 1 { self.count } else { 0 }
    }
}

/// What a layer's number means.
#[derive(Clone, Copy, Debug, PartialEq, Eq)]
pub enum Kind {
    Natural,
    Sharp(Whole),
    Enharmonic(Whole),
    Flat(Whole),
}

/// "Of T numbers, 0 is natural, j below T / 2 is sharp j − 1, j = T / 2 is
/// enharmonic j − 1, any other is flat T − j − 1."
pub fn kind(number: Whole, total: Whole) -> Kind {
    if number == 0 {
        Kind::Natural
    } else if 2 * number < total {
        Kind::Sharp(number - 1)
    } else if 2 * number == total {
        Kind::Enharmonic(number - 1)
    } else {
        Kind::Flat(total - number - 1)
    }
}

#[cfg(test)]
mod tests {
    use super::*;

    fn sizes_of(numbers: [u16; 4]) -> Vec<Whole> {
        sizes(Pattern::given(numbers).unwrap())
    }

    #[test]
    fn full_layers_come_before_partial_ones() {
        assert_eq!(sizes_of([5, 2, 5, 3]), [7, 7, 5, 5, 7]);
        assert_eq!(sizes_of([5, 2, 3, 2]), [7, 5, 2, 5]);
    }

    #[test]
    fn empty_layers_drop_out() {
        assert_eq!(sizes_of([40_000, 40_000, 1, 0]), [40_000]);
        assert_eq!(sizes_of([1, 65_535, 0, 0]), []);
    }

    #[test]
    fn half_of_an_odd_total_is_no_number() {
        assert_eq!(kind(1, 3), Kind::Sharp(0));
        assert_eq!(kind(2, 3), Kind::Flat(0));
        assert_eq!(kind(1, 2), Kind::Enharmonic(0));
    }
}
