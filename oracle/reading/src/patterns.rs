//! "Step patterns".

use super::LARGEST;
use super::Outcome;
use super::Whole;
use super::ask;
use super::fitted;
use super::numbers::gcd;

#[derive(Clone, Copy, Debug, PartialEq, Eq)]
pub struct Pattern {
    pub primary_count: Whole,
    pub secondary_count: Whole,
    pub primary_step: Whole,
    pub secondary_step: Whole,
}

impl Pattern {
    /// A given pattern. Question 7: "are both products and the size at most 65,535?"
    pub fn given(numbers: [u16; 4]) -> Outcome<Self> {
        let [primary_count, secondary_count, primary_step, secondary_step] =
            numbers.map(Whole::from);
        let pattern = Self {
            primary_count,
            secondary_count,
            primary_step,
            secondary_step,
        };
        ask(7, pattern.primary_product() <= LARGEST)?;
        ask(7, pattern.secondary_product() <= LARGEST)?;
        ask(7, pattern.size() <= LARGEST)?;
        Ok(pattern)
    }

    /// "Counts 1 and 1, primary step G mod P, secondary P less that."
    pub fn genesis_of(period: Whole, generator: Whole) -> Self {
        let primary_step = generator.rem_euclid(period);
        Self {
            primary_count: 1,
            secondary_count: 1,
            primary_step,
            secondary_step: period - primary_step,
        }
    }

    pub fn numbers(self) -> [u16; 4] {
        [
            self.primary_count,
            self.secondary_count,
            self.primary_step,
            self.secondary_step,
        ]
        .map(fitted)
    }

    pub fn primary_product(self) -> Whole {
        self.primary_count * self.primary_step
    }

    pub fn secondary_product(self) -> Whole {
        self.secondary_count * self.secondary_step
    }

    pub fn size(self) -> Whole {
        self.primary_product() + self.secondary_product()
    }

    pub fn steps(self) -> Whole {
        self.primary_count + self.secondary_count
    }

    pub fn sharpness(self) -> Whole {
        self.primary_step - self.secondary_step
    }

    pub fn cycles(self) -> Whole {
        gcd(self.primary_step, self.secondary_step)
    }

    /// "The child adds both counts into the count of the shorter step and replaces
    /// the longer step by the difference. There is none if a step is 0 or both are
    /// equal."
    pub fn child(self) -> Option<Self> {
        if self.primary_step == 0 || self.secondary_step == 0 || self.sharpness() == 0 {
            return None;
        }
        Some(if self.primary_step < self.secondary_step {
            Self {
                primary_count: self.steps(),
                secondary_step: self.secondary_step - self.primary_step,
                ..self
            }
        } else {
            Self {
                secondary_count: self.steps(),
                primary_step: self.primary_step - self.secondary_step,
                ..self
            }
        })
    }

    /// "Swap counts with steps, child, swap back."
    pub fn parent(self) -> Option<Self> {
        self.swapped().child().map(Self::swapped)
    }

    fn swapped(self) -> Self {
        Self {
            primary_count: self.primary_step,
            secondary_count: self.secondary_step,
            primary_step: self.primary_count,
            secondary_step: self.secondary_count,
        }
    }

    /// The walk of patterns, this one first.
    pub fn children(self) -> impl Iterator<Item = Self> {
        std::iter::successors(Some(self), |pattern| pattern.child())
    }

    /// The walk back, this one first.
    pub fn parents(self) -> impl Iterator<Item = Self> {
        std::iter::successors(Some(self), |pattern| pattern.parent())
    }

    pub fn genesis(self) -> Self {
        self.parents().last().expect("a walk has a first pattern")
    }

    /// `coprime`, whatever the size becomes.
    pub fn with_coprime_steps(mut self) -> Self {
        while self.cycles() > 1 {
            let difference = self.sharpness().abs() / self.cycles();
            let change = difference.max(1);
            self.secondary_step = if self.primary_step < self.secondary_step {
                self.primary_step + change
            } else {
                self.primary_step - change
            };
        }
        self
    }

    /// Question 8: "is the size after `coprime` at most 65,535?"
    pub fn coprime(self) -> Outcome<Self> {
        let coprime = self.with_coprime_steps();
        ask(8, coprime.size() <= LARGEST)?;
        Ok(coprime)
    }

    /// `get_key`: so many primary and so many secondary steps from key 0.
    pub fn key(self, primary: Whole, secondary: Whole) -> Whole {
        primary * self.primary_step + secondary * self.secondary_step
    }
}

/// The pattern with that many steps on the walk from the genesis, if there is one.
pub fn find(period: Whole, generator: Whole, steps: Whole) -> Option<Pattern> {
    Pattern::genesis_of(period, generator)
        .children()
        .find(|pattern| pattern.steps() == steps)
}

#[cfg(test)]
mod tests {
    use super::*;

    fn given(numbers: [u16; 4]) -> Pattern {
        Pattern::given(numbers).unwrap()
    }

    #[test]
    fn the_walk_of_12_and_7_meets_5_and_2() {
        let found = find(12, 7, 7).unwrap();
        assert_eq!(found.numbers(), [5, 2, 2, 1]);
        assert_eq!(find(12, 7, 6), None);
    }

    #[test]
    fn a_parent_undoes_a_child() {
        let pattern = given([5, 2, 5, 3]);
        assert_eq!(pattern.child().unwrap().parent(), Some(pattern));
        assert_eq!(pattern.genesis().numbers(), [1, 1, 18, 13]);
        assert_eq!(given([5, 2, 1, 1]).child(), None);
        assert_eq!(given([1, 1, 1, 0]).parent(), None);
    }

    #[test]
    fn questions_7_and_8() {
        assert_eq!(Pattern::given([2, 1, 32_768, 0]), Err(7));
        assert_eq!(Pattern::given([1, 65_535, 1, 1]), Err(7));
        assert!(Pattern::given([1, 65_535, 0, 1]).is_ok());
        assert_eq!(given([1, 60_000, 4, 0]).coprime(), Err(8));
        assert_eq!(
            given([5, 2, 4, 2]).coprime().unwrap().numbers(),
            [5, 2, 4, 3]
        );
    }
}
