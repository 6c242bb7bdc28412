//! Free pergens with free formats.

use judge::keys::asked_at;
use judge::spelling;
use reading::Outcome;
use reading::fitted;
use reading::pergens::Format;
use reading::pergens::Pergen;
use reading::pergens::Spellings;
use tune::pergen::AccidentalsFormat;
use tune::pergen::PerGen;

use crate::classes;
use crate::classes::Class;
use crate::question::Call;
use crate::question::Question;
use crate::raw;
use crate::tally::Original;
use crate::tally::Tally;

/// A period and a generator, with what the reading and the original make of them.
pub struct FreePergen {
    period: u16,
    generator: u16,
    reading: Outcome<Pergen>,
    original: Original<PerGen>,
}

impl FreePergen {
    pub fn new(period: u16, generator: u16) -> Self {
        Self {
            period,
            generator,
            reading: Pergen::new(period.into(), generator.into()),
            original: Original::of(spelling::create(period, generator)),
        }
    }

    pub fn compare(&self, tally: &mut Tally) {
        let question = Question {
            call: Call::Pergen,
            arguments: &[self.period.into(), self.generator.into()],
        };
        let reading = self.reading.map(|pergen| {
            let Pergen {
                cycles,
                reduced,
                inverse,
                ..
            } = pergen;
            [cycles, reduced, inverse].map(fitted).to_vec()
        });
        let original =
            self.original.then(|pergen| {
                Original::of(spelling::derived(pergen).map(|derived| {
                    vec![derived.num_cycles, derived.reduced_period, derived.inverse]
                }))
            });
        let packaged = vetchnoon::pergen(self.period, self.generator);
        let packaged = packaged.map(|pergen| packaged_pergen(pergen).to_vec());
        tally.compare_packaged(question, &reading, packaged);
        let call = |out: &mut [u16]| raw::pergen(self.period, self.generator, out);
        tally.compare_filling(question, reading, original, self.period_class(), call);
    }

    pub fn compare_generation(&self, tally: &mut Tally, key: i32) {
        let question = Question {
            call: Call::Generation,
            arguments: &[self.period.into(), self.generator.into(), key.into()],
        };
        let reading = self.reading.map(|pergen| {
            let degree = fitted(pergen.degree(key.into()));
            generation(degree, pergen.cycle(key.into()).map(fitted))
        });
        let original = self.original.then(|pergen| {
            let answer = spelling::generation(pergen, self.asked_at(key));
            Original::of(answer.map(|found| generation(found.degree, found.cycle)))
        });
        let packaged = vetchnoon::generation(self.period, self.generator, key);
        let packaged = packaged.map(|found| generation(found.degree, found.cycle));
        tally.compare_packaged(question, &reading, packaged);
        let call = |out: &mut [u16]| raw::generation(self.period, self.generator, key, out);
        tally.compare_filling(question, reading, original, self.key_class(key), call);
    }

    pub fn compare_accidentals(&self, tally: &mut Tally, symbols: u16, origin: u16, key: i32) {
        let numbers = [self.period, self.generator, symbols, origin].map(i64::from);
        let [period, generator, symbol_count, first] = numbers;
        let question = Question {
            call: Call::Accidentals,
            arguments: &[period, generator, symbol_count, first, key.into()],
        };
        let format = Format {
            symbols: symbols.into(),
            origin: origin.into(),
        };
        let reading = self
            .reading
            .and_then(|pergen| pergen.accidentals(format, key.into()))
            .map(spellings);
        let original = self.original.then(|pergen| {
            let format = AccidentalsFormat {
                num_symbols: symbols,
                genchain_origin: origin,
            };
            let answer = spelling::accidentals(pergen, &format, self.asked_at(key));
            Original::of(answer.map(original_spellings))
        });
        let class = match &self.reading {
            Ok(pergen) => classes::of_accidentals(pergen, format, self.asked_at(key)),
            Err(_) => self.period_class(),
        };
        let original = match (class, &self.reading) {
            (Some(Class::OriginNotBelowSymbols), Ok(pergen)) => {
                let named = classes::spellings_from_any_origin(pergen, format, key.into());
                original.if_named(spellings(named))
            }
            _ => original,
        };
        let packaged = vetchnoon::accidentals(self.period, self.generator, symbols, origin, key);
        tally.compare_packaged(question, &reading, packaged.map(packaged_spellings));
        let call = |out: &mut [u16]| {
            raw::accidentals(self.period, self.generator, symbols, origin, key, out)
        };
        tally.compare_filling(question, reading, original, class, call);
    }

    fn period_class(&self) -> Option<Class> {
        (self.period == 0).then_some(Class::PeriodZero)
    }

    /// The key that the original is asked for.
    fn asked_at(&self, key: i32) -> u16 {
        asked_at(key, self.period)
    }

    fn key_class(&self, key: i32) -> Option<Class> {
        match &self.reading {
            Ok(pergen) => classes::of_generation(pergen, self.asked_at(key)),
            Err(_) => self.period_class(),
        }
    }
}

/// Degree, 1 if a cycle is present else 0, cycle or 0.
fn generation(degree: u16, cycle: Option<u16>) -> Vec<u16> {
    vec![degree, cycle.is_some().into(), cycle.unwrap_or(0)]
}

/// Sharp index, sharp count, flat index, flat count.
pub fn spellings(spelt: Spellings) -> Vec<u16> {
    [
        spelt.sharp_index,
        spelt.sharp_count,
        spelt.flat_index,
        spelt.flat_count,
    ]
    .map(fitted)
    .to_vec()
}

/// The same of the Rust package.
pub fn packaged_spellings(spelt: vetchnoon::Accidentals) -> Vec<u16> {
    vec![
        spelt.sharp_index,
        spelt.sharp_count,
        spelt.flat_index,
        spelt.flat_count,
    ]
}

/// Cycles, reduced period, inverse.
pub fn packaged_pergen(pergen: vetchnoon::Pergen) -> [u16; 3] {
    [pergen.cycles, pergen.reduced_period, pergen.inverse]
}

/// The same of the original. Its cycle stands in the key's generation and name.
pub fn original_spellings(spelt: spelling::Accidentals) -> Vec<u16> {
    vec![
        spelt.sharp_index,
        spelt.sharp_count,
        spelt.flat_index,
        spelt.flat_count,
    ]
}
