//! Given step patterns, and patterns that are searched for.

use judge::asking::Answer;
use judge::patterns;
use reading::Outcome;
use reading::ask;
use reading::fitted;
use reading::layers;
use reading::patterns::Pattern;
use tune::pergen::Mos;
use vetchnoon::Refused;
use vetchnoon::owned;

use crate::classes;
use crate::classes::Class;
use crate::question::Call;
use crate::question::Question;
use crate::raw;
use crate::raw::Numbers;
use crate::tally::Original;
use crate::tally::Tally;

/// Four numbers, with what the reading and the original make of them.
pub struct GivenPattern {
    numbers: [u16; 4],
    reading: Outcome<Pattern>,
    original: Original<Mos>,
}

/// A call of the library on a pattern, and what the Rust package makes of it, as numbers.
struct Asked {
    call: Call,
    raw: fn(Numbers, &mut [u16]) -> Result<usize, Refused>,
    packaged: fn(vetchnoon::Pattern) -> Result<Vec<u16>, Refused>,
}

impl GivenPattern {
    pub fn new(numbers: [u16; 4]) -> Self {
        Self {
            numbers,
            reading: Pattern::given(numbers),
            original: Original::of_option(patterns::create(numbers)),
        }
    }

    /// Every call but `get_key`.
    pub fn compare(&self, tally: &mut Tally) {
        self.compare_neighbours(tally);
        self.compare_coprime(tally);
        self.compare_walks(tally);
        self.compare_layers(tally);
    }

    fn compare_neighbours(&self, tally: &mut Tally) {
        self.compare_call(
            tally,
            Asked {
                call: Call::MosChild,
                raw: raw::mos_child,
                packaged: |given| vetchnoon::mos_child(given).map(packaged_or_nothing),
            },
            |pattern| Ok(or_nothing(pattern.child())),
            |mos| patterns::child(mos).map(original_or_nothing),
            None,
        );
        self.compare_call(
            tally,
            Asked {
                call: Call::MosParent,
                raw: raw::mos_parent,
                packaged: |given| vetchnoon::mos_parent(given).map(packaged_or_nothing),
            },
            |pattern| Ok(or_nothing(pattern.parent())),
            |mos| patterns::parent(mos).map(original_or_nothing),
            None,
        );
        self.compare_call(
            tally,
            Asked {
                call: Call::MosGenesis,
                raw: raw::mos_genesis,
                packaged: |given| vetchnoon::mos_genesis(given).map(packaged),
            },
            |pattern| Ok(pattern.genesis().numbers().to_vec()),
            |mos| patterns::genesis(mos).map(|mos| patterns::numbers(mos).to_vec()),
            None,
        );
    }

    fn compare_coprime(&self, tally: &mut Tally) {
        self.compare_call(
            tally,
            Asked {
                call: Call::MosCoprime,
                raw: raw::mos_coprime,
                packaged: |given| vetchnoon::mos_coprime(given).map(packaged),
            },
            |pattern| pattern.coprime().map(|coprime| coprime.numbers().to_vec()),
            |mos| patterns::coprime(mos).map(|mos| patterns::numbers(mos).to_vec()),
            self.reading.ok().and_then(classes::of_coprime),
        );
    }

    fn compare_walks(&self, tally: &mut Tally) {
        self.compare_call(
            tally,
            Asked {
                call: Call::MosChildren,
                raw: raw::mos_children,
                packaged: |given| owned::mos_children(given).map(packaged_walk),
            },
            |pattern| Ok(pattern.children().flat_map(Pattern::numbers).collect()),
            |mos| patterns::children(mos).map(original_walk),
            None,
        );
        self.compare_call(
            tally,
            Asked {
                call: Call::MosParents,
                raw: raw::mos_parents,
                packaged: |given| owned::mos_parents(given).map(packaged_walk),
            },
            |pattern| Ok(pattern.parents().flat_map(Pattern::numbers).collect()),
            |mos| patterns::parents(mos).map(original_walk),
            None,
        );
    }

    fn compare_layers(&self, tally: &mut Tally) {
        self.compare_call(
            tally,
            Asked {
                call: Call::MosLayers,
                raw: raw::mos_layers,
                packaged: |given| owned::mos_layers(given),
            },
            |pattern| Ok(layers::numbers(pattern)),
            patterns::layers,
            self.reading.ok().and_then(classes::of_pattern_layers),
        );
    }

    fn compare_call(
        &self,
        tally: &mut Tally,
        asked: Asked,
        reading: impl FnOnce(Pattern) -> Outcome<Vec<u16>>,
        original: impl FnOnce(Mos) -> Answer<Vec<u16>>,
        class: Option<Class>,
    ) {
        let question = Question {
            call: asked.call,
            arguments: &self.numbers.map(i64::from),
        };
        let reading = self.reading.and_then(reading);
        let original = self.original.then(|mos| Original::of(original(*mos)));
        tally.compare_packaged(question, &reading, (asked.packaged)(self.given()));
        let filling = |out: &mut [u16]| (asked.raw)(self.numbers, out);
        tally.compare_filling(question, reading, original, class, filling);
    }

    /// The pattern, as the Rust package has it.
    fn given(&self) -> vetchnoon::Pattern {
        let [a, b, p, s] = self.numbers;
        vetchnoon::Pattern::new(a, b, p, s)
    }

    /// The key at a place of the board.
    pub fn compare_key(&self, tally: &mut Tally, primary: i16, secondary: i16) {
        let [a, b, p, s] = self.numbers.map(i64::from);
        let question = Question {
            call: Call::MosKey,
            arguments: &[a, b, p, s, primary.into(), secondary.into()],
        };
        let key = self
            .reading
            .map(|pattern| pattern.key(primary.into(), secondary.into()));
        let original = self.original.then(|mos| {
            let answer = patterns::key(*mos, primary, secondary);
            Original::of(answer.map(|key| vec![i64::from(key)]))
        });
        let class = key.ok().and_then(classes::of_pattern_key);
        let reading = key.map(|key| vec![fitted(key)]);
        let packaged = vetchnoon::mos_key(self.given(), primary, secondary);
        tally.compare_packaged(question, &reading, packaged.map(|key| vec![key]));
        let call = |out: &mut [i64]| raw::mos_key(self.numbers, primary, secondary, out);
        tally.compare_filling(question, reading, original, class, call);
    }
}

/// The pattern with that many steps on the walk from a genesis.
pub fn find(tally: &mut Tally, period: u16, generator: u16, steps: u16) {
    let question = Question {
        call: Call::MosFind,
        arguments: &[period, generator, steps].map(i64::from),
    };
    let reading = ask(2, period >= 1).map(|()| {
        let found = reading::patterns::find(period.into(), generator.into(), steps.into());
        or_nothing(found)
    });
    let original = Original::of(
        patterns::create_genesis(period, generator)
            .and_then(patterns::children)
            .map(|walk| {
                let found = walk
                    .into_iter()
                    .find(|mos| mos.num_steps() == u32::from(steps));
                original_or_nothing(found)
            }),
    );
    let class = (period == 0).then_some(Class::GenesisOfPeriodZero);
    let packaged = vetchnoon::mos_find(period, generator, steps);
    tally.compare_packaged(question, &reading, packaged.map(packaged_or_nothing));
    let call = |out: &mut [u16]| raw::mos_find(period, generator, steps, out);
    tally.compare_filling(question, reading, original, class, call);
}

/// The four numbers, or no element where there is no pattern.
fn or_nothing(pattern: Option<Pattern>) -> Vec<u16> {
    pattern.map_or_else(Vec::new, |pattern| pattern.numbers().to_vec())
}

fn original_or_nothing(mos: Option<Mos>) -> Vec<u16> {
    mos.map_or_else(Vec::new, |mos| patterns::numbers(mos).to_vec())
}

fn original_walk(walk: Vec<Mos>) -> Vec<u16> {
    walk.into_iter().flat_map(patterns::numbers).collect()
}

fn packaged(pattern: vetchnoon::Pattern) -> Vec<u16> {
    pattern.numbers().to_vec()
}

fn packaged_or_nothing(pattern: Option<vetchnoon::Pattern>) -> Vec<u16> {
    pattern.map_or_else(Vec::new, packaged)
}

fn packaged_walk(walk: Vec<vetchnoon::Pattern>) -> Vec<u16> {
    walk.into_iter()
        .flat_map(vetchnoon::Pattern::numbers)
        .collect()
}
