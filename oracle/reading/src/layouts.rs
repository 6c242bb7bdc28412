//! Layouts: questions 1 to 4 and 18, the layers of keys, and the lamp strip.

use super::Outcome;
use super::Whole;
use super::ask;
use super::chains;
use super::chains::Chain;
use super::codes;
use super::codes::Lamp;
use super::fitted;
use super::former;
use super::layers;
use super::layers::Kind;
use super::patterns;
use super::patterns::Pattern;
use super::pergens::Format;
use super::pergens::Pergen;
use super::pergens::Spellings;

/// An accepted layout.
#[derive(Debug)]
pub struct Layout {
    pub chain: &'static Chain,
    pub pergen: Pergen,
    pub pattern: Pattern,
    /// "The place, from 0, of the letter of key 0", which "may be any place below the
    /// number of letters" (W-209).
    pub start: Whole,
}

impl Layout {
    /// W-209: "document 01's start column becomes the default."
    pub fn new(code: u16, octave: u16, tritave: u16) -> Outcome<Self> {
        let chain = chains::chain(code)?;
        Self::beginning(code, octave, tritave, fitted(chain.start))
    }

    /// Questions 1 to 4, then 18 "when the start is not below the number of letters".
    pub fn beginning(code: u16, octave: u16, tritave: u16, start: u16) -> Outcome<Self> {
        let (octave, tritave) = (Whole::from(octave), Whole::from(tritave));
        let chain = chains::chain(code)?;
        ask(2, octave >= 1)?;
        let generator = chain.generator(octave, tritave)?;
        let pattern = patterns::find(octave, generator, chain.count()).ok_or(4)?;
        let start = Whole::from(start);
        ask(18, start < chain.count())?;
        Ok(Self {
            chain,
            pergen: Pergen::new(octave, generator)?,
            pattern,
            start,
        })
    }

    pub fn scale_name(&self) -> &'static str {
        self.chain.scale_name(self.pattern.sharpness())
    }

    pub fn format(&self) -> Format {
        Format {
            symbols: self.chain.count(),
            origin: self.start,
        }
    }

    pub fn spellings(&self, key: i32) -> Spellings {
        self.pergen.spellings(self.format(), key.into())
    }

    /// T: "layers × n; 2 × n at sharpness 0".
    pub fn layer_count(&self) -> Whole {
        let layers = match self.pattern.sharpness() {
            0 => 2,
            _ => layers::sizes(self.pattern).len() as Whole,
        };
        layers * self.pergen.cycles
    }

    /// The layer numbers of "P entries, or 2 × P when sharpness is 0".
    pub fn layers(&self) -> Vec<u16> {
        let Pergen { period, cycles, .. } = self.pergen;
        if self.pattern.sharpness() == 0 {
            return (0..2 * period)
                .map(|i| fitted(self.alternating(i) * cycles + i % cycles))
                .collect();
        }
        let numbers = layers::numbers(self.pattern);
        (0..period)
            .map(|i| {
                let place = (self.start + self.pergen.degree(i)) % self.pergen.reduced;
                fitted(Whole::from(numbers[place as usize]) * cycles + i % cycles)
            })
            .collect()
    }

    /// "At sharpness 0, with h = G × start div n and s the secondary count, a is 1
    /// where (h × s) div N and ((i div n + h) × s) div N differ in parity, else 0."
    fn alternating(&self, i: Whole) -> Whole {
        let Pergen {
            generator, cycles, ..
        } = self.pergen;
        let h = generator * self.start / cycles;
        let s = self.pattern.secondary_count;
        let n = self.chain.count();
        ((h * s) / n % 2 - ((i / cycles + h) * s) / n % 2).abs()
    }

    /// The lamp strip, of 16-bit codes (W-207).
    pub fn strip(&self) -> Vec<u16> {
        self.lamps().into_iter().map(codes::code).collect()
    }

    /// The strip of one-byte codes, as it is stored where it was made before W-207.
    pub fn former_strip(&self) -> Outcome<Vec<u8>> {
        former::strip(&self.lamps())
    }

    /// What the strip shows: P lamps, and "2 × octave codes when sharpness is 0, from all
    /// layer entries" (W-204).
    fn lamps(&self) -> Vec<Lamp> {
        let total = self.layer_count();
        let kinds: Vec<Kind> = self
            .layers()
            .iter()
            .map(|number| layers::kind((*number).into(), total))
            .collect();
        lamps_of(self.pergen.period, &kinds)
    }
}

/// One key's layer or lamp: the board repeats the strip, of one octave or two, and the
/// layer entries repeat likewise, with "the remainder that is never negative" (W-201)
/// "by the strip's length" (W-208).
pub fn repeated<T: Copy>(entries: &[T], key: i32) -> T {
    let place = Whole::from(key).rem_euclid(entries.len() as Whole);
    entries[place as usize]
}

/// The lamps of a strip's keys, given all layer entries.
pub fn lamps_of(octave: Whole, kinds: &[Kind]) -> Vec<Lamp> {
    let keys = (0..).zip(kinds);
    keys.map(|(key, kind)| lamp_of(octave, key, *kind))
        .collect()
}

/// "Key 0 is 0, home." A key whole octaves from it "is home by its note, and it has a layer
/// colour. The home rule now goes first" (W-206).
fn lamp_of(octave: Whole, key: Whole, kind: Kind) -> Lamp {
    if key % octave == 0 {
        return Lamp::Home;
    }
    kind.into()
}

#[cfg(test)]
mod tests {
    use super::*;

    fn pattern_and_scale(code: u16, octave: u16, tritave: u16) -> ([u16; 4], &'static str) {
        let layout = Layout::new(code, octave, tritave).unwrap();
        (layout.pattern.numbers(), layout.scale_name())
    }

    fn refusal(code: u16, octave: u16, tritave: u16) -> u8 {
        Layout::new(code, octave, tritave).unwrap_err()
    }

    #[test]
    fn patterns_and_scale_names() {
        assert_eq!(pattern_and_scale(1, 12, 19), ([5, 2, 2, 1], "diatonic"));
        assert_eq!(pattern_and_scale(1, 31, 49).0, [5, 2, 5, 3]);
        assert_eq!(pattern_and_scale(5, 19, 30).0, [4, 3, 4, 1]);
        assert_eq!(pattern_and_scale(3, 15, 24).1, "pine");
        assert_eq!(pattern_and_scale(0, 16, 25).1, "armotonic");
        assert_eq!(pattern_and_scale(1, 7, 11).1, "equalized");
    }

    #[test]
    fn refusals() {
        assert_eq!(refusal(0, 12, 19), 4);
        assert_eq!(refusal(3, 12, 19), 3);
        assert_eq!(refusal(3, 0, 1), 2);
        assert_eq!(refusal(6, 0, 1), 1);
        assert_eq!(refusal(3, 32_768, 0), 3);
        assert!(Layout::new(3, 32_767, 65_534 - 3 * 4_096).is_ok());
    }

    #[test]
    fn the_start_is_asked_about_after_the_pattern() {
        let refusal = |code, octave, tritave, start| {
            let layout = Layout::beginning(code, octave, tritave, start);
            layout.err()
        };
        assert_eq!(refusal(1, 12, 19, 6), None);
        assert_eq!(refusal(1, 12, 19, 7), Some(18));
        assert_eq!(refusal(2, 12, 19, 5), Some(18));
        assert_eq!(refusal(0, 9, 14, 65_535), Some(18));
        assert_eq!(refusal(0, 12, 19, 9), Some(4));
        assert_eq!(refusal(3, 12, 19, 9), Some(3));
        assert_eq!(refusal(6, 12, 19, 9), Some(1));
    }

    #[test]
    fn a_strip_from_c() {
        let strip = Layout::beginning(1, 12, 19, 1).unwrap().strip();
        let e = 65_535;
        assert_eq!(strip, [0, e, 1, e, 1, 1, e, 1, e, 1, e, 1]);
        let refused = Layout::beginning(1, 2400, 3800, 7).map(|layout| layout.strip());
        assert_eq!(refused.err(), Some(18));
    }

    #[test]
    fn strips() {
        let strip = |octave, tritave| Layout::new(1, octave, tritave).unwrap().strip();
        let e = 65_535;
        assert_eq!(strip(7, 11), [0, 1, e, e, e, e, 1, 0, 1, e, e, e, e, 1]);
        assert_eq!(strip(12, 19), [0, e, 1, 1, e, 1, e, 1, e, 1, 1, e]);
        // Sharp and flat layers side by side.
        assert_eq!(strip(31, 49)[..7], [0, 5, 2, 3, 4, 1, 3]);
    }

    #[test]
    fn the_strip_of_2400_steps() {
        let strip = Layout::new(1, 2400, 3800).unwrap().strip();
        assert_eq!(strip.len(), 2400);
        // 200 cycles of two layers: natural and sharp 0 to 198, enharmonic 199 and flat 0 to 198.
        assert_eq!(strip[..3], [0, 2, 4]);
        assert_eq!(strip[199], 2 + 2 * 198);
        assert_eq!(strip[200], 65_535);
        assert_eq!(strip[201..203], [3 + 2 * 198, 3 + 2 * 197]);
        assert_eq!(strip[399..401], [3, 1]);
    }

    #[test]
    fn the_largest_codes() {
        let largest = |code, octave, tritave| {
            let strip = Layout::new(code, octave, tritave).unwrap().strip();
            strip.into_iter().filter(|code| *code < 65_535).max()
        };
        assert_eq!(largest(2, 65_534, 65_535), Some(65_529));
        assert_eq!(largest(5, 65_535, 6), Some(65_529));
    }

    #[test]
    fn former_strips() {
        let strip = |octave, tritave| Layout::new(1, octave, tritave).unwrap().former_strip();
        let seven = vec![0, 1, 255, 255, 255, 255, 1, 0, 1, 255, 255, 255, 255, 1];
        assert_eq!(strip(7, 11), Ok(seven));
        assert_eq!(
            strip(12, 19),
            Ok(vec![0, 255, 1, 1, 255, 1, 255, 1, 255, 1, 1, 255])
        );
        assert_eq!(strip(2400, 3800), Err(9));
        // The last strip whose sharp layers had codes, and the first without.
        let cycles = |n: u16| strip(7 * n, 11 * n);
        assert_eq!(cycles(101).unwrap().len(), 2 * 707);
        assert_eq!(cycles(102), Err(9));
    }

    #[test]
    fn former_strips_are_widened_to_the_strip() {
        for n in 1..=110 {
            let layout = Layout::new(1, 12 * n, 19 * n).unwrap();
            let strip = layout.strip();
            match layout.former_strip() {
                Ok(former) => {
                    assert_eq!(codes::widened(&former), Ok(strip.clone()));
                    assert_eq!(codes::narrowed(&strip), Ok(former));
                }
                Err(number) => {
                    assert_eq!(number, 9);
                    assert_eq!(codes::narrowed(&strip), Err(17));
                }
            }
        }
    }

    #[test]
    fn an_equalized_strip_has_two_octaves() {
        let strip = Layout::new(3, 8, 13).unwrap().strip();
        assert_eq!(strip.len(), 16);
        // Home at every octave, on both sides; the keys beside it alternate.
        let lamp = |key| repeated(&strip, key);
        assert_eq!([0, 8, 16, -8, -16].map(lamp), [0; 5]);
        let e = 65_535;
        assert_eq!([1, 9, 17, -7, -15].map(lamp), [1, e, 1, e, 1]);
    }

    #[test]
    fn entries_repeat_upwards_and_downwards() {
        let layers = Layout::new(3, 8, 13).unwrap().layers();
        assert_eq!(layers.len(), 16);
        let layer = |key| repeated(&layers, key);
        assert_eq!([0, 8, -8, -16].map(layer), [0, 1, 1, 0]);
        // Both ends, 2^31 being a multiple of 16.
        assert_eq!(layer(i32::MIN), layers[0]);
        assert_eq!(layer(i32::MAX), layers[15]);
    }
}
