//! Layouts: making one, its scale name, the layers of its keys, strip and book.

use std::fmt::Debug;

use judge::layouts;
use judge::layouts::kind_of;
use judge::patterns;
use judge::spelling;
use reading::Outcome;
use reading::Whole;
use reading::books;
use reading::chains;
use reading::fitted;
use reading::layers;
use reading::layers::Kind;
use reading::layouts::Layout;
use reading::layouts::repeated;
use tune::layout::IsomorphicLayout;
use tune::layout::Layer;
use vetchnoon::LayerKind;
use vetchnoon::Refused;

use crate::classes;
use crate::classes::Class;
use crate::question::Call;
use crate::question::Question;
use crate::randoms::KEY_LIMITS;
use crate::raw;
use crate::subjects::pergens;
use crate::subjects::strips;
use crate::subjects::strips::Expected;
use crate::tally::Answers;
use crate::tally::Original;
use crate::tally::Tally;
use crate::tally::outcome;

/// The question whether each code has a partner among those of the other width.
const NO_OLD_CODE: u8 = 17;

/// Four numbers, with what the reading and the original make of them.
pub struct GivenLayout {
    pub given: vetchnoon::Layout,
    pub reading: Outcome<Layout>,
    pub original: Original<IsomorphicLayout>,
    /// The four numbers again, to ask questions with.
    pub arguments: [i64; 4],
}

impl GivenLayout {
    /// With the chain's own start, by the reading.
    pub fn new(code: u16, octave: u16, tritave: u16) -> Self {
        let start = own_start(code).unwrap_or(0);
        Self::beginning(code, octave, tritave, start)
    }

    pub fn beginning(code: u16, octave: u16, tritave: u16, start: u16) -> Self {
        let reading = Layout::beginning(code, octave, tritave, start);
        Self {
            given: vetchnoon::Layout {
                chain: code,
                octave,
                tritave,
                start,
            },
            original: match reading {
                // The original has no such question.
                Err(18) => Original::Silent,
                _ => original_beginning(code, octave, tritave, start),
            },
            reading,
            arguments: [code, octave, tritave, start].map(i64::from),
        }
    }

    pub fn is_accepted(&self) -> bool {
        self.reading.is_ok()
    }

    /// The reading's answer, or its refusal of the layout.
    pub fn read<T>(&self, answer: impl FnOnce(&Layout) -> T) -> Outcome<T> {
        match &self.reading {
            Ok(layout) => Ok(answer(layout)),
            Err(number) => Err(*number),
        }
    }

    /// The class of a question: an accepted layout's, or the refused layout's own.
    pub fn class(&self, of_accepted: impl FnOnce(&Layout) -> Option<Class>) -> Option<Class> {
        match &self.reading {
            Ok(layout) => of_accepted(layout),
            Err(_) => self.refused_class(),
        }
    }

    fn refused_class(&self) -> Option<Class> {
        let chain = chains::chain(self.given.chain).ok()?;
        let generator = chain.generator(0, self.given.tritave.into());
        (self.given.octave == 0).then(|| classes::of_octave_zero(generator.is_ok()))
    }

    /// A question about the layout as a whole.
    pub fn asking(&self, call: Call) -> Question<'_> {
        Question {
            call,
            arguments: &self.arguments,
        }
    }

    /// The numbers of the layout, its scale name and its count of layers.
    pub fn compare(&self, tally: &mut Tally) {
        self.compare_numbers(tally);
        self.compare_scale_name(tally);
        self.compare_layer_count(tally);
    }

    fn compare_numbers(&self, tally: &mut Tally) {
        let reading = self.read(|layout| {
            let pergen = layout.pergen;
            let mut numbers = [
                pergen.generator,
                pergen.cycles,
                pergen.reduced,
                pergen.inverse,
            ]
            .map(fitted)
            .to_vec();
            numbers.extend(layout.pattern.numbers());
            numbers
        });
        let original = self.original.then(|layout| {
            let derived = spelling::derived(layout.pergen()).map(|derived| {
                let mut numbers = vec![
                    layout.pergen().generator(),
                    derived.num_cycles,
                    derived.reduced_period,
                    derived.inverse,
                ];
                numbers.extend(patterns::numbers(layout.mos()));
                numbers
            });
            Original::of(derived)
        });
        let question = self.asking(Call::Layout);
        let packaged = vetchnoon::layout(self.given).map(|numbers| {
            let mut all = vec![numbers.generator];
            all.extend(pergens::packaged_pergen(numbers.pergen));
            all.extend(numbers.pattern.numbers());
            all
        });
        tally.compare_packaged(question, &reading, packaged);
        let call = |out: &mut [u16]| raw::layout(self.given, out);
        tally.compare_filling(question, reading, original, self.class(|_| None), call);
    }

    fn compare_scale_name(&self, tally: &mut Tally) {
        let reading = self.read(|layout| layout.scale_name().as_bytes().to_vec());
        let original = self.original.then(|layout| {
            Original::of(layouts::scale_name(layout).map(|name| name.as_bytes().to_vec()))
        });
        let question = self.asking(Call::ScaleName);
        let packaged = vetchnoon::scale_name(self.given).map(|name| name.as_bytes().to_vec());
        tally.compare_packaged(question, &reading, packaged);
        let call = |out: &mut [u8]| raw::scale_name(self.given, out);
        tally.compare_filling(question, reading, original, self.class(|_| None), call);
    }

    /// The original does not tell T; its layers, which depend on it, are compared.
    fn compare_layer_count(&self, tally: &mut Tally) {
        let answers = Answers {
            library: outcome(vetchnoon::layer_count(self.given)),
            reading: self.read(|layout| fitted(layout.layer_count())),
            original: Original::Silent,
        };
        tally.compare(self.asking(Call::LayerCount), &answers, None);
    }

    /// What holds an entry for each key of the octave, or of two: layers and strip.
    pub fn compare_octave(&self, tally: &mut Tally) {
        self.compare_layers(tally);
        self.compare_strip(tally);
    }

    fn compare_layers(&self, tally: &mut Tally) {
        let reading = self.read(Layout::layers);
        let total = self.read(Layout::layer_count).unwrap_or(0);
        let original = self
            .original_layers()
            .then(|layers| numbers_of(layers, total));
        let class = self.class(classes::of_layout_layers);
        self.compare_each(
            tally,
            Call::Layer,
            &reading,
            &original,
            class,
            vetchnoon::layer,
        );
        let question = self.asking(Call::LayoutLayers);
        let call = |out: &mut [u16]| vetchnoon::layout_layers(self.given, out);
        tally.compare_filling(question, reading, original, class, call);
    }

    /// A call for one key against the list of all, which repeats: each key that has
    /// an entry, as many below 0, some beyond both, and the limits of keys; a few keys
    /// where the layout is refused. The original has lists alone, which are read at the
    /// same remainder.
    fn compare_each<T: Copy + PartialEq + Debug>(
        &self,
        tally: &mut Tally,
        call: Call,
        reading: &Outcome<Vec<T>>,
        original: &Original<Vec<T>>,
        class: Option<Class>,
        library: impl Fn(vetchnoon::Layout, i32) -> Result<T, Refused>,
    ) {
        let keys: Vec<i32> = match reading.as_ref().map(|list| list.len() as i32) {
            Ok(entries) => (-entries - 1..=entries + 1).chain(KEY_LIMITS).collect(),
            Err(_) => vec![i32::MIN, -1, 0, 1, i32::MAX],
        };
        for key in keys {
            let answers = Answers {
                library: outcome(library(self.given, key)),
                reading: match reading {
                    Ok(list) => Ok(repeated(list, key)),
                    Err(number) => Err(*number),
                },
                original: original.then(|list| Original::Answered(repeated(list, key))),
            };
            let arguments = self.arguments_with(key);
            let question = Question {
                call,
                arguments: &arguments,
            };
            tally.compare(question, &answers, class);
        }
    }

    fn original_layers(&self) -> Original<Vec<Layer>> {
        self.original
            .then(|layout| Original::of(layouts::layers(layout)))
    }

    /// The original has no strips; all its layers, with the codes of 16 bits, make one.
    fn compare_strip(&self, tally: &mut Tally) {
        let reading = self.read(Layout::strip);
        let original = self
            .original
            .then(|layout| Original::of(layouts::strip(layout)));
        let class = self.class(classes::of_layout_layers);
        self.compare_each(
            tally,
            Call::Lamp,
            &reading,
            &original,
            class,
            vetchnoon::lamp,
        );
        if let (Ok(layout), Ok(strip)) = (&self.reading, &reading) {
            self.compare_conversions(tally, layout, strip, &original);
        }
        let question = self.asking(Call::LampStrip);
        let call = |out: &mut [u16]| vetchnoon::lamp_strip(self.given, out);
        tally.compare_filling(question, reading, original, class, call);
    }

    /// The strip that was stored before codes had 16 bits, wherever there was one, against
    /// the strip of today. Where there was none, the way back is refused. The original has
    /// its part where it has layers; where it overflows, the strip itself tells.
    fn compare_conversions(
        &self,
        tally: &mut Tally,
        layout: &Layout,
        strip: &[u16],
        original: &Original<Vec<u16>>,
    ) {
        let asked = matches!(original, Original::Answered(_));
        let former = layout.former_strip();
        if let Ok(former) = &former {
            let today = Expected {
                reading: Ok(strip.to_vec()),
                original: if asked {
                    original.clone()
                } else {
                    Original::Silent
                },
            };
            strips::widen_to(tally, former, today);
        }
        let back = Expected {
            reading: former.map_err(|_| NO_OLD_CODE),
            original: if asked {
                self.original_former_strip()
            } else {
                Original::Silent
            },
        };
        strips::narrow_to(tally, strip, back);
    }

    /// What the original's layers make with one-byte codes, or nothing.
    fn original_former_strip(&self) -> Original<Vec<u8>> {
        self.original
            .then(|layout| Original::of_option(layouts::former_strip(layout).map(Result::ok)))
    }

    /// The book and its length. The names in it are compared with the original's.
    pub fn compare_book(&self, tally: &mut Tally) {
        let reading = self.read(books::book);
        let answers = Answers {
            library: outcome(vetchnoon::book_len(self.given)),
            reading: reading.as_ref().map(Vec::len).map_err(|number| *number),
            original: Original::Silent,
        };
        tally.compare(self.asking(Call::BookLen), &answers, None);

        let call = |out: &mut [u8]| vetchnoon::book(self.given, out);
        let original = self
            .original
            .then(|layout| Original::of(layouts::book(layout)));
        let class = self.class(classes::of_layout_book);
        let question = self.asking(Call::Book);
        tally.compare_filling(question, reading, original, class, call);
    }
}

/// The start that document 01 gives to a chain.
pub fn own_start(code: u16) -> Outcome<u16> {
    chains::chain(code).map(|chain| fitted(chain.start))
}

/// The original's layout as it is where the start is the chain's own, and with another
/// origin where it is not.
fn original_beginning(
    code: u16,
    octave: u16,
    tritave: u16,
    start: u16,
) -> Original<IsomorphicLayout> {
    let Some(chain) = layouts::chain(code) else {
        return Original::Silent;
    };
    let original = Original::of_option(layouts::create(chain, octave, tritave));
    if own_start(code) == Ok(start) {
        return original;
    }
    original.then(|layout| Original::Answered(layouts::beginning(layout, start)))
}

/// What a layer number means of T. A number above 0 from T on, of which document 01
/// says nothing, counts as flat 0, as the header says.
pub fn compare_kind(tally: &mut Tally, total: u16, number: u16) {
    let kind = match layers::kind(number.into(), total.into()) {
        Kind::Natural => LayerKind::Natural,
        Kind::Sharp(level) => LayerKind::Sharp(fitted(level)),
        Kind::Enharmonic(level) => LayerKind::Enharmonic(fitted(level)),
        Kind::Flat(level) => LayerKind::Flat(fitted(level.max(0))),
    };
    let question = Question {
        call: Call::LayerKind,
        arguments: &[total.into(), number.into()],
    };
    tally.compare_packaged(
        question,
        &Ok(kind),
        Ok(vetchnoon::layer_kind(total, number)),
    );
    let call = |out: &mut [u16]| raw::layer_kind(total, number, out);
    let reading = Ok(in_c(kind).to_vec());
    tally.compare_filling(question, reading, Original::Silent, None, call);
}

/// A kind and a level as the header has them.
fn in_c(kind: LayerKind) -> [u16; 2] {
    match kind {
        LayerKind::Natural => [0, 0],
        LayerKind::Sharp(level) => [1, level],
        LayerKind::Enharmonic(level) => [2, level],
        LayerKind::Flat(level) => [3, level],
    }
}

/// The original's layers by document 01's numbers of T.
fn numbers_of(layers: &[Layer], total: Whole) -> Original<Vec<u16>> {
    let numbers: Option<Vec<u16>> = layers
        .iter()
        .map(|layer| number_of(*layer, total))
        .collect();
    match numbers {
        Some(numbers) => Original::Answered(numbers),
        None => Original::Failed(format!(
            "layers that no numbers of {total} mean: {layers:?}"
        )),
    }
}

/// The one number of T that means this layer, if there is one.
fn number_of(layer: Layer, total: Whole) -> Option<u16> {
    let number = match layer {
        Layer::Natural => 0,
        Layer::Sharp(level) | Layer::Enharmonic(level) => Whole::from(level) + 1,
        Layer::Flat(level) => total - 1 - Whole::from(level),
    };
    let in_range = (0..total).contains(&number);
    (in_range && layers::kind(number, total) == kind_of(layer)).then(|| fitted(number))
}
