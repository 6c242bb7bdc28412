//! The rows of the table: what is done, on which input, by both sides.
//!
//! Both sides start from the same numbers and end with the same answers in memory:
//! ours in a slice that is lent once, the original's in what it allocates. Where a
//! row says so, the original has its layout made beforehand; ours makes it in
//! every call, since a call takes the four numbers.

mod edo;
mod fractional;
mod mappings;
mod typed;

use std::borrow::Borrow;
use std::cell::RefCell;
use std::fmt::Write;
use std::hint;
use std::ops::Range;
use std::rc::Rc;

use judge::layouts;
use judge::layouts::CHAINS;
use judge::patterns;
use reading::books;
use reading::chains;
use reading::codes;
use reading::codes::Lamp;
use reading::reach;
use tune::layout;
use tune::layout::IsomorphicLayout;
use tune::layout::Layer;
use tune::pergen::Mos;
use tune::temperament::Val;
use vetchnoon::Move;
use vetchnoon::Moves;
use vetchnoon::Pattern;
use vetchnoon::Record;
use vetchnoon::Retuning;

use crate::timing::Work;

/// One row: the same work for both sides.
pub struct Row {
    pub what: &'static str,
    pub input: String,
    /// What is counted, as "key", and how many of it one run has.
    pub unit: &'static str,
    pub units: usize,
    pub ours: Work<'static>,
    pub theirs: Work<'static>,
}

/// Chain code, octave and tritave; the start is the chain's own.
#[derive(Clone, Copy)]
pub struct Numbers(u16, u16, u16);

const SMALL: Numbers = Numbers(1, 12, 19);
const MIDDLE: Numbers = Numbers(1, 311, 493);
const LARGE: Numbers = Numbers(1, 2400, 3800);
/// The layout with the longest names.
const LARGEST: Numbers = Numbers(2, 65534, 65535);
/// Larger layouts had too many layers for a strip of one-byte codes.
const LARGEST_OLD_STRIP: Numbers = Numbers(0, 1817, 3432);

const SIZES: [Numbers; 4] = [SMALL, MIDDLE, LARGE, LARGEST];

/// Work that the original does too.
pub fn of_the_original() -> Vec<Row> {
    let with_table = [SMALL, MIDDLE, LARGEST_OLD_STRIP, LARGE];
    let with_strip = [SMALL, MIDDLE, LARGEST_OLD_STRIP, LARGE, LARGEST];
    let mut rows = making();
    rows.extend(edo::rows());
    rows.extend(SIZES.map(|n| names("one name", n, first_octave(), made_anew(n))));
    rows.extend(SIZES.map(|n| {
        let what = "one name; the original's layout is made beforehand";
        names(what, n, first_octave(), made_beforehand(n))
    }));
    rows.extend(SIZES.map(|n| {
        let what = "one name, of a key below 0";
        names(what, n, octave_below_0(n), made_anew(n))
    }));
    rows.extend(SIZES.map(|n| {
        let what = "accidentals of a key";
        accidentals(what, n, first_octave(), made_anew(n))
    }));
    rows.extend(SIZES.map(|n| {
        let what = "accidentals of a key; the original's layout is made beforehand";
        accidentals(what, n, first_octave(), made_beforehand(n))
    }));
    rows.extend(SIZES.map(|n| {
        let what = "accidentals of a key below 0";
        accidentals(what, n, octave_below_0(n), made_anew(n))
    }));
    rows.extend([SMALL, MIDDLE, LARGE].map(nearest));
    rows.extend([(Numbers(2, 31, 49), 50), (MIDDLE, 492)].map(|(n, to)| move_table(n, to)));
    rows.extend(SIZES.map(chain_order));
    rows.extend(SIZES.map(key_order));
    rows.extend(SIZES.map(book));
    rows.extend(SIZES.map(layout_layers));
    rows.extend(SIZES.map(pattern_layers));
    rows.extend(with_strip.map(strip));
    rows.extend(SIZES.map(sheet));
    rows.extend(with_table.map(key_table));
    rows.extend(mappings::rows());
    rows.extend(typed::rows());
    rows.extend(walks());
    rows.extend(walks_of_moves());
    rows.extend(fractional::rows());
    rows
}

/// Sheets of an octave, beside our own calls for each of their keys.
pub fn of_single_calls() -> Vec<Row> {
    SIZES.map(sheet_and_single_calls).into()
}

/// Books, lists of keys and converted strips, beside a plain fill of the memory that they were
/// written to.
pub fn of_a_fill() -> Vec<Row> {
    let with_old_strip = [SMALL, MIDDLE, LARGEST_OLD_STRIP];
    let mut rows = Vec::from(SIZES.map(book_and_fill));
    rows.extend(SIZES.map(keys_in_reach));
    rows.extend(with_old_strip.map(widening));
    rows.extend(with_old_strip.map(narrowing));
    rows
}

impl Row {
    fn new(
        what: &'static str,
        input: impl Into<String>,
        (units, unit): (usize, &'static str),
        ours: impl FnMut() -> usize + 'static,
        theirs: impl FnMut() -> usize + 'static,
    ) -> Self {
        Self {
            what,
            input: input.into(),
            unit,
            units,
            ours: Box::new(ours),
            theirs: Box::new(theirs),
        }
    }
}

impl Numbers {
    fn words(self) -> String {
        format!("{} {} {}", self.0, self.1, self.2)
    }

    /// What ours takes.
    fn layout(self) -> vetchnoon::Layout {
        vetchnoon::Layout::new(self.0, self.1, self.2).expect("a chain")
    }

    /// What the original makes a layout from, prepared beforehand.
    fn val(self) -> Val {
        layouts::val(self.1, self.2)
    }

    /// Work on each key of the octave.
    fn row_of_keys(
        self,
        what: &'static str,
        ours: impl FnMut() -> usize + 'static,
        theirs: impl FnMut() -> usize + 'static,
    ) -> Row {
        Row::new(what, self.words(), (self.1.into(), "key"), ours, theirs)
    }
}

fn create(chain: u16, val: &Val) -> Option<IsomorphicLayout> {
    layout::create_layout_for_oracle(CHAINS[usize::from(chain)], val)
}

/// The original's layout, made anew each time that it is asked for.
fn made_anew(n: Numbers) -> impl Fn() -> IsomorphicLayout {
    let val = n.val();
    move || create(n.0, &val).expect("the layout is accepted")
}

/// The original's layout, made beforehand and kept for as long as the program runs.
fn made_beforehand(n: Numbers) -> impl Fn() -> &'static IsomorphicLayout {
    let layout: &IsomorphicLayout = Box::leak(Box::new(made_anew(n)()));
    move || layout
}

fn making() -> Vec<Row> {
    let sweep: Vec<(Numbers, Val)> = (0..6)
        .flat_map(|chain| (5..=72).map(move |octave| (chain, octave)))
        .flat_map(|(chain, octave)| {
            (octave..=2 * octave).map(move |tritave| Numbers(chain, octave, tritave))
        })
        .map(|numbers| (numbers, numbers.val()))
        .collect();
    let accepted = sweep
        .iter()
        .filter(|(numbers, val)| create(numbers.0, val).is_some())
        .cloned()
        .collect();
    vec![
        make("make layouts, refused ones too", sweep),
        make("make layouts, accepted ones", accepted),
    ]
}

fn make(what: &'static str, sweep: Vec<(Numbers, Val)>) -> Row {
    let ours: Vec<vetchnoon::Layout> = sweep.iter().map(|(n, _)| n.layout()).collect();
    Row::new(
        what,
        "octaves 5 to 72",
        (sweep.len(), "layout"),
        move || {
            ours.iter()
                .filter(|given| vetchnoon::layout(**given).is_ok())
                .count()
        },
        move || {
            sweep
                .iter()
                .filter(|(n, val)| create(n.0, val).is_some())
                .count()
        },
    )
}

/// An octave of keys: its first key, and for each the key that the original is asked for.
struct Octave<F> {
    first: i32,
    theirs: F,
}

fn first_octave() -> Octave<impl Fn(i32) -> u16> {
    Octave {
        first: 0,
        theirs: |key| key as u16,
    }
}

/// The original's keys begin at 0, so there the caller brings each one round.
fn octave_below_0(n: Numbers) -> Octave<impl Fn(i32) -> u16> {
    let steps = i32::from(n.1);
    Octave {
        first: -steps,
        theirs: move |key: i32| key.rem_euclid(steps) as u16,
    }
}

impl<F> Octave<F> {
    fn keys(&self, n: Numbers) -> Range<i32> {
        self.first..self.first + i32::from(n.1)
    }

    /// Keys over the whole octave, at most 64 of them.
    fn some_keys(&self, n: Numbers) -> Vec<i32> {
        let step = usize::from(n.1.div_ceil(64));
        self.keys(n).step_by(step).collect()
    }
}

fn names<L: Borrow<IsomorphicLayout>>(
    what: &'static str,
    n: Numbers,
    octave: Octave<impl Fn(i32) -> u16 + 'static>,
    layout: impl Fn() -> L + 'static,
) -> Row {
    let given = n.layout();
    let keys = octave.some_keys(n);
    let same_keys = keys.clone();
    let mut name = vec![0; 20_000];
    Row::new(
        what,
        n.words(),
        (keys.len(), "name"),
        move || {
            keys.iter()
                .map(|key| vetchnoon::note_name(given, *key, &mut name).unwrap())
                .sum()
        },
        move || {
            same_keys
                .iter()
                .map(|key| layout().borrow().get_note_name((octave.theirs)(*key)).len())
                .sum()
        },
    )
}

fn accidentals<L: Borrow<IsomorphicLayout>>(
    what: &'static str,
    n: Numbers,
    octave: Octave<impl Fn(i32) -> u16 + 'static>,
    layout: impl Fn() -> L + 'static,
) -> Row {
    let given = n.layout();
    let keys = octave.keys(n);
    let same_keys = keys.clone();
    n.row_of_keys(
        what,
        move || {
            keys.clone()
                .map(|key| {
                    let spelled = vetchnoon::layout_accidentals(given, key).unwrap();
                    usize::from(spelled.sharp_count) + usize::from(spelled.flat_count)
                })
                .sum()
        },
        move || {
            same_keys
                .clone()
                .map(|key| {
                    let spelled = layout().borrow().get_accidentals((octave.theirs)(key));
                    usize::from(spelled.sharp_count) + usize::from(spelled.flat_count)
                })
                .sum()
        },
    )
}

/// The nearest key of each letter from the key half an octave up. The original has no such
/// call: its caller searches the names of the octave, which are made once for all letters.
fn nearest(n: Numbers) -> Row {
    let given = n.layout();
    let layout = made_anew(n);
    let half = n.1 / 2;
    let letters: Vec<&str> = chains::chain(n.0).expect("a chain").letters.to_vec();
    let count = letters.len();
    Row::new(
        "nearest key of a letter; the original's names are searched",
        n.words(),
        (count, "letter"),
        move || {
            (0..count as u16)
                .map(|letter| {
                    let key = vetchnoon::nearest_natural(given, half.into(), letter);
                    usize::from(key.unwrap())
                })
                .sum()
        },
        move || {
            let layout = layout();
            let names: Vec<String> = (0..n.1).map(|key| layout.get_note_name(key)).collect();
            let nearest = |letter: &&str| {
                let keys = (0..n.1).zip(&names);
                let named = keys.filter(|(_, name)| reach::is_bare(name, letter));
                let distance = |key: u16| {
                    let away = key.abs_diff(half);
                    away.min(n.1 - away)
                };
                let key = named.map(|(key, _)| key).min_by_key(|key| distance(*key));
                usize::from(key.unwrap())
            };
            letters.iter().map(nearest).sum()
        },
    )
}

/// The table of moves to another tritave. The original has no such call: its caller multiplies
/// each place by both layouts' generators.
fn move_table(n: Numbers, to: u16) -> Row {
    let given = Retuning::new(n.layout(), to);
    let (before, after) = (made_anew(n), made_anew(Numbers(n.0, n.1, to)));
    let chain = chains::chain(n.0).expect("a chain");
    let (count, start) = (chain.count() as i32, chain.start as i32);
    let octave = i32::from(n.1);
    let mut table = [0; 9 * 17];
    Row::new(
        "a table of moves; by the original's generators",
        format!("{} to {to}", n.words()),
        (17 * count as usize, "move"),
        move || {
            let written = vetchnoon::move_table(given, &mut table).unwrap();
            table[..written].iter().copied().map(usize::from).sum()
        },
        move || {
            let generators = [&before, &after].map(|layout| generator(&layout()));
            let moved = |place: i32| {
                let [one, other] = generators.map(|step| (step * place).rem_euclid(octave));
                let away = one.abs_diff(other);
                away.min(octave.unsigned_abs() - away) as usize
            };
            let letters = (0..count).flat_map(|letter| (-8..=8).map(move |signs| (letter, signs)));
            letters
                .map(|(letter, signs)| moved(letter + count * signs - start))
                .sum()
        },
    )
}

fn generator(layout: &IsomorphicLayout) -> i32 {
    layout.pergen().generator().into()
}

/// A list of the octave's entries in the order of the chain. The original has no such call:
/// its caller asks for the cycle and the degree of each key.
fn chain_order(n: Numbers) -> Row {
    let given = n.layout();
    reordered(
        n,
        "a list in the order of the chain; by the original's cycles and degrees",
        move |list, out| vetchnoon::to_chain_order(given, list, out).unwrap(),
        |list, out, key, place| out[place] = list[key],
    )
}

fn key_order(n: Numbers) -> Row {
    let given = n.layout();
    reordered(
        n,
        "a list in the order of keys again; by the original's cycles and degrees",
        move |list, out| vetchnoon::to_key_order(given, list, out).unwrap(),
        |list, out, key, place| out[key] = list[place],
    )
}

fn reordered(
    n: Numbers,
    what: &'static str,
    ours: impl Fn(&[u16], &mut [u16]) -> usize + 'static,
    put: impl Fn(&[u16], &mut [u16], usize, usize) + 'static,
) -> Row {
    let layout = made_anew(n);
    let list: Vec<u16> = (0..n.1).rev().collect();
    let same_list = list.clone();
    let mut out = list.clone();
    let mut same_out = list.clone();
    n.row_of_keys(
        what,
        move || {
            let count = ours(&list, &mut out);
            count + usize::from(out[1])
        },
        move || {
            let layout = layout();
            let reduced = usize::from(layout.pergen().reduced_period());
            for key in 0..n.1 {
                let found = layout.pergen().get_generation(key);
                let cycle = usize::from(found.cycle.unwrap_or(0));
                let place = cycle * reduced + usize::from(found.degree);
                put(&same_list, &mut same_out, key.into(), place);
            }
            same_out.len() + usize::from(same_out[1])
        },
    )
}

/// The book's text alone is compared: the original's names have no offsets before.
fn book(n: Numbers) -> Row {
    let given = n.layout();
    let layout = made_anew(n);
    let length = vetchnoon::book_len(given).unwrap();
    let mut book = vec![0; length];
    let text_starts = books::text_starts(n.1.into()) as usize;
    n.row_of_keys(
        "all names of an octave, as a book",
        move || vetchnoon::book(given, &mut book).unwrap() - text_starts,
        move || {
            let layout = layout();
            let names: Vec<String> = (0..n.1).map(|key| layout.get_note_name(key)).collect();
            names.iter().map(String::len).sum()
        },
    )
}

fn book_and_fill(n: Numbers) -> Row {
    let given = n.layout();
    let length = vetchnoon::book_len(given).unwrap();
    let book = move |out: &mut [u8]| vetchnoon::book(given, out).unwrap();
    beside_a_fill(
        n,
        "all names of an octave, as a book",
        vec![1; length],
        book,
    )
}

/// All keys of the octave, which are in reach from half an octave on, from its last key.
fn keys_in_reach(n: Numbers) -> Row {
    let given = n.layout();
    let list = move |out: &mut [u16]| vetchnoon::keys_in_reach(given, -1, n.1 / 2, out).unwrap();
    beside_a_fill(n, "all keys in reach", vec![1; n.1.into()], list)
}

fn widening(n: Numbers) -> Row {
    let (old, new) = strips(n);
    let widen = move |out: &mut [u16]| vetchnoon::widen_strip(&old, out).unwrap();
    beside_a_fill(n, "a strip of one-byte codes, widened", new, widen)
}

fn narrowing(n: Numbers) -> Row {
    let (old, new) = strips(n);
    let narrow = move |out: &mut [u8]| vetchnoon::narrow_strip(&new, out).unwrap();
    beside_a_fill(n, "a strip, narrowed to one-byte codes", old, narrow)
}

/// A layout's strip in both widths, of one octave.
fn strips(n: Numbers) -> (Vec<u8>, Vec<u16>) {
    let mut new = vec![0; n.1.into()];
    vetchnoon::lamp_strip(n.layout(), &mut new).unwrap();
    let mut old = vec![0; new.len()];
    vetchnoon::narrow_strip(&new, &mut old).unwrap();
    (old, new)
}

/// What ours writes to all of a memory. The other side fills that very memory, which both
/// sides have touched.
fn beside_a_fill<T: Copy + From<u8> + 'static>(
    n: Numbers,
    what: &'static str,
    memory: Vec<T>,
    ours: impl Fn(&mut [T]) -> usize + 'static,
) -> Row {
    let memory = Rc::new(RefCell::new(memory));
    let filled = Rc::clone(&memory);
    let mut value = 0;
    n.row_of_keys(
        what,
        move || ours(&mut memory.borrow_mut()),
        move || {
            value ^= 1;
            let mut elements = filled.borrow_mut();
            elements.fill(value.into());
            hint::black_box(&mut elements).len()
        },
    )
}

fn layout_layers(n: Numbers) -> Row {
    let given = n.layout();
    let layout = made_anew(n);
    let mut layers = vec![0; 2 * usize::from(n.1)];
    n.row_of_keys(
        "layers of all keys",
        move || vetchnoon::layout_layers(given, &mut layers).unwrap(),
        move || layout().get_layers().len(),
    )
}

fn pattern_layers(n: Numbers) -> Row {
    let mos = made_anew(n)().mos();
    let mut layers = vec![0; usize::from(n.1)];
    Row::new(
        "layers of the pattern",
        n.words(),
        (mos.reduced_size().into(), "note"),
        move || vetchnoon::mos_layers(pattern(mos), &mut layers).unwrap(),
        move || mos.get_layers().len(),
    )
}

/// The code for a layer of the original. A strip has at most two octaves, and the first key
/// of each is home.
fn code(octave: u16, key: u16, layer: Layer) -> u16 {
    if key == 0 || key == octave {
        return codes::code(Lamp::Home);
    }
    codes::code(layouts::kind_of(layer).into())
}

fn strip(n: Numbers) -> Row {
    let given = n.layout();
    let layout = made_anew(n);
    let mut codes = vec![0; 2 * usize::from(n.1)];
    n.row_of_keys(
        "lamp strip",
        move || {
            let length = vetchnoon::lamp_strip(given, &mut codes).unwrap();
            length + usize::from(codes[length - 1])
        },
        move || {
            let keys = (0..).zip(layout().get_layers());
            let codes: Vec<u16> = keys.map(|(key, layer)| code(n.1, key, layer)).collect();
            codes.len() + usize::from(codes[codes.len() - 1])
        },
    )
}

/// The records of an octave's keys.
fn records(n: Numbers) -> Vec<Record> {
    (0..n.1.into()).map(Record::new).collect()
}

/// What is counted of a sheet.
fn sum_of(records: &[Record]) -> usize {
    let sum = |one: &Record| {
        let signs = usize::from(one.sharp_count) + usize::from(one.flat_count);
        signs + usize::from(one.stars) + usize::from(one.lamp)
    };
    records.iter().map(sum).sum()
}

fn filled(n: Numbers) -> impl FnMut() -> usize {
    let given = n.layout();
    let mut records = records(n);
    move || {
        vetchnoon::sheet(given, &mut records).unwrap();
        sum_of(&records)
    }
}

/// A sheet of an octave. The original has no such call: its caller asks for each key by itself,
/// and for the layers of all keys once.
fn sheet(n: Numbers) -> Row {
    let layout = made_anew(n);
    let mut records = records(n);
    n.row_of_keys(
        "a sheet of an octave; by the original's calls for each key",
        filled(n),
        move || {
            let layout = layout();
            let layers = layout.get_layers();
            for ((key, record), layer) in (0..n.1).zip(&mut records).zip(layers) {
                let spelt = layout.get_accidentals(key);
                *record = Record {
                    key: key.into(),
                    sharp_index: spelt.sharp_index,
                    sharp_count: spelt.sharp_count,
                    flat_index: spelt.flat_index,
                    flat_count: spelt.flat_count,
                    stars: spelt.cycle.unwrap_or(0),
                    lamp: code(n.1, key, layer),
                };
            }
            sum_of(&records)
        },
    )
}

/// The same by our own calls for each key, of which every one makes the layout.
fn sheet_and_single_calls(n: Numbers) -> Row {
    let given = n.layout();
    let mut records = records(n);
    n.row_of_keys("a sheet of an octave", filled(n), move || {
        let generator = vetchnoon::layout(given).unwrap().generator;
        for record in &mut records {
            let key = record.key;
            let spelt = vetchnoon::layout_accidentals(given, key).unwrap();
            let generation = vetchnoon::generation(given.octave, generator, key).unwrap();
            *record = Record {
                key,
                sharp_index: spelt.sharp_index,
                sharp_count: spelt.sharp_count,
                flat_index: spelt.flat_index,
                flat_count: spelt.flat_count,
                stars: generation.cycle.unwrap_or(0),
                lamp: vetchnoon::lamp(given, key).unwrap(),
            };
        }
        sum_of(&records)
    })
}

fn key_table(n: Numbers) -> Row {
    let line = format!("{}\n", n.words());
    let same_line = line.clone();
    let mut table = vec![0; 3_440_640]; // always enough, as the header says
    n.row_of_keys(
        "key table from its line",
        move || vetchnoon::key_table(line.as_bytes(), &mut table).unwrap(),
        move || their_table(&same_line).len(),
    )
}

fn their_table(line: &str) -> String {
    let numbers: Vec<u16> = line.trim().split(' ').map(|n| n.parse().unwrap()).collect();
    let n = Numbers(numbers[0], numbers[1], numbers[2]);
    let layout = create(n.0, &n.val()).unwrap();
    let mut table = String::new();
    for (key, layer) in (0..n.1).zip(layout.get_layers()) {
        let name = layout.get_note_name(key);
        let code = code(n.1, key, layer);
        writeln!(table, "{key} {name} {code}").expect("a string takes all text");
    }
    table
}

fn walks() -> Vec<Row> {
    let geneses: Vec<Mos> = (5..400)
        .map(|octave| Mos::<u16>::new_genesis(octave, octave * 7 / 12))
        .collect();
    let ends = geneses
        .iter()
        .map(|genesis| genesis.children().last().unwrap())
        .collect();
    vec![
        children("deepest", vec![Mos::new(1, 1, 1, 65_534).unwrap()]),
        children("fifths of octaves 5 to 399", geneses),
        parents("deepest", vec![Mos::new(1, 65_535, 4, 0).unwrap()]),
        parents("ends of the walks above", ends),
    ]
}

fn children(input: &str, from: Vec<Mos>) -> Row {
    walk(
        "walk of children",
        input,
        from,
        vetchnoon::mos_children,
        |mos, out| put_all(mos.children(), out),
    )
}

fn parents(input: &str, from: Vec<Mos>) -> Row {
    walk(
        "walk of parents",
        input,
        from,
        vetchnoon::mos_parents,
        |mos, out| put_all(mos.parents(), out),
    )
}

type OurWalk = fn(Pattern, &mut [Pattern]) -> Result<usize, vetchnoon::Refused>;

/// The original's iterator writes into a lent slice too, so that neither side allocates.
fn walk(
    what: &'static str,
    input: &str,
    from: Vec<Mos>,
    ours: OurWalk,
    theirs: impl Fn(Mos, &mut [Pattern]) -> usize + 'static,
) -> Row {
    let mut out = vec![Pattern::default(); 65_536];
    let mut same_out = out.clone();
    let patterns: Vec<Pattern> = from.iter().copied().map(pattern).collect();
    let count: usize = from.iter().map(|mos| theirs(*mos, &mut out)).sum();
    Row::new(
        what,
        input,
        (count, "pattern"),
        move || {
            patterns
                .iter()
                .map(|pattern| ours(*pattern, &mut out).unwrap())
                .sum()
        },
        move || from.iter().map(|mos| theirs(*mos, &mut same_out)).sum(),
    )
}

fn walks_of_moves() -> Vec<Row> {
    let fifths = (5..400).map(|octave| (octave, octave * 7 / 12)).collect();
    vec![
        moves("deepest", vec![(65_535, 1)]),
        moves("fifths of octaves 5 to 399", fifths),
    ]
}

/// The original has no moves: its caller makes them of the counts and steps of its patterns.
fn moves(input: &str, from: Vec<(u16, u16)>) -> Row {
    let mut out = vec![Moves::default(); 65_536];
    let mut same_out = out.clone();
    let ours = |(period, generator), out: &mut [Moves]| {
        vetchnoon::walk_moves(period, generator, out).unwrap()
    };
    let theirs = |(period, generator), out: &mut [Moves]| {
        let walk = Mos::<u16>::new_genesis(period, generator).children();
        walk.zip(out)
            .map(|(mos, place)| *place = moves_of(mos, period, generator))
            .count()
    };
    let count: usize = from.iter().map(|pergen| theirs(*pergen, &mut out)).sum();
    let same = from.clone();
    Row::new(
        "moves of a walk; of the original's counts and steps",
        input,
        (count, "pattern"),
        move || from.iter().map(|pergen| ours(*pergen, &mut out)).sum(),
        move || {
            same.iter()
                .map(|pergen| theirs(*pergen, &mut same_out))
                .sum()
        },
    )
}

fn moves_of(mos: Mos, period: u16, generator: u16) -> Moves {
    let moves = patterns::moves(mos, period, generator).unwrap();
    let [primary, secondary] =
        [[moves[0], moves[1]], [moves[2], moves[3]]].map(|[octaves, generators]| Move {
            octaves,
            generators,
        });
    Moves { primary, secondary }
}

fn put_all(walk: impl Iterator<Item = Mos>, out: &mut [Pattern]) -> usize {
    walk.zip(out)
        .map(|(mos, place)| *place = pattern(mos))
        .count()
}

/// A pattern of the original, as ours has it.
fn pattern(mos: Mos) -> Pattern {
    let [a, b, p, s] = patterns::numbers(mos);
    Pattern::new(a, b, p, s)
}
