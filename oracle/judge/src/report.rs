//! The answers in plain lines: a word that says what follows, then values with
//! one space between. What is absent is `-`.

use std::fmt::Display;
use std::io;
use std::io::Write;

use judge::asking;
use judge::asking::Answer;
use judge::classes;
use judge::edo;
use judge::edo::Listed;
use judge::fractional;
use judge::layouts;
use judge::numbers;
use judge::patterns;
use judge::patterns::Pattern;
use judge::spelling;
use judge::words;
use judge::words::words;
use tune::layout::Genchain;
use tune::layout::IsomorphicLayout;
use tune::layout::Layer;
use tune::pergen::AccidentalsFormat;
use tune::pergen::Mos;
use tune::pergen::PerGen;

pub fn gcd(out: &mut impl Write, x: u16, y: u16) -> io::Result<()> {
    line(out, "gcd", numbers::gcd(x, y))
}

pub fn simplified(out: &mut impl Write, x: u16, y: u16) -> io::Result<()> {
    let terms = numbers::simplified(x, y).map(|(numer, denom)| words([numer, denom]));
    line(out, "simplify", terms)
}

pub fn odd_factors(out: &mut impl Write, x: u16) -> io::Result<()> {
    line(out, "odd", numbers::odd_factors(x))
}

pub fn quotient(out: &mut impl Write, numer: i32, denom: u32) -> io::Result<()> {
    line(out, "div", numbers::quotient(numer, denom))
}

pub fn remainder(out: &mut impl Write, numer: i32, denom: u32) -> io::Result<()> {
    line(out, "rem", numbers::remainder(numer, denom))
}

pub fn accidentals(
    out: &mut impl Write,
    period: u16,
    generator: u16,
    num_symbols: u16,
    genchain_origin: u16,
    key: u16,
) -> io::Result<()> {
    let pergen = match spelling::create(period, generator) {
        Ok(pergen) => pergen,
        Err(panicked) => return writeln!(out, "{panicked}"),
    };
    pergen_lines(out, &pergen)?;

    match spelling::generation(&pergen, key) {
        Ok(generation) => {
            writeln!(out, "degree {}", generation.degree)?;
            writeln!(out, "cycle {}", words(generation.cycle))?;
        }
        Err(panicked) => writeln!(out, "generation {panicked}")?,
    }

    let format = AccidentalsFormat {
        num_symbols,
        genchain_origin,
    };
    match spelling::accidentals(&pergen, &format, key) {
        Ok(spelt) => {
            writeln!(out, "sharp {} {}", spelt.sharp_index, spelt.sharp_count)?;
            writeln!(out, "flat {} {}", spelt.flat_index, spelt.flat_count)
        }
        Err(panicked) => writeln!(out, "accidentals {panicked}"),
    }
}

pub fn mos(out: &mut impl Write, pattern: Pattern) -> io::Result<()> {
    match patterns::create(pattern) {
        Ok(Some(mos)) => mos_lines(out, mos),
        Ok(None) => writeln!(out, "none"),
        Err(panicked) => writeln!(out, "{panicked}"),
    }
}

fn mos_lines(out: &mut impl Write, mos: Mos) -> io::Result<()> {
    match patterns::derived(mos) {
        Ok(derived) => {
            writeln!(out, "size {}", derived.size)?;
            writeln!(out, "steps {}", derived.num_steps)?;
            writeln!(out, "sharpness {}", derived.sharpness)?;
            writeln!(out, "cycles {}", derived.num_cycles)?;
            writeln!(out, "reduced size {}", derived.reduced_size)?;
        }
        Err(panicked) => writeln!(out, "numbers {panicked}")?,
    }

    line(
        out,
        "child",
        patterns::child(mos).map(words::pattern_or_none),
    )?;
    line(
        out,
        "parent",
        patterns::parent(mos).map(words::pattern_or_none),
    )?;
    line(out, "genesis", patterns::genesis(mos).map(words::pattern))?;
    line(out, "dual", patterns::dual(mos).map(words::pattern))?;
    line(out, "mirror", patterns::mirror(mos).map(words::pattern))?;
    line(
        out,
        "coprime",
        patterns::coprime(mos).map(|mos| format!("{} size {}", words::pattern(mos), mos.size())),
    )?;

    let layers = patterns::layers(mos);
    let sizes = layers
        .as_deref()
        .map(|layers| words(patterns::layer_sizes(layers)))
        .map_err(Clone::clone);
    line(out, "layer sizes", sizes)?;
    line(out, "layers", layers.map(words))
}

pub fn key(out: &mut impl Write, pattern: Pattern, primary: i16, secondary: i16) -> io::Result<()> {
    match patterns::create(pattern) {
        Ok(Some(mos)) => line(out, "key", patterns::key(mos, primary, secondary)),
        Ok(None) => writeln!(out, "none"),
        Err(panicked) => writeln!(out, "{panicked}"),
    }
}

pub fn walk(out: &mut impl Write, period: u16, generator: u16) -> io::Result<()> {
    match patterns::create_genesis(period, generator).and_then(patterns::children) {
        Ok(walk) => walk
            .into_iter()
            .try_for_each(|mos| writeln!(out, "pattern {}", words::pattern(mos))),
        Err(panicked) => writeln!(out, "{panicked}"),
    }
}

/// Steps are shown with as many digits as tell them from all other doubles.
pub fn fractional(out: &mut impl Write, generator: f64) -> io::Result<()> {
    match fractional::walk(generator) {
        Ok(walk) => walk.into_iter().try_for_each(|pattern| {
            let [primary, secondary] = pattern.steps.map(f64::from_bits);
            let counts = words(pattern.counts);
            writeln!(out, "pattern {counts} {primary:?} {secondary:?}")
        }),
        Err(panicked) => writeln!(out, "{panicked}"),
    }
}

pub fn layout(out: &mut impl Write, chain: Genchain, octave: u16, tritave: u16) -> io::Result<()> {
    match layouts::create(chain, octave, tritave) {
        Ok(Some(layout)) => layout_lines(out, &layout),
        Ok(None) => writeln!(out, "none"),
        Err(panicked) => writeln!(out, "{panicked}"),
    }
}

/// A line for each layout: chain code, octave, tritave, chain name, scale name, sharpness, and
/// which choice of the tritave it was made with.
pub fn edo(out: &mut impl Write, steps: u16) -> io::Result<()> {
    let listed = match edo::find_by_edo(steps) {
        Ok(listed) => listed,
        Err(panicked) => return writeln!(out, "{panicked}"),
    };
    listed.into_iter().try_for_each(|listed| {
        let Listed { code, tritave, .. } = listed;
        let layout = &listed.layout;
        let octave = layout.pergen().period();
        let scale = layout.get_scale_name();
        let sharpness = layout.mos().sharpness();
        let choice = match listed.is_second {
            false => "first",
            true => "second",
        };
        let chain = layout.genchain();
        writeln!(
            out,
            "{code} {octave} {tritave} {chain} {scale} sharpness {sharpness}, {choice} choice"
        )
    })
}

pub fn edo_report(out: &mut impl Write) -> io::Result<()> {
    match edo::report() {
        Ok(report) => write!(out, "{report}"),
        Err(panicked) => writeln!(out, "{panicked}"),
    }
}

fn layout_lines(out: &mut impl Write, layout: &IsomorphicLayout) -> io::Result<()> {
    writeln!(out, "chain {}", layout.genchain())?;
    writeln!(out, "period {}", layout.pergen().period())?;
    writeln!(out, "generator {}", layout.pergen().generator())?;
    pergen_lines(out, layout.pergen())?;
    writeln!(out, "pattern {}", words::pattern(layout.mos()))?;
    line(out, "scale", layouts::scale_name(layout))?;
    let sizes = patterns::layers(layout.mos()).map(|layers| patterns::layer_sizes(&layers));
    line(out, "layer sizes", sizes.map(words))?;

    let layers = match layouts::layers(layout) {
        Ok(layers) => layers,
        Err(panicked) => {
            writeln!(out, "layers {panicked}")?;
            Vec::new()
        }
    };
    for key in 0..layout.pergen().period() {
        let layer = layers.get(usize::from(key)).copied();
        key_line(out, layout, key, layer)?;
    }
    // At sharpness 0 the layers go on for a second octave.
    for (number, layer) in layers
        .iter()
        .enumerate()
        .skip(layout.pergen().period().into())
    {
        writeln!(out, "layer {number} {}", layer_words(*layer))?;
    }
    Ok(())
}

fn key_line(
    out: &mut impl Write,
    layout: &IsomorphicLayout,
    key: u16,
    layer: Option<Layer>,
) -> io::Result<()> {
    let spelt = layouts::accidentals(layout, key);
    let named = layouts::note_name(layout, key);
    match named.and_then(|name| Ok((name, spelt?))) {
        Ok((name, spelt)) => writeln!(
            out,
            "key {key} {name} {} {}",
            words::spelling(spelt),
            layer.map(layer_words).unwrap_or_else(|| "-".to_owned())
        ),
        Err(panicked) => writeln!(out, "key {key} {panicked}"),
    }
}

pub fn classes(out: &mut impl Write) -> io::Result<()> {
    let checked = match asking::overflow_is_checked() {
        true => "checked",
        false => "not checked: numbers wrap",
    };
    writeln!(out, "overflow {checked}")?;
    for (class, inputs) in classes::SMALLEST {
        writeln!(out, "\n{}", class.name())?;
        for input in inputs {
            writeln!(out, "  {input}")?;
            match input.answer() {
                Ok(Some(value)) => writeln!(out, "    answered: {value}")?,
                Ok(None) => writeln!(out, "    none")?,
                Err(panicked) => writeln!(out, "    {panicked}")?,
            }
        }
    }
    Ok(())
}

fn pergen_lines(out: &mut impl Write, pergen: &PerGen) -> io::Result<()> {
    match spelling::derived(pergen) {
        Ok(derived) => {
            writeln!(out, "cycles {}", derived.num_cycles)?;
            writeln!(out, "reduced period {}", derived.reduced_period)?;
            writeln!(out, "inverse {}", derived.inverse)
        }
        Err(panicked) => writeln!(out, "numbers {panicked}"),
    }
}

fn line<T: Display>(out: &mut impl Write, word: &str, answer: Answer<T>) -> io::Result<()> {
    match answer {
        Ok(value) => writeln!(out, "{word} {value}"),
        Err(panicked) => writeln!(out, "{word} {panicked}"),
    }
}

fn layer_words(layer: Layer) -> String {
    match layer {
        Layer::Natural => "natural".to_owned(),
        Layer::Sharp(level) => format!("sharp {level}"),
        Layer::Flat(level) => format!("flat {level}"),
        Layer::Enharmonic(level) => format!("enharmonic {level}"),
    }
}
