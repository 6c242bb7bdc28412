//! Walks from fractional generators.

use tune::pergen::Mos;
use vetchnoon::Fractional;

use super::Row;

/// The longest walk that there is.
const LONGEST: usize = 65_535;

pub fn rows() -> Vec<Row> {
    let parts = (0..65_536).map(|k| f64::from(k) / 65_536.0).collect();
    vec![
        walk("0.584963", vec![1.5_f64.log2()]),
        walk("1e-9, the longest", vec![1e-9]),
        walk("all 65,536ths", parts),
    ]
}

/// The original's iterator writes into a lent slice too, so that neither side allocates.
fn walk(input: &str, generators: Vec<f64>) -> Row {
    let mut out = vec![Fractional::default(); LONGEST];
    let mut same_out = out.clone();
    let patterns = generators
        .iter()
        .map(|generator| put_all(*generator, &mut out))
        .sum();
    let same = generators.clone();
    Row::new(
        "walk from a fractional generator",
        input,
        (patterns, "pattern"),
        move || {
            let ours = |generator: &f64| vetchnoon::fractional_children(*generator, &mut out);
            generators.iter().map(ours).map(Result::unwrap).sum()
        },
        move || {
            let theirs = |generator: &f64| put_all(*generator, &mut same_out);
            same.iter().map(theirs).sum()
        },
    )
}

fn put_all(generator: f64, out: &mut [Fractional]) -> usize {
    let walk = Mos::<f64, u16>::new_genesis(generator).children();
    walk.zip(out)
        .map(|(mos, place)| {
            *place = Fractional {
                primary_count: mos.num_primary_steps(),
                secondary_count: mos.num_secondary_steps(),
                primary_step: mos.primary_step(),
                secondary_step: mos.secondary_step(),
            };
        })
        .count()
}
