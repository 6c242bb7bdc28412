//! The command's lines and status.

use std::process::Command;
use std::process::Output;

fn run(line: &str) -> Output {
    Command::new(env!("CARGO_BIN_EXE_judge"))
        .args(line.split_whitespace())
        .output()
        .expect("the command runs")
}

fn answer(line: &str) -> String {
    let output = run(line);
    assert!(output.status.success(), "{line}: {}", output.status);
    assert!(output.stderr.is_empty(), "{line}: writes to stderr");
    String::from_utf8(output.stdout).expect("UTF-8")
}

#[test]
fn a_layout() {
    assert_eq!(
        answer("layout 2 5 8"),
        "\
chain Meantone[5]
period 5
generator 3
cycles 1
reduced period 5
inverse 2
pattern 3 2 1 1
scale equalized
layer sizes 5
key 0 D 2 0 2 0 - natural
key 1 E 4 0 4 0 - natural
key 2 G 1 0 1 0 - enharmonic 0
key 3 A 3 0 3 0 - enharmonic 0
key 4 C 0 0 0 0 - natural
layer 5 natural
layer 6 natural
layer 7 enharmonic 0
layer 8 enharmonic 0
layer 9 natural
"
    );
}

#[test]
fn a_layout_with_cycles() {
    let text = answer("layout 1 24 38");
    assert!(text.contains("\nkey 2 (D#/Eb) 3 1 5 1 0 enharmonic 1\n"));
    assert!(text.contains("\nkey 3 (D#/Eb)* 3 1 5 1 1 flat 0\n"));
}

#[test]
fn a_fractional_walk() {
    assert_eq!(
        answer("fractional -0.375"),
        "\
pattern 1 1 0.625 0.375
pattern 1 2 0.25 0.375
pattern 3 2 0.25 0.125
pattern 3 5 0.125 0.125
"
    );
    assert_eq!(answer("fractional -1"), "pattern 1 1 -0.0 1.0\n");
    assert_eq!(answer("fractional inf"), "pattern 1 1 NaN NaN\n");
}

#[test]
fn no_layout_and_a_panic_are_answers() {
    assert_eq!(answer("layout 0 12 19"), "none\n");
    assert_eq!(
        answer("layout 1 0 19"),
        "panicked: attempt to calculate the remainder with a divisor of zero (math.rs line 92)\n"
    );
}

#[test]
fn a_layout_whose_last_key_panics_still_has_the_others() {
    let text = answer("layout 5 46342 6");
    assert!(text.contains(
        "\nlayers panicked: attempt to multiply with overflow (pergen.rs line 55)\nkey 0 D 3 0 3 0 - -\n"
    ));
    assert!(text.ends_with(
        "\nkey 46341 panicked: attempt to multiply with overflow (pergen.rs line 55)\n"
    ));
}

#[test]
fn a_key_of_a_free_format() {
    assert_eq!(
        answer("accidentals 5 3 7 3 1"),
        "\
cycles 1
reduced period 5
inverse 2
degree 2
cycle -
sharp 5 0
flat 0 0
"
    );
    assert_eq!(
        answer("accidentals 12 8 0 0 1"),
        "\
cycles 4
reduced period 3
inverse 2
degree 0
cycle 1
accidentals panicked: attempt to subtract with overflow (pergen.rs line 71)
"
    );
}

#[test]
fn a_given_pattern() {
    assert_eq!(
        answer("mos 5 2 2 1"),
        "\
size 12
steps 7
sharpness 1
cycles 1
reduced size 12
child 5 7 1 1
parent 3 2 2 3
genesis 1 1 7 5
dual 2 1 5 2
mirror 2 5 1 2
coprime 5 2 2 1 size 12
layer sizes 7 5
layers 0 0 0 0 0 0 0 1 1 1 1 1
"
    );
    assert_eq!(answer("mos 200 200 200 200"), "none\n");
}

#[test]
fn small_questions() {
    assert_eq!(answer("gcd 35 21"), "gcd 7\n");
    assert_eq!(answer("simplify 35 21"), "simplify 5 3\n");
    assert_eq!(answer("odd 24"), "odd 3\n");
    assert_eq!(answer("div -7 2"), "div -4\n");
    assert_eq!(answer("rem -4 12"), "rem 8\n");
    assert_eq!(answer("key 5 2 5 3 -2 -2"), "key -16\n");
    assert_eq!(
        answer("walk 12 7"),
        "pattern 1 1 7 5\npattern 1 2 2 5\npattern 3 2 2 3\npattern 5 2 2 1\npattern 5 7 1 1\n"
    );
}

#[test]
fn layouts_of_a_number_of_steps() {
    assert_eq!(
        answer("edo 13"),
        "\
0 13 20 Mavila[9] balzano sharpness -2, second choice
1 13 20 Meantone[7] antidiatonic sharpness -3, second choice
2 13 21 Meantone[5] antipentic sharpness 1, first choice
4 13 21 Tetracot[7] archeotonic sharpness 1, first choice
"
    );
    assert_eq!(answer("edo 4"), "");
    assert!(answer("edo_report").starts_with("0 5 2 2\n1 377 8 5\n"));
}

#[test]
fn bad_usage_has_status_2() {
    for line in [
        "",
        "layout",
        "layout 6 12 19",
        "layout 1 12",
        "layout 1 12 65536",
        "gcd 1 x",
        "mos 1 2 3",
        "unknown 1",
        "edo",
        "edo 65536",
        "edo_report 1",
    ] {
        let output = run(line);
        assert_eq!(output.status.code(), Some(2), "{line}");
        assert!(output.stdout.is_empty(), "{line}");
        assert!(String::from_utf8_lossy(&output.stderr).starts_with("usage: judge"));
    }
}
