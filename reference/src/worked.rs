//! The worked pieces of document 01 as values, and short ways to write words and machines.

use crate::files::{Dossier, Unit};
use crate::machine::{GoldenState, Input, Machine, Output, State, Step, UnitState, Word};

/// A word from its digits, as document 01 writes words.
pub fn word(digits: &str) -> Word {
    let digit = |digit: char| digit.to_digit(16).expect("a hex digit") as u8;
    digits.chars().map(|input| Input(digit(input))).collect()
}

/// Words from their digits.
pub fn words(list: &[&str]) -> Vec<Word> {
    list.iter().map(|digits| word(digits)).collect()
}

/// A machine from its entries, by state and then by input: next state, output.
pub fn machine<S: State>(inputs: u8, entries: &[(u8, u8)]) -> Machine<S> {
    let steps = entries.iter().map(|&(next, output)| Step {
        next: S::numbered(next),
        output: Output(output),
    });
    Machine {
        inputs,
        steps: steps.collect(),
    }
}

/// Golden G of document 01.
pub fn golden_g() -> Machine<GoldenState> {
    machine(2, &[(0, 0), (1, 0), (0, 1), (1, 0)])
}

/// Unit V of document 01.
pub fn unit_v() -> Unit {
    machine::<UnitState>(2, &[(2, 0), (1, 0), (0, 1), (1, 0), (2, 0), (2, 0)])
}

/// G as a bare table: a unit that is to be taken as golden.
pub fn table_g() -> Unit {
    golden_g().over_states()
}

/// A dossier of G with its cover and its separating word.
pub fn dossier_g(bound_byte: u8, tests: &[&str]) -> Dossier {
    Dossier {
        golden: golden_g(),
        bound_byte,
        cover: words(&["", "1"]),
        separating: words(&["0"]),
        tests: words(tests),
    }
}

/// The golden of document 01 with one state, one input and output 0.
pub fn dossier_of_one_state(bound_byte: u8, tests: &[&str]) -> Dossier {
    Dossier {
        golden: machine(1, &[(0, 0)]),
        bound_byte,
        cover: words(&[""]),
        separating: words(&[""]),
        tests: words(tests),
    }
}

/// The tests of G for m = 2 and for m = 3.
const TESTS_2: [&str; 3] = ["00", "100", "110"];
const TESTS_3: [&str; 6] = ["000", "010", "1000", "1010", "1100", "1110"];

/// G with another cover or other separating words than its own.
fn dossier_with(cover: &[&str], separating: &[&str]) -> Dossier {
    Dossier {
        cover: words(cover),
        separating: words(separating),
        ..dossier_g(2, &TESTS_2)
    }
}

/// G and V, one state, two states that answer alike, a state that no word reaches, both at once, and
/// as many states as the bounds at the edges of their range ask for.
pub fn tables() -> Vec<Unit> {
    vec![
        table_g(),
        unit_v(),
        machine(1, &[(0, 0)]),
        machine(1, &[(1, 0), (2, 1), (3, 1), (1, 1)]),
        machine(1, &[(1, 0), (0, 0), (0, 1), (0, 2)]),
        machine(1, &[(1, 0), (0, 0), (2, 1)]),
        chain(60),
        chain(61),
        chain(64),
    ]
}

/// States that follow each other, of which the last is told by its output.
pub fn chain(states: u8) -> Unit {
    let step = |state: u8| match state + 1 {
        next if next < states => (next, 0),
        _ => (state, 1),
    };
    machine(1, &(0..states).map(step).collect::<Vec<_>>())
}

/// Every dossier of which document 01 says what it needs, builds or is refused for.
pub fn dossiers() -> Vec<Dossier> {
    vec![
        dossier_g(2, &TESTS_2),
        dossier_g(3, &TESTS_3),
        dossier_g(3, &TESTS_2),
        dossier_with(&["1"], &["0"]),
        dossier_with(&[""], &["0"]),
        dossier_with(&["", "1"], &[]),
        dossier_with(&["", "1"], &["1"]),
        dossier_of_one_state(1, &["0"]),
        dossier_of_one_state(2, &["00"]),
        dossier_of_one_state(1, &[""]),
    ]
}
