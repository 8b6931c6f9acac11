//! The checker (document 01, sections "Needed words" and "Operations and answers").

use crate::files::{read_dossier, Dossier};
use crate::machine::{Answer, GoldenState, Input, Word};
use crate::needed::go_through_needed;
use crate::refusal::{File, Refusal};
use std::collections::{BTreeSet, HashSet};
use std::ops::ControlFlow;

/// The checker's only answer that is no refusal.
#[derive(Clone, Copy, Debug, PartialEq, Eq)]
pub struct Accepted;

/// ACCEPTED, or refusal 1 to 11.
pub fn check(dossier: &[u8]) -> Result<Accepted, Refusal> {
    read_accepted(dossier).map(|_| Accepted)
}

/// An accepted dossier from its bytes, or refusal 1 to 11.
pub fn read_accepted(bytes: &[u8]) -> Result<Dossier, Refusal> {
    let dossier = read_dossier(bytes)?;
    check_cover_and_separators(&dossier)?;
    check_tests(&dossier)?;
    Ok(dossier)
}

/// Refusals 7 to 10, as numbered.
pub fn check_cover_and_separators(dossier: &Dossier) -> Result<(), Refusal> {
    if !dossier.cover.contains(&Word::new()) {
        return Err(Refusal::NoEmptyWord);
    }
    if let Some(state) = lowest_unreached(dossier) {
        return Err(Refusal::Unreached {
            file: File::Dossier,
            state,
        });
    }
    if dossier.separating.is_empty() {
        return Err(Refusal::NoSeparator);
    }
    match lowest_pair_alike(dossier) {
        Some((first, second)) => Err(Refusal::NotSeparated { first, second }),
        None => Ok(()),
    }
}

/// The lowest golden state that no cover word reaches.
fn lowest_unreached(dossier: &Dossier) -> Option<GoldenState> {
    let golden = &dossier.golden;
    let cover = dossier.cover.iter();
    let reached: HashSet<GoldenState> = cover.map(|word| golden.reached(word)).collect();
    golden.all_states().find(|state| !reached.contains(state))
}

/// The two golden states that answer all separating words alike: lowest first, then lowest second.
fn lowest_pair_alike(dossier: &Dossier) -> Option<(GoldenState, GoldenState)> {
    let states: Vec<GoldenState> = dossier.golden.all_states().collect();
    let answers: Vec<Answer> = states
        .iter()
        .map(|&state| answers_to_separators(dossier, state))
        .collect();
    for first in 0..states.len() {
        for second in first + 1..states.len() {
            if answers[first] == answers[second] {
                return Some((states[first], states[second]));
            }
        }
    }
    None
}

/// A state's answers to all separating words, one after the other. An answer is as long as its
/// word, so two states with the same outputs here have the same answer to each word.
fn answers_to_separators(dossier: &Dossier, state: GoldenState) -> Answer {
    let words = dossier.separating.iter();
    words
        .flat_map(|word| dossier.golden.answer_from(state, word))
        .collect()
}

/// Refusal 11: stops at the first needed word that begins no test.
fn check_tests(dossier: &Dossier) -> Result<(), Refusal> {
    let tests: BTreeSet<&[Input]> = dossier.tests.iter().map(Vec::as_slice).collect();
    let missing = go_through_needed(dossier, |needed| {
        if begins_a_test(&needed.word, &tests) {
            return ControlFlow::Continue(());
        }
        ControlFlow::Break(Refusal::Missing {
            cover: needed.cover,
            middle: needed.middle,
            separator: needed.separator,
        })
    });
    match missing.break_value() {
        Some(refusal) => Err(refusal),
        None => Ok(()),
    }
}

/// Whether a word is a test or the beginning of one. In the order by inputs the words that begin
/// with a word come right after it, so it is enough to look at the first test from there.
fn begins_a_test(word: &[Input], tests: &BTreeSet<&[Input]>) -> bool {
    let mut from_word = tests.range(word..);
    from_word.next().is_some_and(|test| test.starts_with(word))
}
