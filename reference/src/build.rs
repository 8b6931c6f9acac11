//! The builder (document 01, section "Operations and answers").

use crate::check::check_cover_and_separators;
use crate::files::{
    read_dossier, size_of_words, write_at_front, write_before_tests, write_dossier, Dossier,
};
use crate::machine::Word;
use crate::needed::go_through_needed;
use crate::refusal::{Refusal, OVER_ITS_SIZE};
use crate::sizes::MOST_DOSSIER_BYTES;
use std::collections::BTreeSet;
use std::ops::ControlFlow;

/// The length of the dossier that was written.
#[derive(Clone, Copy, Debug, PartialEq, Eq)]
pub struct Built {
    pub length: usize,
}

/// Writes the dossier with new tests at the front of the output, or refuses by 1 to 10 or 17.
pub fn build(dossier: &[u8], output: &mut [u8]) -> Result<Built, Refusal> {
    let bytes = built_bytes(dossier)?;
    write_at_front(&bytes, output)?;
    Ok(Built {
        length: bytes.len(),
    })
}

/// The bytes of the built dossier, for an output that has room for any dossier.
pub fn built_bytes(bytes: &[u8]) -> Result<Vec<u8>, Refusal> {
    let dossier = read_dossier(bytes)?;
    check_cover_and_separators(&dossier)?;
    let tests = built_tests(&dossier)?;
    Ok(write_dossier(&Dossier { tests, ..dossier }))
}

/// Each needed word that is no proper beginning of another, once, by inputs from the front; or
/// NO ROOM where a dossier with these tests would be over its size.
pub fn built_tests(dossier: &Dossier) -> Result<Vec<Word>, Refusal> {
    let needed = all_needed(dossier)?;
    let tests = without_beginnings(needed);
    let length = write_before_tests(dossier).len() + size_of_words(&tests);
    if length > MOST_DOSSIER_BYTES {
        return Err(OVER_ITS_SIZE);
    }
    Ok(tests)
}

/// The set of needed words, unless it is certain early that its tests are over a dossier's size.
///
/// Each needed word begins a built test, and a test of L inputs has L beginnings that are not
/// empty and takes L + 1 bytes. So the tests take at least as many bytes as there are needed
/// words, and there may be more than a million of those.
fn all_needed(dossier: &Dossier) -> Result<BTreeSet<Word>, Refusal> {
    let mut words = BTreeSet::new();
    let gone_through = go_through_needed(dossier, |needed| {
        words.insert(needed.word);
        if words.len() > MOST_DOSSIER_BYTES {
            return ControlFlow::Break(OVER_ITS_SIZE);
        }
        ControlFlow::Continue(())
    });
    match gone_through.break_value() {
        Some(refusal) => Err(refusal),
        None => Ok(words),
    }
}

/// The words that are no proper beginning of another. In the order by inputs the words that begin
/// with a word come right after it, so it is enough to look at the next one.
fn without_beginnings(words: BTreeSet<Word>) -> Vec<Word> {
    let mut kept: Vec<Word> = Vec::new();
    for word in words {
        if kept.last().is_some_and(|last| word.starts_with(last)) {
            kept.pop();
        }
        kept.push(word);
    }
    kept
}
