//! The finding of cover and separating words for a bare table (document 02, L1).

use crate::compare::telling_word;
use crate::files::{read_unit, write_at_front, write_dossier, Dossier};
use crate::machine::{GoldenState, Machine, Word};
use crate::refusal::{File, Place, Refusal, OVER_ITS_SIZE};
use crate::sizes::{is_bound, MOST_DOSSIER_BYTES};
use std::collections::VecDeque;

/// The length of the dossier that was written.
#[derive(Clone, Copy, Debug, PartialEq, Eq)]
pub struct Found {
    pub length: usize,
}

/// Writes the dossier that is found for a unit taken as golden at the front of the output, or
/// refuses: the unit's 1 to 6, 3 for the bound, 8, 18, 17.
pub fn find(unit: &[u8], bound: u8, output: &mut [u8]) -> Result<Found, Refusal> {
    let bytes = found_bytes(unit, bound)?;
    write_at_front(&bytes, output)?;
    Ok(Found {
        length: bytes.len(),
    })
}

/// The bytes of the found dossier, for an output that has room for any dossier.
pub fn found_bytes(unit: &[u8], bound: u8) -> Result<Vec<u8>, Refusal> {
    let golden = read_unit(unit)?.over_states();
    if !is_bound(bound, golden.states()) {
        return Err(Refusal::BadNumbers(THE_BOUND));
    }
    let cover = found_cover(&golden)?;
    let separating = found_separating(&golden)?;
    let bytes = write_dossier(&Dossier {
        golden,
        bound_byte: bound,
        cover,
        separating,
        tests: Vec::new(),
    });
    if bytes.len() > MOST_DOSSIER_BYTES {
        return Err(OVER_ITS_SIZE);
    }
    Ok(bytes)
}

/// The place of a bound that is passed: it stands in no file.
const THE_BOUND: Place = Place {
    file: File::Number,
    byte: 0,
};

/// For each state in order its access word; or UNREACHED with the lowest state that has none.
fn found_cover(golden: &Machine<GoldenState>) -> Result<Vec<Word>, Refusal> {
    let reached = access_words(golden);
    let access_word = |state: GoldenState| {
        let mut words = reached.iter();
        match words.find(|(known, _)| *known == state) {
            Some((_, word)) => Ok(word.clone()),
            None => Err(Refusal::Unreached {
                file: File::Unit,
                state,
            }),
        }
    };
    golden.all_states().map(access_word).collect()
}

/// For each two states in order their telling word, each word once at its first place; or NOT
/// REDUCED with the lowest two that have none. One state has the empty word.
fn found_separating(golden: &Machine<GoldenState>) -> Result<Vec<Word>, Refusal> {
    if golden.states() == 1 {
        return Ok(vec![Word::new()]);
    }
    let mut kept: Vec<Word> = Vec::new();
    for first in golden.all_states() {
        for second in golden.all_states().filter(|second| *second > first) {
            let told = telling_word(golden, first, golden, second);
            let word = told.ok_or(Refusal::NotReduced { first, second })?;
            if !kept.contains(&word) {
                kept.push(word);
            }
        }
    }
    Ok(kept)
}

/// Each state that any word reaches with the shortest that does, among equals the first by
/// inputs; in the order of these words.
pub fn access_words(golden: &Machine<GoldenState>) -> Vec<(GoldenState, Word)> {
    let mut found = vec![(GoldenState(0), Word::new())];
    let mut waiting = VecDeque::from(found.clone());
    while let Some((state, word)) = waiting.pop_front() {
        for input in golden.all_inputs() {
            let next = golden.step(state, input).next;
            if found.iter().all(|(known, _)| *known != next) {
                let longer = [word.as_slice(), &[input]].concat();
                found.push((next, longer.clone()));
                waiting.push_back((next, longer));
            }
        }
    }
    found
}
