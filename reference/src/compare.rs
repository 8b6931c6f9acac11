//! The comparison of golden and unit (document 01, section "Operations and answers").

use crate::files::{read_dossier, read_unit, write_at_front};
use crate::machine::{GoldenState, Machine, State, UnitState, Word};
use crate::refusal::Refusal;
use crate::sizes::MOST_STATES;
use std::collections::VecDeque;

/// The comparison's answers that are no refusal.
#[derive(Clone, Copy, Debug, PartialEq, Eq)]
pub enum CompareAnswer {
    /// Golden and unit answer every word alike.
    Equal,
    /// The telling word, of this length, stands at the front of the output.
    Differs { length: usize },
}

/// Compares, or refuses: the dossier's 1 to 6, the unit's 1 to 6, 15, 17. The dossier need not
/// be accepted.
pub fn compare(dossier: &[u8], unit: &[u8], output: &mut [u8]) -> Result<CompareAnswer, Refusal> {
    let Some(word) = compared(dossier, unit)? else {
        return Ok(CompareAnswer::Equal);
    };
    let bytes: Vec<u8> = word.iter().map(|input| input.0).collect();
    write_at_front(&bytes, output)?;
    Ok(CompareAnswer::Differs { length: word.len() })
}

/// The telling word, if there is one, for an output that has room for any.
pub fn compared(dossier: &[u8], unit: &[u8]) -> Result<Option<Word>, Refusal> {
    let golden = read_dossier(dossier)?.golden;
    let unit = read_unit(unit)?;
    if unit.inputs != golden.inputs {
        return Err(Refusal::OtherInputs);
    }
    Ok(telling_word(&golden, GoldenState(0), &unit, UnitState(0)))
}

/// The shortest word that two machines with the same inputs answer differently, each from a state
/// of its own; among equals the first by inputs.
///
/// The pairs of states wait in the order of the words that reach them, by length and then by
/// inputs. A pair that is met again is met by a later word and has nothing new to tell.
pub fn telling_word<S: State, T: State>(
    one: &Machine<S>,
    one_start: S,
    other: &Machine<T>,
    other_start: T,
) -> Option<Word> {
    let pairs = usize::from(MOST_STATES) * usize::from(MOST_STATES);
    let mut met = vec![false; pairs];
    met[place_of_pair(one_start, other_start)] = true;
    let mut waiting = VecDeque::from([(one_start, other_start, Word::new())]);
    while let Some((one_state, other_state, word)) = waiting.pop_front() {
        for input in one.all_inputs() {
            let one_step = one.step(one_state, input);
            let other_step = other.step(other_state, input);
            let longer = || [word.as_slice(), &[input]].concat();
            if one_step.output != other_step.output {
                return Some(longer());
            }
            let pair = place_of_pair(one_step.next, other_step.next);
            if !met[pair] {
                met[pair] = true;
                waiting.push_back((one_step.next, other_step.next, longer()));
            }
        }
    }
    None
}

fn place_of_pair<S: State, T: State>(one: S, other: T) -> usize {
    usize::from(one.number()) * usize::from(MOST_STATES) + usize::from(other.number())
}
