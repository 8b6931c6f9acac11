//! Needed words (document 01, section "Needed words").

use crate::files::Dossier;
use crate::machine::{Input, Word};
use std::collections::HashSet;
use std::ops::ControlFlow;

/// A needed word and what it is made of.
pub struct Needed {
    /// The place of the cover word.
    pub cover: usize,
    pub middle: Word,
    /// The place of the separating word.
    pub separator: usize,
    /// Cover word, middle and separating word, one after the other.
    pub word: Word,
}

/// All words of at most `longest` inputs, by length and then by inputs. They are made as they are
/// asked for: with 16 inputs and the longest middles there are more than a million.
pub fn middles(inputs: u8, longest: u8) -> impl Iterator<Item = Word> {
    let inputs = usize::from(inputs);
    (0..u32::from(longest) + 1).flat_map(move |length| {
        (0..inputs.pow(length)).map(move |place| middle_at(inputs, length, place))
    })
}

/// The middle at a place among those of its length: the digits of the place to the base k.
fn middle_at(inputs: usize, length: u32, place: usize) -> Word {
    (0..length)
        .rev()
        .map(|digit| Input((place / inputs.pow(digit) % inputs) as u8))
        .collect()
}

/// Shows the needed words in the checker's order until told to stop: cover in file order
/// outermost, then middle, then separating.
///
/// A needed word that comes of the same words again is not always shown again. What has been
/// found once need not be looked for twice, and the first place of a repeated word comes first.
pub fn go_through_needed<Stop>(
    dossier: &Dossier,
    mut show: impl FnMut(Needed) -> ControlFlow<Stop>,
) -> ControlFlow<Stop> {
    let separating = first_places(&dossier.separating);
    let mut fronts = HashSet::new();
    for (cover, cover_word) in first_places(&dossier.cover) {
        for middle in middles(dossier.golden.inputs, dossier.longest_middle()) {
            let front = [cover_word, &middle].concat();
            if !fronts.insert(front.clone()) {
                continue;
            }
            for &(separator, separating_word) in &separating {
                show(Needed {
                    cover,
                    middle: middle.clone(),
                    separator,
                    word: [&front, separating_word].concat(),
                })?;
            }
        }
    }
    ControlFlow::Continue(())
}

/// The words of a section, each once and at its first place.
fn first_places(words: &[Word]) -> Vec<(usize, &[Input])> {
    let mut seen = HashSet::new();
    let places = words.iter().map(Vec::as_slice).enumerate();
    places.filter(|(_, word)| seen.insert(*word)).collect()
}
