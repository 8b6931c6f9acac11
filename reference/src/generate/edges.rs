//! Short files that end at a limit of document 01, section "Sizes", and short texts at the limits of
//! document 02, L2.
//!
//! The number, count, length, input or next state that stands last is at its limit or one step
//! past it. What would follow does not matter: where it is good, the file is CUT SHORT.

use super::dossiers::{found, with_built_tests};
use super::{machines, text_case, text_limits, Case};
use crate::files::write_dossier;
use crate::sizes::{LONGEST_COVER_WORD, LONGEST_TEST, MOST_EXTRA_STATES, MOST_INPUTS, MOST_STATES};

/// The bytes that the numbers of a dossier take.
const NUMBERS: usize = 5;

/// The bytes that numbers and table take where there are two inputs and two states.
const NUMBERS_AND_TABLE: usize = 15;

/// An output that the unit of each of the texts has room in, but for those of four bits.
const ROOM_FOR_A_UNIT: usize = 20;

/// A section of words that holds the empty word only.
const EMPTY_WORD: [u8; 3] = [1, 0, 0];

/// A case for each such file. Before a unit or a sheet that ends so stands an accepted dossier;
/// the other files are empty.
pub fn edges() -> Vec<Case> {
    let good = write_dossier(&with_built_tests(found(machines::ring(2, 2), 0)));
    let case = |dossier, unit, sheet| Case {
        dossier,
        unit,
        sheet,
        ..Case::default()
    };
    let dossiers = dossiers(&good).into_iter();
    let dossiers = dossiers.map(|dossier| case(dossier, vec![], vec![]));
    let units = units().into_iter();
    let units = units.map(|unit| case(good.clone(), unit, vec![]));
    let sheets = words(&[], LONGEST_TEST).into_iter();
    let sheets = sheets.map(|sheet| case(good.clone(), vec![], sheet));
    let texts = text_limits::edges().into_iter();
    let texts = texts.map(|text| text_case(text, ROOM_FOR_A_UNIT));
    dossiers.chain(units).chain(sheets).chain(texts).collect()
}

fn dossiers(good: &[u8]) -> Vec<Vec<u8>> {
    let mut files = vec![vec![2, 0], vec![3, 0], vec![4, 0], vec![3, 1]];
    files.extend(around(1, MOST_INPUTS).map(|inputs| vec![3, 0, inputs]));
    files.extend(around(1, MOST_STATES).map(|states| vec![3, 0, 2, states]));
    for states in [1, 2, 59, 60, 61, MOST_STATES] {
        let bounds = around(states, (states + MOST_EXTRA_STATES).min(MOST_STATES));
        let bounds = bounds.chain([0, MOST_STATES, MOST_STATES + 1]);
        files.extend(bounds.map(|bound| vec![3, 0, 2, states, bound]));
    }
    files.extend(tables(&good[..NUMBERS]));
    let mut front = good[..NUMBERS_AND_TABLE].to_vec();
    for longest in [LONGEST_COVER_WORD, LONGEST_COVER_WORD, LONGEST_TEST] {
        files.extend(words(&front, longest));
        front.extend(EMPTY_WORD);
    }
    files
}

fn units() -> Vec<Vec<u8>> {
    let mut files = vec![vec![1, 0], vec![2, 0], vec![3, 0], vec![2, 1]];
    files.extend(around(1, MOST_INPUTS).map(|inputs| vec![2, 0, inputs]));
    files.extend(around(1, MOST_STATES).map(|states| vec![2, 0, 2, states]));
    files.extend(tables(&[2, 0, 2, 2]));
    files
}

/// The least and the most, and one step past each.
fn around(least: u8, most: u8) -> impl Iterator<Item = u8> {
    [least - 1, least, most, most + 1].into_iter()
}

/// Table counts and next states of a machine with two inputs and two states.
fn tables(front: &[u8]) -> Vec<Vec<u8>> {
    let ends: [&[u8]; 6] = [&[3, 0], &[4, 0], &[5, 0], &[4, 1], &[4, 0, 1], &[4, 0, 2]];
    ends.iter().map(|end| [front, end].concat()).collect()
}

/// Lengths and inputs of a section's first word, with two inputs.
fn words(front: &[u8], longest: u8) -> Vec<Vec<u8>> {
    let ends: [&[u8]; 4] = [&[longest], &[longest + 1], &[2, 1], &[2, 2]];
    ends.iter()
        .map(|end| [front, &[1, 0], end].concat())
        .collect()
}
