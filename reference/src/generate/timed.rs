//! Dossiers, units, sheets, bare tables and texts to time the operations on: built dossiers of several
//! sizes, and the worst that could be thought of.

use super::dossiers::found;
use super::{machines, sheets, texts, units, worst, Dice};
use crate::build::built_tests;
use crate::files::{write_dossier, write_sheet, write_unit, Dossier};
use crate::sizes::{MOST_EXTRA_STATES, MOST_STATES};

/// A dossier and what it is, a unit that passes all its tests, a sheet that agrees with all, so
/// that none is left out, and the golden as a bare table and as a text.
#[derive(Clone)]
pub struct Timed {
    pub name: String,
    pub dossier: Vec<u8>,
    pub unit: Vec<u8>,
    pub sheet: Vec<u8>,
    pub table: Vec<u8>,
    pub text: Vec<u8>,
}

impl Timed {
    /// With the largest unit that is the golden's equal, and the golden's answers in any order.
    pub fn new(name: String, dossier: &Dossier) -> Timed {
        let mut dice = Dice::new(1, 1);
        let unit = units::largest_equal(&mut dice, dossier);
        let sheet = sheets::shuffled(&mut dice, dossier);
        let table = dossier.golden.over_states();
        Timed {
            name,
            dossier: write_dossier(dossier),
            unit: write_unit(&unit),
            sheet: write_sheet(&sheet),
            table: write_unit(&table),
            text: texts::plain(&table),
        }
    }
}

/// The sizes of the built dossiers: a name, and the least and the most bytes.
const SIZES: [(&str, usize, usize); 3] = [
    ("1 KB", 900, 1_100),
    ("8 KB", 7_500, 8_500),
    ("60 KB", 56_000, 65_535),
];

/// How many machines with as many states are tried.
const TRIES: u64 = 4;

/// All of them, always the same.
pub fn timed() -> Vec<Timed> {
    let mut all = Vec::new();
    for (size, least, most) in SIZES {
        for inputs in [2, 4, 16] {
            for extra in 0..=MOST_EXTRA_STATES {
                let name = format!("built, {size}, k = {inputs}, m = n + {extra}");
                let built = built(inputs, extra, least, most);
                all.extend(built.map(|dossier| Timed::new(name, &dossier)));
            }
        }
    }
    all.extend(worst::worst());
    all
}

/// A built dossier of a size over a random machine, if one is found: with two inputs and a low
/// bound all are smaller, with sixteen and a high bound all are larger.
fn built(inputs: u8, extra: u8, least: usize, most: usize) -> Option<Dossier> {
    for states in 1..=MOST_STATES {
        let mut lengths = Vec::new();
        for number in 0..TRIES {
            let dossier = built_of(inputs, states, extra, number);
            let length = dossier.as_ref().map_or(usize::MAX, length);
            if (least..=most).contains(&length) {
                return dossier;
            }
            lengths.push(length);
        }
        if lengths.iter().all(|&length| length > most) {
            return None;
        }
    }
    None
}

fn length(dossier: &Dossier) -> usize {
    write_dossier(dossier).len()
}

fn built_of(inputs: u8, states: u8, extra: u8, number: u64) -> Option<Dossier> {
    let mut dice = Dice::new(number, u64::from(states));
    let golden = machines::random(&mut dice, inputs, states, 2);
    let dossier = found(machines::reduced(&golden), extra);
    let tests = built_tests(&dossier).ok()?;
    Some(Dossier { tests, ..dossier })
}
