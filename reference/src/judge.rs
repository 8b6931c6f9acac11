//! The judge of answer sheets (document 01, section "Operations and answers").

use crate::check::read_accepted;
use crate::files::{place_of_test, read_sheet, Dossier, Sheet};
use crate::machine::{first_difference, Input, Output};
use crate::refusal::Refusal;
use std::collections::{HashMap, HashSet};
use std::ops::Range;

/// The judge's answers that are no refusal.
#[derive(Clone, Debug, PartialEq, Eq)]
pub enum JudgeAnswer {
    /// Each recorded answer is the golden's.
    Agrees,
    /// The first test in dossier order whose recorded answer isn't the golden's, the first
    /// differing step, and the bytes of the dossier that are the test's inputs.
    Deviates {
        test: usize,
        step: usize,
        word: Range<usize>,
    },
}

/// Judges a sheet, or refuses: all of check, the sheet's 1, 2, 5, 6, then 12, 13, 14.
pub fn judge(dossier: &[u8], sheet: &[u8]) -> Result<JudgeAnswer, Refusal> {
    let dossier = read_accepted(dossier)?;
    let sheet = read_sheet(sheet, dossier.golden.inputs)?;
    let recorded = pair(&dossier, &sheet)?;
    Ok(verdict(&dossier, &recorded))
}

/// The recorded answer of each test, in dossier order, or refusal 12, 13 or 14.
fn pair<'s>(dossier: &Dossier, sheet: &'s Sheet) -> Result<Vec<&'s [Output]>, Refusal> {
    let mut answers: HashMap<&[Input], &[Output]> = HashMap::new();
    for (place, record) in sheet.records.iter().enumerate() {
        if answers.insert(&record.word, &record.answer).is_some() {
            return Err(Refusal::Repeated { record: place });
        }
    }
    if let Some(record) = first_foreign(dossier, sheet) {
        return Err(Refusal::Foreign { record });
    }
    let tests = dossier.tests.iter().enumerate();
    tests
        .map(|(test, word)| {
            let answer = answers.get(word.as_slice());
            answer.copied().ok_or(Refusal::Absent { test })
        })
        .collect()
}

/// The first record whose word is no test.
fn first_foreign(dossier: &Dossier, sheet: &Sheet) -> Option<usize> {
    let tests: HashSet<_> = dossier.tests.iter().collect();
    let mut records = sheet.records.iter();
    records.position(|record| !tests.contains(&record.word))
}

/// Holds each test's recorded answer against the golden's.
fn verdict(dossier: &Dossier, recorded: &[&[Output]]) -> JudgeAnswer {
    for (test, (word, answer)) in dossier.tests.iter().zip(recorded).enumerate() {
        if let Some(step) = first_difference(&dossier.golden.answer(word), answer) {
            let start = place_of_test(dossier, test);
            let word = start..start + word.len();
            return JudgeAnswer::Deviates { test, step, word };
        }
    }
    JudgeAnswer::Agrees
}
