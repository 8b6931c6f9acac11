//! The run of a unit over a dossier's tests (document 01, section "Operations and answers").

use crate::check::read_accepted;
use crate::files::{read_unit, Dossier, Unit};
use crate::machine::first_difference;
use crate::refusal::Refusal;

/// The run's answers that are no refusal.
#[derive(Clone, Copy, Debug, PartialEq, Eq)]
pub enum RunAnswer {
    /// All tests, of which there are this many, are answered as the golden does.
    Passes { tests: usize },
    /// The first test in dossier order whose answer differs, and the first step that differs.
    Fails { test: usize, step: usize },
}

/// Runs a unit over a dossier's tests, or refuses: all of check, the unit's 1 to 6, 15, 16.
pub fn run(dossier: &[u8], unit: &[u8]) -> Result<RunAnswer, Refusal> {
    let (dossier, unit) = read_for_run(dossier, unit)?;
    Ok(run_tests(&dossier, &unit))
}

/// The dossier and the unit from their bytes, once nothing refuses the run.
pub fn read_for_run(dossier: &[u8], unit: &[u8]) -> Result<(Dossier, Unit), Refusal> {
    let dossier = read_accepted(dossier)?;
    let unit = read_unit(unit)?;
    if unit.inputs != dossier.golden.inputs {
        return Err(Refusal::OtherInputs);
    }
    if unit.states() > dossier.bound() {
        return Err(Refusal::TooManyStates);
    }
    Ok((dossier, unit))
}

/// Runs the tests in dossier order.
pub fn run_tests(dossier: &Dossier, unit: &Unit) -> RunAnswer {
    for (test, word) in dossier.tests.iter().enumerate() {
        let golden_answer = dossier.golden.answer(word);
        if let Some(step) = first_difference(&golden_answer, &unit.answer(word)) {
            return RunAnswer::Fails { test, step };
        }
    }
    RunAnswer::Passes {
        tests: dossier.tests.len(),
    }
}
