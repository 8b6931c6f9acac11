//! The line that the program `run` prints (document 01, section "Worked pieces").

use crate::files::{Dossier, Unit};
use crate::machine::digits;
use crate::refusal::{File, Refusal};
use crate::run::{read_for_run, run_tests, RunAnswer};

/// The line for the bytes of the files `golden` and `unit`, its line feed included.
pub fn run_line(golden: &[u8], unit: &[u8]) -> String {
    match read_for_run(golden, unit) {
        Ok((dossier, unit)) => answer_line(&dossier, &unit),
        Err(refusal) => refusal_line(&refusal),
    }
}

/// `PASSES` and the test count; or `FAILS`, test place, step, test word, the golden's output
/// there and the unit's.
fn answer_line(dossier: &Dossier, unit: &Unit) -> String {
    match run_tests(dossier, unit) {
        RunAnswer::Passes { tests } => format!("PASSES {tests}\n"),
        RunAnswer::Fails { test, step } => {
            let word = &dossier.tests[test];
            let golden_output = dossier.golden.answer(word)[step].0;
            let unit_output = unit.answer(word)[step].0;
            let word = digits(word);
            format!("FAILS {test} {step} {word} {golden_output} {unit_output}\n")
        }
    }
}

/// `REFUSED` and the number, with for 1 to 6 the file's letter and the place.
fn refusal_line(refusal: &Refusal) -> String {
    let number = refusal.number();
    match refusal.place() {
        Some(place) => {
            let letter = if place.file == File::Unit { 'U' } else { 'D' };
            format!("REFUSED {number} {letter} {}\n", place.byte)
        }
        None => format!("REFUSED {number}\n"),
    }
}
