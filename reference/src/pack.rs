//! Each answer packed into one number, as the product's interface for callers lays it out.
//!
//! Bits 0 to 4 hold the code, 5 to 7 the file that a refusal concerns, 8 to 31 the first value
//! and 32 to 55 the second. MISSING has three values and a layout of its own.

use crate::build::{build as build_dossier, Built};
use crate::check::{check as check_dossier, Accepted};
use crate::compare::{compare as compare_unit, CompareAnswer};
use crate::cost::{cost as cost_of, Cost};
use crate::find::{find as find_words, Found};
use crate::judge::{judge as judge_sheet, JudgeAnswer};
use crate::kiss2::{read_kiss2 as import_text, Imported};
use crate::machine::Input;
use crate::refusal::{File, Refusal};
use crate::run::{run as run_unit, RunAnswer};

/// The code of ACCEPTED, BUILT, PASSES, EQUAL, AGREES, FOUND, IMPORTED, a cost and a part of the
/// dossier.
const GOOD: u8 = 0;

/// The code of FAILS, DIFFERS and DEVIATES.
const BAD: u8 = 31;

/// Check: nothing besides the code.
pub fn check(dossier: &[u8]) -> u64 {
    match check_dossier(dossier) {
        Ok(Accepted) => values(GOOD, 0, 0),
        Err(refusal) => refused(&refusal),
    }
}

/// Build: the length.
pub fn build(dossier: &[u8], output: &mut [u8]) -> u64 {
    match build_dossier(dossier, output) {
        Ok(Built { length }) => values(GOOD, length, 0),
        Err(refusal) => refused(&refusal),
    }
}

/// Run: the count of tests, or test place and step.
pub fn run(dossier: &[u8], unit: &[u8]) -> u64 {
    match run_unit(dossier, unit) {
        Ok(RunAnswer::Passes { tests }) => values(GOOD, tests, 0),
        Ok(RunAnswer::Fails { test, step }) => values(BAD, test, step),
        Err(refusal) => refused(&refusal),
    }
}

/// Compare: the length of the telling word.
pub fn compare(dossier: &[u8], unit: &[u8], output: &mut [u8]) -> u64 {
    match compare_unit(dossier, unit, output) {
        Ok(CompareAnswer::Equal) => values(GOOD, 0, 0),
        Ok(CompareAnswer::Differs { length }) => values(BAD, length, 0),
        Err(refusal) => refused(&refusal),
    }
}

/// Judge: test place and step.
pub fn judge(dossier: &[u8], sheet: &[u8]) -> u64 {
    match judge_sheet(dossier, sheet) {
        Ok(JudgeAnswer::Agrees) => values(GOOD, 0, 0),
        Ok(JudgeAnswer::Deviates { test, step, .. }) => values(BAD, test, step),
        Err(refusal) => refused(&refusal),
    }
}

/// The part of the dossier that the judge hands back: its place and its length, both 0 where the
/// part is empty.
pub fn judge_word(dossier: &[u8], sheet: &[u8]) -> u64 {
    match judge_sheet(dossier, sheet) {
        Ok(JudgeAnswer::Deviates { word, .. }) => values(GOOD, word.start, word.len()),
        Ok(JudgeAnswer::Agrees) | Err(_) => values(GOOD, 0, 0),
    }
}

/// Cost: the count of tests and the sum of their lengths.
pub fn cost(dossier: &[u8]) -> u64 {
    match cost_of(dossier) {
        Ok(Cost { tests, inputs }) => values(GOOD, tests, inputs),
        Err(refusal) => refused(&refusal),
    }
}

/// Find: the length.
pub fn find(unit: &[u8], bound: u8, output: &mut [u8]) -> u64 {
    match find_words(unit, bound, output) {
        Ok(Found { length }) => values(GOOD, length, 0),
        Err(refusal) => refused(&refusal),
    }
}

/// Read KISS2: the length.
pub fn read_kiss2(text: &[u8], output: &mut [u8]) -> u64 {
    match import_text(text, output) {
        Ok(Imported { length }) => values(GOOD, length, 0),
        Err(refusal) => refused(&refusal),
    }
}

/// An answer that is no refusal.
fn values(code: u8, first: usize, second: usize) -> u64 {
    u64::from(code) | (first as u64) << 8 | (second as u64) << 32
}

/// A refusal: its number, its file and its values.
fn refused(refusal: &Refusal) -> u64 {
    let file = file_code(refusal.file()) << 5;
    let values = match refusal {
        Refusal::Missing {
            cover,
            middle,
            separator,
        } => missing_values(*cover, middle, *separator),
        other => {
            let (first, second) = two_values(other);
            values(0, first, second)
        }
    };
    u64::from(refusal.number()) | file | values
}

fn file_code(file: File) -> u64 {
    match file {
        File::Dossier => 1,
        File::Unit => 2,
        File::Sheet => 3,
        File::Output => 4,
        File::Text => 5,
        File::Number => 6,
    }
}

/// The first and the second value of a refusal other than MISSING; 0 where there is none.
fn two_values(refusal: &Refusal) -> (usize, usize) {
    match refusal {
        Refusal::Unreached { state, .. } => (usize::from(state.0), 0),
        Refusal::NotSeparated { first, second } | Refusal::NotReduced { first, second } => {
            (usize::from(first.0), usize::from(second.0))
        }
        Refusal::Repeated { record } | Refusal::Foreign { record } => (*record, 0),
        Refusal::Absent { test } => (*test, 0),
        Refusal::NoRoom { needed } => (*needed, 0),
        Refusal::BadLine { line } | Refusal::Contradiction { line } => (*line, 0),
        Refusal::Incomplete { state, input } => (usize::from(state.0), usize::from(input.0)),
        other => (other.place().map_or(0, |place| place.byte), 0),
    }
}

/// MISSING: the cover place from bit 8, the separator place from bit 24, the length of the middle
/// from bit 40, and its inputs from bit 43, four bits each and the first lowest.
fn missing_values(cover: usize, middle: &[Input], separator: usize) -> u64 {
    let inputs = middle.iter().rev();
    let digits = inputs.fold(0, |later, input| later << 4 | u64::from(input.0));
    (cover as u64) << 8 | (separator as u64) << 24 | (middle.len() as u64) << 40 | digits << 43
}
