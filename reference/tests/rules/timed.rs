//! The dossiers to time the operations on, and the program that writes them.

use crate::common::told;
use reference::check::check;
use reference::files::{read_dossier, write_sheet};
use reference::generate::{worst, wrong_at_the_end, Dice};
use reference::judge::{judge, JudgeAnswer};
use reference::refusal::Refusal;
use reference::sizes::MOST_SHEET_BYTES;
use std::process::Command;

/// Catches a dossier that is refused before the work that it was made for.
#[test]
fn the_worst_dossiers_get_as_far_as_their_tests() {
    for timed in worst() {
        let answer = check(&timed.dossier);
        let tests_searched = matches!(answer, Ok(_) | Err(Refusal::Missing { .. }));
        assert!(tests_searched, "{}: {answer:?}", timed.name);
    }
}

/// Catches a sheet that is refused before all its records were looked at.
#[test]
fn the_worst_sheets_are_judged_to_their_end() {
    for timed in worst() {
        let judged = judge(&timed.dossier, &timed.sheet);
        match check(&timed.dossier) {
            Ok(_) if timed.sheet.len() == MOST_SHEET_BYTES => {
                assert!(matches!(judged, Err(Refusal::Foreign { .. })));
            }
            Ok(_) => assert_eq!(judged, Ok(JudgeAnswer::Agrees), "{}", timed.name),
            Err(refusal) => assert_eq!(judged, Err(refusal), "{}", timed.name),
        }
    }
    assert!(worst()
        .iter()
        .any(|timed| timed.sheet.len() == MOST_SHEET_BYTES));
}

/// Catches a wrong sheet that is refused for something else than what is wrong with it.
#[test]
fn sheets_that_are_wrong_at_their_end_are_told_so() {
    let accepted = worst()
        .into_iter()
        .rfind(|timed| check(&timed.dossier).is_ok());
    let bytes = accepted.unwrap().dossier;
    let dossier = read_dossier(&bytes).unwrap();
    let sheets = wrong_at_the_end(&mut Dice::new(1, 1), &dossier);
    let last = sheets[0].records.len();
    let judged = sheets
        .iter()
        .map(|sheet| judge(&bytes, &write_sheet(sheet)));
    let judged: Vec<_> = judged.collect();
    let [agreeing, repeated, foreign, absent, deviating] = judged.as_slice() else {
        panic!("five sheets");
    };
    assert_eq!(agreeing, &Ok(JudgeAnswer::Agrees));
    assert_eq!(repeated, &Err(Refusal::Repeated { record: last }));
    assert_eq!(foreign, &Err(Refusal::Foreign { record: last }));
    assert!(matches!(absent, Err(Refusal::Absent { .. })));
    assert!(matches!(deviating, Ok(JudgeAnswer::Deviates { .. })));
}

#[test]
fn wrong_usage_of_timed_is_told() {
    for arguments in [&[][..], &["one", "two"]] {
        let mut timed = Command::new(env!("CARGO_BIN_EXE_timed"));
        let output = timed.args(arguments).output().unwrap();
        assert!(told(&output, 2).starts_with("usage: timed FOLDER"));
    }
}

#[test]
fn a_folder_that_is_not_there_is_told() {
    let mut timed = Command::new(env!("CARGO_BIN_EXE_timed"));
    let output = timed.arg("no-such-folder").output().unwrap();
    assert!(told(&output, 1).starts_with("timed: a file cannot be written"));
}
