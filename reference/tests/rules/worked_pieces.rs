//! Each worked piece of document 01, starred or not, with the values that stand there.

use crate::common::*;
use reference::build::{build, built_bytes, Built};
use reference::check::{check, Accepted};
use reference::compare::{compare, CompareAnswer};
use reference::cost::{cost, Cost};
use reference::files::{read_dossier, write_dossier, write_sheet, write_unit, Dossier, Sheet};
use reference::judge::{judge, JudgeAnswer};
use reference::line::run_line;
use reference::machine::{GoldenState, Input, Word};
use reference::needed::go_through_needed;
use reference::refusal::{File, Refusal};
use reference::run::{run, RunAnswer};
use std::collections::BTreeSet;
use std::ops::ControlFlow;

fn needed_words(dossier: &Dossier) -> BTreeSet<Word> {
    let mut words = BTreeSet::new();
    let _ = go_through_needed(dossier, |needed| {
        words.insert(needed.word);
        ControlFlow::<()>::Continue(())
    });
    words
}

fn built_tests(dossier: &Dossier) -> Vec<Word> {
    let bytes = built_bytes(&write_dossier(dossier)).expect("a dossier that can be built");
    read_dossier(&bytes).expect("a well-formed dossier").tests
}

fn checked(dossier: &Dossier) -> Result<Accepted, Refusal> {
    check(&write_dossier(dossier))
}

/// MISSING of the first cover word, a middle and the first separating word.
fn missing_behind_first_words(middle: &str) -> Refusal {
    Refusal::Missing {
        cover: 0,
        middle: word(middle),
        separator: 0,
    }
}

#[test]
fn m_2_needs_and_builds() {
    let dossier = dossier_g(2, &[]);
    let needed = words(&["0", "00", "10", "100", "110"]);
    assert_eq!(needed_words(&dossier), BTreeSet::from_iter(needed));
    assert_eq!(built_tests(&dossier), words(&["00", "100", "110"]));
}

#[test]
fn m_2_is_the_37_bytes() {
    let mut output = [0xee; 40];
    let old = write_dossier(&dossier_g(2, &["1", "1", ""]));
    assert_eq!(build(&old, &mut output), Ok(Built { length: 37 }));
    assert_eq!(output[..37], dossier_37());
    assert_eq!(output[37..], [0xee; 3]);
}

#[test]
fn the_37_bytes_fit_37_and_not_36() {
    let mut output = [0xee; 37];
    assert_eq!(build(&dossier_37(), &mut output), Ok(Built { length: 37 }));
    assert_eq!(output[..], dossier_37());
    let mut short = [0xee; 36];
    let no_room = Err(Refusal::NoRoom { needed: 37 });
    assert_eq!(build(&dossier_37(), &mut short), no_room);
    assert_eq!(short, [0xee; 36]);
}

#[test]
fn the_37_bytes_are_accepted() {
    assert_eq!(check(&dossier_37()), Ok(Accepted));
    let dossier = read_dossier(&dossier_37());
    assert_eq!(dossier, Ok(dossier_g(2, &["00", "100", "110"])));
    let eight = Cost {
        tests: 3,
        inputs: 8,
    };
    assert_eq!(cost(&dossier_37()), Ok(eight));
}

#[test]
fn m_3_builds_54_bytes() {
    let dossier = dossier_g(3, &[]);
    let tests = words(&["000", "010", "1000", "1010", "1100", "1110"]);
    assert_eq!(built_tests(&dossier), tests);
    let bytes = built_bytes(&write_dossier(&dossier)).unwrap();
    assert_eq!(bytes.len(), 54);
    assert_eq!(bytes, dossier_54());
    assert_eq!(check(&bytes), Ok(Accepted));
}

#[test]
fn m_3_with_the_tests_of_m_2_is_missing() {
    let missing = missing_behind_first_words("00");
    let dossier = dossier_g(3, &["00", "100", "110"]);
    assert_eq!(checked(&dossier), Err(missing));
}

#[test]
fn m_3_with_the_test_00_alone_misses_middle_1() {
    let missing = missing_behind_first_words("1");
    assert_eq!(checked(&dossier_g(3, &["00"])), Err(missing));
}

#[test]
fn cover_without_the_empty_word_is_7() {
    let mut dossier = dossier_g(2, &["00", "100", "110"]);
    dossier.cover = words(&["1"]);
    assert_eq!(checked(&dossier), Err(Refusal::NoEmptyWord));
}

#[test]
fn cover_with_only_the_empty_word_is_8() {
    let mut dossier = dossier_g(2, &["00", "100", "110"]);
    dossier.cover = words(&[""]);
    let state = GoldenState(1);
    let file = File::Dossier;
    assert_eq!(checked(&dossier), Err(Refusal::Unreached { file, state }));
}

#[test]
fn separating_emptied_is_9() {
    let mut dossier = dossier_g(2, &["00", "100", "110"]);
    dossier.separating.clear();
    assert_eq!(checked(&dossier), Err(Refusal::NoSeparator));
}

#[test]
fn separating_only_1_is_10() {
    let mut dossier = dossier_g(2, &["00", "100", "110"]);
    dossier.separating = words(&["1"]);
    let refusal = Refusal::NotSeparated {
        first: GoldenState(0),
        second: GoldenState(1),
    };
    assert_eq!(checked(&dossier), Err(refusal));
}

#[test]
fn v_answers_the_tests_of_m_2_as_g_does() {
    assert_eq!(write_unit(&unit_v()), unit_v_bytes());
    for test in words(&["00", "100", "110"]) {
        assert_eq!(unit_v().answer(&test), golden_g().answer(&test));
    }
    assert_eq!(
        run(&dossier_37(), &unit_v_bytes()),
        Err(Refusal::TooManyStates)
    );
}

#[test]
fn v_fails_the_tests_of_m_3() {
    let fails = RunAnswer::Fails { test: 1, step: 2 };
    assert_eq!(run(&dossier_54(), &unit_v_bytes()), Ok(fails));
    assert_eq!(
        run_line(&dossier_54(), &unit_v_bytes()),
        "FAILS 1 2 010 1 0\n"
    );
}

#[test]
fn v_differs_by_010() {
    let mut output = [0xee; 5];
    let differs = CompareAnswer::Differs { length: 3 };
    for dossier in [dossier_37(), dossier_54()] {
        let answer = compare(&dossier, &unit_v_bytes(), &mut output);
        assert_eq!(answer, Ok(differs));
        assert_eq!(output, [0, 1, 0, 0xee, 0xee]);
    }
}

#[test]
fn one_state_builds_0_and_00() {
    assert_eq!(built_tests(&dossier_of_one_state(1, &[])), words(&["0"]));
    assert_eq!(built_tests(&dossier_of_one_state(2, &[])), words(&["00"]));
}

#[test]
fn one_state_with_separating_emptied_is_9() {
    let mut dossier = dossier_of_one_state(1, &["0"]);
    dossier.separating.clear();
    assert_eq!(checked(&dossier), Err(Refusal::NoSeparator));
    let mut output = [0xee; 99];
    let answer = build(&write_dossier(&dossier), &mut output);
    assert_eq!(answer, Err(Refusal::NoSeparator));
    assert_eq!(output, [0xee; 99]);
}

/// The slip of middles only up to m - n: with one state, m = 1 and the empty separator the empty
/// test alone is too little.
#[test]
fn one_state_with_the_empty_test_is_missing() {
    let missing = missing_behind_first_words("0");
    assert_eq!(checked(&dossier_of_one_state(1, &[""])), Err(missing));
}

fn judged(sheet: &Sheet) -> Result<JudgeAnswer, Refusal> {
    judge(&dossier_37(), &write_sheet(sheet))
}

#[test]
fn the_sheet_of_m_2_agrees_in_any_order() {
    let records: [(&str, &[u8]); 3] = [("00", &[0, 0]), ("100", &[0, 1, 0]), ("110", &[0, 0, 1])];
    for [a, b, c] in [
        [0, 1, 2],
        [0, 2, 1],
        [1, 0, 2],
        [1, 2, 0],
        [2, 0, 1],
        [2, 1, 0],
    ] {
        let ordered = sheet(&[records[a], records[b], records[c]]);
        assert_eq!(judged(&ordered), Ok(JudgeAnswer::Agrees));
    }
}

/// The part handed back is the word 100, which stands in the bytes 30 to 32 of the 37.
fn deviates_at_100() -> JudgeAnswer {
    assert_eq!(dossier_37()[30..33], [1, 0, 0]);
    JudgeAnswer::Deviates {
        test: 1,
        step: 1,
        word: 30..33,
    }
}

#[test]
fn the_last_two_answers_exchanged_deviate() {
    let right = sheet(&[("00", &[0, 0]), ("100", &[0, 1, 0]), ("110", &[0, 0, 1])]);
    let exchanged = sheet(&[("00", &[0, 0]), ("100", &[0, 0, 1]), ("110", &[0, 1, 0])]);
    let total = |sheet: &Sheet| -> u32 {
        let answers = sheet.records.iter().flat_map(|record| &record.answer);
        answers.map(|output| u32::from(output.0)).sum()
    };
    assert_eq!(total(&right), total(&exchanged));
    assert_eq!(judged(&right), Ok(JudgeAnswer::Agrees));
    assert_eq!(judged(&exchanged), Ok(deviates_at_100()));
}

#[test]
fn the_word_100_answered_0_0_0_deviates() {
    let wrong = sheet(&[("00", &[0, 0]), ("100", &[0, 0, 0]), ("110", &[0, 0, 1])]);
    assert_eq!(judged(&wrong), Ok(deviates_at_100()));
}

/// A dossier with so many states of one input, none of its words mattering to the reader.
fn dossier_with_states(states: u8, bound_byte: u8) -> Vec<u8> {
    write_dossier(&Dossier {
        golden: machine(1, &vec![(0, 0); usize::from(states)]),
        bound_byte,
        cover: vec![],
        separating: vec![],
        tests: vec![],
    })
}

#[test]
fn m_64_takes_n_60_and_not_59() {
    assert!(read_dossier(&dossier_with_states(60, 64)).is_ok());
    let bad = Refusal::BadNumbers(in_dossier(4));
    assert_eq!(read_dossier(&dossier_with_states(59, 64)), Err(bad));
}

#[test]
fn m_below_n_is_3_unless_its_byte_is_0() {
    let bad = Refusal::BadNumbers(in_dossier(4));
    for states in 2..=64 {
        let bytes = dossier_with_states(states, states - 1);
        assert_eq!(read_dossier(&bytes), Err(bad.clone()));
    }
    for states in 1..=64 {
        let dossier = read_dossier(&dossier_with_states(states, 0)).unwrap();
        assert_eq!((dossier.bound_byte, dossier.bound()), (0, states));
    }
}

#[test]
fn a_cover_word_has_97_inputs_and_not_98() {
    let mut dossier = dossier_g(2, &["00", "100", "110"]);
    dossier.cover.push(vec![Input(1); 97]);
    assert_eq!(read_dossier(&write_dossier(&dossier)), Ok(dossier.clone()));
    dossier.cover[2] = vec![Input(1); 98];
    // The section starts at byte 15; its third word after the count, the empty word and 1.
    let bad = Refusal::BadWord(in_dossier(20));
    assert_eq!(read_dossier(&write_dossier(&dossier)), Err(bad));
}

#[test]
fn byte_0_for_m_stays_when_built() {
    let mut dossier = dossier_g(0, &[]);
    dossier.separating = words(&["01"]);
    let bytes = built_bytes(&write_dossier(&dossier)).unwrap();
    assert_eq!((bytes.len(), bytes[4]), (48, 0));
    let tests = words(&["001", "01", "1001", "101", "1101"]);
    assert_eq!(read_dossier(&bytes).unwrap().tests, tests);
    assert_eq!(check(&bytes), Ok(Accepted));
}

#[test]
fn the_line_for_passes_and_refusals() {
    let golden_as_unit = hex("02 00 02 02 04 00 00 00 01 00 00 01 01 00");
    assert_eq!(run_line(&dossier_37(), &golden_as_unit), "PASSES 3\n");
    assert_eq!(run_line(&dossier_54(), &golden_as_unit), "PASSES 6\n");
    assert_eq!(run_line(&dossier_37(), &unit_v_bytes()), "REFUSED 16\n");
    assert_eq!(run_line(&[], &golden_as_unit), "REFUSED 2 D 0\n");
    assert_eq!(run_line(&dossier_37(), &[]), "REFUSED 2 U 0\n");
    assert_eq!(run_line(&dossier_37()[..36], &[]), "REFUSED 2 D 36\n");
    assert_eq!(run_line(&[0; 65_536], &[0; 65_536]), "REFUSED 1 D 0\n");
    assert_eq!(run_line(&dossier_37(), &[0; 65_536]), "REFUSED 1 U 0\n");
}

/// The word of a failing test is printed with one lower-case hex digit an input, and outputs in
/// decimal.
#[test]
fn the_line_for_sixteen_inputs() {
    let mut entries = [(0, 0); 16];
    entries[15] = (0, 255);
    let dossier = write_dossier(&Dossier {
        golden: machine(16, &entries),
        bound_byte: 1,
        cover: words(&[""]),
        separating: words(&[""]),
        tests: vec![],
    });
    let built = built_bytes(&dossier).unwrap();
    let mut unit = entries;
    unit[15] = (0, 100);
    let line = run_line(&built, &write_unit(&machine(16, &unit)));
    assert_eq!(line, "FAILS 15 0 f 255 100\n");
}
