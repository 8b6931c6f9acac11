//! The program against the documents' definitions, gone through without any short cut.
//!
//! The program skips words that repeat, looks beginnings up in a set and searches pairs of states.
//! Here every word is made, held against every other, and the first in order is taken. That is
//! slow, so only the small ones of the generated cases are tried.

use crate::common::*;
use reference::build::built_tests;
use reference::check::{check, check_cover_and_separators, Accepted};
use reference::compare::telling_word;
use reference::files::{read_dossier, read_sheet, read_unit, write_dossier, Dossier, Sheet, Unit};
use reference::find::found_bytes;
use reference::generate::{cases, table_cases};
use reference::judge::{judge, JudgeAnswer};
use reference::machine::{GoldenState, Input, Machine, UnitState, Word};
use reference::needed::middles;
use reference::refusal::{File, Place, Refusal};
use reference::run::{run_tests, RunAnswer};
use std::collections::BTreeSet;

/// All words of at most `longest` inputs: each is an input and then a shorter one.
fn all_words(inputs: u8, longest: u8) -> Vec<Word> {
    let mut words = vec![Word::new()];
    if longest > 0 {
        for shorter in all_words(inputs, longest - 1) {
            let longer = |input| [&[Input(input)], shorter.as_slice()].concat();
            words.extend((0..inputs).map(longer));
        }
    }
    words.sort_by_key(|word| (word.len(), word.clone()));
    words
}

/// Each needed word with its places, repeats included, in the checker's order.
fn all_needed(dossier: &Dossier) -> Vec<(usize, Word, usize, Word)> {
    let mut needed = Vec::new();
    let middles = all_words(dossier.golden.inputs, dossier.longest_middle());
    for (cover, cover_word) in dossier.cover.iter().enumerate() {
        for middle in &middles {
            for (separator, separating_word) in dossier.separating.iter().enumerate() {
                let word = [&cover_word[..], &middle[..], &separating_word[..]].concat();
                needed.push((cover, middle.clone(), separator, word));
            }
        }
    }
    needed
}

/// The count of needed words, repeats included, tells whether a dossier is small.
fn count_of_needed(dossier: &Dossier) -> usize {
    let inputs = usize::from(dossier.golden.inputs);
    let longest = u32::from(dossier.longest_middle());
    let middles: usize = (0..=longest).map(|length| inputs.pow(length)).sum();
    dossier.cover.len() * middles * dossier.separating.len()
}

fn small_dossiers(seed: u64, count: u64) -> impl Iterator<Item = (Vec<u8>, Dossier)> {
    cases(seed, count).filter_map(|case| {
        let dossier = read_dossier(&case.dossier).ok()?;
        let small = count_of_needed(&dossier) <= 800 && dossier.tests.len() <= 400;
        small.then_some((case.dossier, dossier))
    })
}

/// Refusals 7 to 11 as their table words them.
fn checked(dossier: &Dossier) -> Result<Accepted, Refusal> {
    let golden = &dossier.golden;
    if dossier.cover.iter().all(|word| !word.is_empty()) {
        return Err(Refusal::NoEmptyWord);
    }
    for state in golden.all_states() {
        if dossier
            .cover
            .iter()
            .all(|word| golden.reached(word) != state)
        {
            let file = File::Dossier;
            return Err(Refusal::Unreached { file, state });
        }
    }
    if dossier.separating.is_empty() {
        return Err(Refusal::NoSeparator);
    }
    for first in golden.all_states() {
        for second in golden.all_states().filter(|second| *second > first) {
            let alike =
                |word: &Word| golden.answer_from(first, word) == golden.answer_from(second, word);
            if dossier.separating.iter().all(alike) {
                return Err(Refusal::NotSeparated { first, second });
            }
        }
    }
    for (cover, middle, separator, word) in all_needed(dossier) {
        if !dossier.tests.iter().any(|test| test.starts_with(&word)) {
            return Err(Refusal::Missing {
                cover,
                middle,
                separator,
            });
        }
    }
    Ok(Accepted)
}

/// Catches a wrong order of places, a wrong skip of repeats, and middles that are too short.
#[test]
fn check_is_its_definition() {
    let mut numbers = [0; 12];
    for (bytes, dossier) in small_dossiers(101, 4_000) {
        let answer = check(&bytes);
        assert_eq!(answer, checked(&dossier));
        numbers[answer.map_or_else(|refusal| usize::from(refusal.number()), |_| 0)] += 1;
    }
    for number in [0, 7, 8, 9, 10, 11] {
        assert!(numbers[number] > 10, "{number}: {numbers:?}");
    }
}

/// Catches a builder that keeps beginnings or repeats, drops a needed word or sorts otherwise.
#[test]
fn build_is_its_definition() {
    let mut built = 0;
    for (_, dossier) in small_dossiers(102, 4_000) {
        if check_cover_and_separators(&dossier).is_err() {
            continue;
        }
        let needed: Vec<Word> = all_needed(&dossier)
            .into_iter()
            .map(|(.., word)| word)
            .collect();
        let begins_another = |word: &Word| {
            let longer = |other: &Word| other.len() > word.len() && other.starts_with(word);
            needed.iter().any(longer)
        };
        let mut tests: Vec<Word> = needed
            .iter()
            .filter(|word| !begins_another(word))
            .cloned()
            .collect();
        tests.sort();
        tests.dedup();
        assert_eq!(built_tests(&dossier), Ok(tests));
        built += 1;
    }
    assert!(built > 1_000, "{built}");
}

/// Catches a builder that gives up early. A separating word's beginnings add needed words but no
/// tests, so the tests stay those of the two words alone, and a dossier of nearly full size has
/// nearly as many needed words as bytes.
#[test]
fn build_goes_through_as_many_needed_words_as_can_fit() {
    let long_word = |step: usize| -> Word {
        let inputs = (0..94).map(|place| Input((place * step % 16) as u8));
        inputs.collect()
    };
    let two_words = Dossier {
        golden: machine(16, &[(0, 0); 16]),
        bound_byte: 2,
        cover: words(&[""]),
        separating: vec![long_word(3), long_word(5)],
        tests: vec![],
    };
    let mut with_beginnings = two_words.clone();
    for word in &two_words.separating {
        let beginnings = (0..word.len()).map(|length| word[..length].to_vec());
        with_beginnings.separating.extend(beginnings);
    }
    let needed: BTreeSet<Word> = all_needed(&with_beginnings)
        .into_iter()
        .map(|(.., word)| word)
        .collect();
    assert!(needed.len() > 50_000, "{}", needed.len());
    let tests = built_tests(&with_beginnings);
    assert!(tests.is_ok());
    assert_eq!(tests, built_tests(&two_words));
}

#[test]
fn middles_are_all_words_in_order() {
    for inputs in 1..=5 {
        for longest in 0..=4 {
            let lazily: Vec<Word> = middles(inputs, longest).collect();
            assert_eq!(lazily, all_words(inputs, longest));
        }
    }
}

fn machines(seed: u64, count: u64) -> impl Iterator<Item = (Dossier, Unit)> {
    cases(seed, count).filter_map(|case| {
        let dossier = read_dossier(&case.dossier).ok()?;
        let unit = read_unit(&case.unit).ok()?;
        (dossier.golden.inputs == unit.inputs).then_some((dossier, unit))
    })
}

/// Catches a search that stops early, takes a longer word, or a later one of the same length.
/// Two machines that differ at all differ within n + u - 1 inputs.
#[test]
fn compare_is_its_definition() {
    let (mut equal, mut differs) = (0, 0);
    for (dossier, unit) in machines(103, 4_000) {
        let golden = &dossier.golden;
        let longest = golden.states() + unit.states() - 1;
        if u32::from(golden.inputs)
            .checked_pow(u32::from(longest))
            .is_none_or(|words| words > 5_000)
        {
            continue;
        }
        let words = all_words(golden.inputs, longest);
        let first = words
            .into_iter()
            .find(|word| golden.answer(word) != unit.answer(word));
        let told = telling_word(golden, GoldenState(0), &unit, UnitState(0));
        assert_eq!(told, first);
        *(if told.is_some() {
            &mut differs
        } else {
            &mut equal
        }) += 1;
    }
    assert!(equal > 300 && differs > 300, "{equal} {differs}");
}

/// Find as document 02, L1, words it, gone through word by word. Where a word reaches a state, or
/// tells two apart, one of at most n - 1 inputs does.
fn found(unit: &Unit, bound: u8) -> Result<Vec<u8>, Refusal> {
    let golden: Machine<GoldenState> = unit.over_states();
    let (file, states) = (File::Unit, golden.states());
    if bound != 0 && (bound < states || bound > 64 || bound - states > 4) {
        let place = Place {
            file: File::Number,
            byte: 0,
        };
        return Err(Refusal::BadNumbers(place));
    }
    let all = all_words(golden.inputs, states - 1);
    let first = |good: &dyn Fn(&Word) -> bool| all.iter().find(|word| good(word)).cloned();
    let mut cover = Vec::new();
    for state in golden.all_states() {
        let access = first(&|word| golden.reached(word) == state);
        cover.push(access.ok_or(Refusal::Unreached { file, state })?);
    }
    let mut separating = Vec::new();
    for first_state in golden.all_states() {
        for second in golden.all_states().skip(usize::from(first_state.0) + 1) {
            let telling = first(&|word| {
                golden.answer_from(first_state, word) != golden.answer_from(second, word)
            });
            separating.push(telling.ok_or(Refusal::NotReduced {
                first: first_state,
                second,
            })?);
        }
    }
    if states == 1 {
        separating.push(Word::new());
    }
    let kept = |place: usize| !separating[..place].contains(&separating[place]);
    let kept = (0..separating.len()).filter(|&place| kept(place));
    Ok(write_dossier(&Dossier {
        golden,
        bound_byte: bound,
        cover,
        separating: kept.map(|place| separating[place].clone()).collect(),
        tests: Vec::new(),
    }))
}

/// Catches a find that takes a longer word, or a later one of the same length, another order of
/// states or pairs, a word twice, and 18 before 8.
#[test]
fn find_is_its_definition() {
    let mut numbers = [0; 19];
    for number in 0..8_000 {
        let case = table_cases(106, number).swap_remove(0);
        let Ok(unit) = read_unit(&case.unit) else {
            continue;
        };
        let longest = u32::from(unit.states() - 1);
        let words = u32::from(unit.inputs).checked_pow(longest);
        if longest > 20 || words.is_none_or(|words| words > 5_000) {
            continue;
        }
        let answer = found_bytes(&case.unit, case.bound);
        assert_eq!(answer, found(&unit, case.bound));
        numbers[answer.map_or_else(|refusal| usize::from(refusal.number()), |_| 0)] += 1;
    }
    for number in [0, 3, 8, 18] {
        assert!(numbers[number] > 100, "{number}: {numbers:?}");
    }
}

/// Catches a run that looks at the first test only, at last outputs only, or at output totals.
#[test]
fn run_is_its_definition() {
    let (mut passes, mut fails) = (0, 0);
    for (dossier, unit) in machines(104, 3_000) {
        let golden = &dossier.golden;
        let alike = |word: &[Input]| golden.answer(word) == unit.answer(word);
        match run_tests(&dossier, &unit) {
            RunAnswer::Passes { tests } => {
                assert!(dossier.tests.iter().all(|word| alike(word)));
                assert_eq!(tests, dossier.tests.len());
                passes += 1;
            }
            RunAnswer::Fails { test, step } => {
                assert!(dossier.tests[..test].iter().all(|word| alike(word)));
                assert!(alike(&dossier.tests[test][..step]));
                assert!(!alike(&dossier.tests[test][..step + 1]));
                fails += 1;
            }
        }
    }
    assert!(passes > 300 && fails > 300, "{passes} {fails}");
}

/// The judge's answer without the part of the dossier: place and step.
fn judged(dossier: &Dossier, sheet: &Sheet) -> Result<Option<(usize, usize)>, Refusal> {
    let records = &sheet.records;
    for place in 0..records.len() {
        let earlier = &records[..place];
        if earlier
            .iter()
            .any(|other| other.word == records[place].word)
        {
            return Err(Refusal::Repeated { record: place });
        }
    }
    let foreign = |word| dossier.tests.iter().all(|test| test != word);
    if let Some(record) = records.iter().position(|record| foreign(&record.word)) {
        return Err(Refusal::Foreign { record });
    }
    let recorded = |test: &Word| records.iter().find(|record| record.word == *test);
    if let Some(test) = dossier
        .tests
        .iter()
        .position(|test| recorded(test).is_none())
    {
        return Err(Refusal::Absent { test });
    }
    for (place, test) in dossier.tests.iter().enumerate() {
        let answer = dossier.golden.answer(test);
        let record = recorded(test).expect("no test is absent");
        for (step, output) in record.answer.iter().enumerate() {
            if *output != answer[step] {
                return Ok(Some((place, step)));
            }
        }
    }
    Ok(None)
}

/// Catches a wrong order of 12, 13 and 14, wrong places, and a judge of totals or last outputs.
#[test]
fn judge_is_its_definition() {
    let mut seen = [0; 5];
    for case in cases(105, 6_000) {
        let Ok(dossier) = read_dossier(&case.dossier) else {
            continue;
        };
        let Ok(sheet) = read_sheet(&case.sheet, dossier.golden.inputs) else {
            continue;
        };
        if check(&case.dossier).is_err() || sheet.records.len() > 400 {
            continue;
        }
        let right = judged(&dossier, &sheet);
        match judge(&case.dossier, &case.sheet) {
            Ok(JudgeAnswer::Agrees) => assert_eq!(right, Ok(None)),
            Ok(JudgeAnswer::Deviates { test, step, word }) => {
                assert_eq!(right, Ok(Some((test, step))));
                let handed_back: Vec<Input> =
                    case.dossier[word].iter().copied().map(Input).collect();
                assert_eq!(handed_back, dossier.tests[test]);
            }
            Err(refusal) => assert_eq!(right, Err(refusal)),
        }
        let place = match right {
            Ok(verdict) => usize::from(verdict.is_some()),
            Err(refusal) => usize::from(refusal.number()) - 10,
        };
        seen[place] += 1;
    }
    assert!(seen.iter().all(|&count| count > 20), "{seen:?}");
}
