//! What holds for every file, tried on generated cases. Each property names the wrong program
//! that it would catch.

use crate::common::*;
use reference::build::{build, built_bytes};
use reference::check::{check, Accepted};
use reference::compare::{compare, compared, CompareAnswer};
use reference::cost::{cost, Cost};
use reference::files::{
    read_dossier, read_sheet, read_unit, write_dossier, write_sheet, write_unit, Dossier,
};
use reference::find::{find, found_bytes};
use reference::generate::{cases, edges, table_cases, text_cases, Case, Dice};
use reference::judge::{judge, JudgeAnswer};
use reference::kiss2::read_kiss2;
use reference::line::run_line;
use reference::machine::Word;
use reference::refusal::{File, Refusal};
use reference::run::{run, RunAnswer};
use std::collections::{BTreeMap, BTreeSet, HashSet};

/// Catches a generator that a fault could not be found with again.
#[test]
fn the_same_seed_gives_the_same_cases() {
    let once: Vec<Case> = cases(301, 200).collect();
    let again: Vec<Case> = cases(301, 200).collect();
    let other: Vec<Case> = cases(302, 200).collect();
    assert!(once == again);
    assert!(once != other);
    assert!(table_cases(301, 1_500) == table_cases(301, 1_500));
    assert!(table_cases(301, 1_500) != table_cases(302, 1_500));
    assert!(text_cases(301, 7) == text_cases(301, 7));
    assert!(text_cases(301, 7) != text_cases(302, 7));
}

/// Catches edges that stand on one side of their limits only: each is CUT SHORT at its end, or has
/// a fault before that, and every fault that a short file can end with is met.
#[test]
fn each_edge_is_cut_short_or_has_a_fault() {
    let mut met = HashSet::new();
    for edge in edges() {
        let unit = run(&edge.dossier, &edge.unit).unwrap_err();
        let sheet = judge(&edge.dossier, &edge.sheet).unwrap_err();
        for refusal in [unit, sheet] {
            let place = refusal.place().unwrap();
            let length = match place.file {
                File::Unit => edge.unit.len(),
                File::Sheet => edge.sheet.len(),
                _ => edge.dossier.len(),
            };
            assert_eq!(refusal.number() == 2, place.byte == length);
            met.insert((place.file, refusal.number()));
        }
    }
    let dossier = [2, 3, 4, 5].map(|number| (File::Dossier, number));
    let unit = [2, 3, 4].map(|number| (File::Unit, number));
    let sheet = [2, 5].map(|number| (File::Sheet, number));
    assert_eq!(met, dossier.into_iter().chain(unit).chain(sheet).collect());
}

/// Catches a builder whose tests are too few, too many, in another order or that touches the rest,
/// and a checker that refuses everything.
#[test]
fn built_dossiers_are_accepted_and_read_back() {
    let mut built = 0;
    for case in cases(303, 2_000) {
        let mut output = vec![0xee; 65_540];
        let Ok(answer) = build(&case.dossier, &mut output) else {
            continue;
        };
        let (bytes, rest) = output.split_at(answer.length);
        assert!(rest.iter().all(|&byte| byte == 0xee));
        assert_eq!(check(bytes), Ok(Accepted));
        let new = read_dossier(bytes).unwrap();
        let old = read_dossier(&case.dossier).unwrap();
        let tests = new.tests.clone();
        assert_eq!(new, Dossier { tests, ..old });
        let in_order = |two: &[Word]| two[0] < two[1] && !two[1].starts_with(&two[0]);
        assert!(new.tests.windows(2).all(in_order));
        assert_eq!(built_bytes(bytes).unwrap(), bytes);
        built += 1;
    }
    assert!(built > 900, "{built}");
}

/// Catches a checker that asks for more than the needed words, or for less: without any one of
/// its built tests a dossier is not accepted, and with all of them in any order it is.
#[test]
fn each_built_test_is_needed() {
    for case in cases(304, 400) {
        let Ok(bytes) = built_bytes(&case.dossier) else {
            continue;
        };
        let dossier = read_dossier(&bytes).unwrap();
        let mut dice = Dice::new(304, bytes.len() as u64);
        let mut weaker = dossier.clone();
        weaker.tests.remove(dice.below(dossier.tests.len()));
        let refusal = check(&write_dossier(&weaker)).unwrap_err();
        assert_eq!(refusal.number(), 11);
        let mut shuffled = dossier.clone();
        dice.shuffle(&mut shuffled.tests);
        assert_eq!(check(&write_dossier(&shuffled)), Ok(Accepted));
    }
}

/// The promise that the bureau sells: over an accepted dossier a unit with at most m states passes
/// exactly when it answers every word as the golden does. Catches a checker that accepts too
/// little, a run that passes what it should not, and a comparison with a constant verdict.
#[test]
fn passes_exactly_when_equal() {
    let (mut equal, mut differs) = (0, 0);
    for case in cases(305, 5_000) {
        let Ok(answer) = run(&case.dossier, &case.unit) else {
            continue;
        };
        let told = compared(&case.dossier, &case.unit).unwrap();
        let passes = matches!(answer, RunAnswer::Passes { .. });
        assert_eq!(passes, told.is_none());
        *(if passes { &mut equal } else { &mut differs }) += 1;
    }
    assert!(equal > 500 && differs > 500, "{equal} {differs}");
}

/// Catches a judge that goes by the order of records.
#[test]
fn the_order_of_records_never_matters() {
    let mut judged = BTreeMap::new();
    for (number, case) in cases(306, 4_000).enumerate() {
        let Ok(dossier) = read_dossier(&case.dossier) else {
            continue;
        };
        let Ok(mut sheet) = read_sheet(&case.sheet, dossier.golden.inputs) else {
            continue;
        };
        let answer = judge(&case.dossier, &case.sheet);
        Dice::new(306, number as u64).shuffle(&mut sheet.records);
        let shuffled = judge(&case.dossier, &write_sheet(&sheet));
        match (&answer, &shuffled) {
            (Err(one), Err(other)) => assert_eq!(one.number(), other.number()),
            _ => assert_eq!(answer, shuffled),
        }
        *judged.entry(name_of(&answer)).or_insert(0) += 1;
    }
    for name in ["Agrees", "Deviates", "12", "13", "14"] {
        assert!(judged[name] > 20, "{judged:?}");
    }
}

fn name_of(answer: &Result<JudgeAnswer, Refusal>) -> String {
    match answer {
        Ok(JudgeAnswer::Agrees) => "Agrees".to_string(),
        Ok(JudgeAnswer::Deviates { .. }) => "Deviates".to_string(),
        Err(refusal) => refusal.number().to_string(),
    }
}

/// Catches a reader that drops or changes anything, and a writer likewise.
#[test]
fn writing_after_reading_gives_the_same_bytes() {
    let (mut dossiers, mut units, mut sheets) = (0, 0, 0);
    for case in cases(307, 2_000) {
        if let Ok(dossier) = read_dossier(&case.dossier) {
            assert_eq!(write_dossier(&dossier), case.dossier);
            dossiers += 1;
        }
        if let Ok(unit) = read_unit(&case.unit) {
            assert_eq!(write_unit(&unit), case.unit);
            units += 1;
        }
        if let Ok(sheet) = read_sheet(&case.sheet, 16) {
            assert_eq!(write_sheet(&sheet), case.sheet);
            sheets += 1;
        }
    }
    assert!(dossiers > 1_000 && units > 1_000 && sheets > 1_000);
}

/// Files are read front to back: what a refusal 3 to 5 says is known when the byte that it names
/// is there (for a count, both its bytes), and without that byte the file is only cut short.
/// Catches a reader that looks ahead, and made-up places.
#[test]
fn a_refusal_depends_on_nothing_after_its_place() {
    let mut seen = BTreeMap::new();
    for case in cases(308, 6_000) {
        let inputs = read_dossier(&case.dossier).map_or(2, |dossier| dossier.golden.inputs);
        let refusals = [
            assert_front_to_back(&case.dossier, |bytes| read_dossier(bytes).err()),
            assert_front_to_back(&case.unit, |bytes| read_unit(bytes).err()),
            assert_front_to_back(&case.sheet, |bytes| read_sheet(bytes, inputs).err()),
        ];
        for refusal in refusals.into_iter().flatten() {
            let place = refusal.place().expect("reading gives 1 to 6");
            *seen
                .entry((place.file.to_string(), refusal.number()))
                .or_insert(0) += 1;
        }
    }
    assert_eq!(seen.len(), 6 + 5 + 4, "{seen:?}");
}

fn assert_front_to_back(
    bytes: &[u8],
    refused: impl Fn(&[u8]) -> Option<Refusal>,
) -> Option<Refusal> {
    let refusal = refused(bytes)?;
    let place = refusal.place().expect("reading gives 1 to 6");
    let cut_short = Some(Refusal::CutShort(place));
    match refusal.number() {
        1 => assert_eq!(place.byte, 0),
        2 => assert_eq!(place.byte, bytes.len()),
        6 => assert_eq!(refused(&bytes[..place.byte]), None),
        _ => {
            assert_eq!(refused(&bytes[..place.byte]), cut_short);
            let of_byte = refused(&bytes[..place.byte + 1]) == Some(refusal.clone());
            let of_count = || refused(&bytes[..place.byte + 2]) == Some(refusal.clone());
            assert!(of_byte || of_count());
        }
    }
    Some(refusal)
}

/// Each byte of the worked files set to each value, and each beginning of them, is answered.
/// Catches a program that stops on damaged files, and one that reads what it would not write.
#[test]
fn any_damage_to_the_worked_files_is_answered() {
    let sheet = write_sheet(&sheet(&[
        ("00", &[0, 0]),
        ("100", &[0, 1, 0]),
        ("110", &[0, 0, 1]),
    ]));
    for place in 0..37 {
        for byte in 0..=255 {
            let mut dossier = dossier_37();
            dossier[place] = byte;
            answer_all(&dossier, &unit_v_bytes(), &sheet);
            if let Ok(read) = read_dossier(&dossier) {
                assert_eq!(write_dossier(&read), dossier);
            }
            let mut unit = unit_v_bytes();
            unit[place % 18] = byte;
            let mut sheet = sheet.clone();
            let last = sheet.len() - 1;
            sheet[place.min(last)] = byte;
            answer_all(&dossier_54(), &unit, &sheet);
            answer_all(&dossier_37(), &unit, &sheet);
        }
        answer_all(&dossier_37()[..place], &unit_v_bytes(), &sheet);
    }
}

/// Gives every operation the same files.
fn answer_all(dossier: &[u8], unit: &[u8], sheet: &[u8]) {
    let mut output = [0; 99];
    let refusals = [
        check(dossier).err(),
        build(dossier, &mut output).err(),
        run(dossier, unit).err(),
        compare(dossier, unit, &mut output).err(),
        judge(dossier, sheet).err(),
        cost(dossier).err(),
        find(unit, 0, &mut output).err(),
    ];
    for refusal in refusals.into_iter().flatten() {
        assert!((1..=18).contains(&refusal.number()));
        assert!(refusal.to_string().starts_with("REFUSED "));
    }
    assert!(run_line(dossier, unit).ends_with('\n'));
}

/// Catches a builder, a comparison or a find that writes before it refuses, writes past its answer,
/// or gives NO ROOM wrongly.
#[test]
fn only_the_answer_is_written() {
    let mut wrote = [0; 2];
    for case in cases(309, 3_000) {
        let mut output = vec![0xee; case.output_length];
        let built = build(&case.dossier, &mut output).map(|built| built.length);
        let whole = built_bytes(&case.dossier);
        wrote[0] += usize::from(writes_the_whole_alone(built, whole, &output));
        let mut output = vec![0xee; case.output_length];
        let found = find(&case.unit, case.bound, &mut output).map(|found| found.length);
        let whole = found_bytes(&case.unit, case.bound);
        wrote[1] += usize::from(writes_the_whole_alone(found, whole, &output));
        assert_compare_writes_its_word_alone(&case);
    }
    assert!(
        wrote.iter().all(|&times| 300 < times && times < 2_700),
        "{wrote:?}"
    );
}

/// Whether an operation that answers a length wrote what it is to write; otherwise it wrote nothing.
fn writes_the_whole_alone(
    answer: Result<usize, Refusal>,
    whole: Result<Vec<u8>, Refusal>,
    output: &[u8],
) -> bool {
    let untouched = |bytes: &[u8]| bytes.iter().all(|&byte| byte == 0xee);
    match (&answer, whole) {
        (Ok(length), Ok(whole)) => {
            assert_eq!(*length, whole.len());
            assert_eq!(output[..*length], whole);
            assert!(untouched(&output[*length..]));
        }
        (Err(Refusal::NoRoom { needed }), Ok(whole)) => {
            assert_eq!(*needed, whole.len());
            assert!(output.len() < whole.len());
        }
        (Err(one), Err(other)) => assert_eq!(*one, other),
        other => panic!("{other:?}"),
    }
    assert!(answer.is_ok() || untouched(output));
    answer.is_ok()
}

fn assert_compare_writes_its_word_alone(case: &Case) {
    let mut output = vec![0xee; case.output_length];
    let word = match compare(&case.dossier, &case.unit, &mut output) {
        Ok(CompareAnswer::Differs { length }) => {
            let told = compared(&case.dossier, &case.unit).unwrap().unwrap();
            assert_eq!(told.len(), length);
            told
        }
        Ok(CompareAnswer::Equal) => Word::new(),
        Err(refusal) => {
            if let Refusal::NoRoom { needed } = refusal {
                assert!(case.output_length < needed);
            }
            Word::new()
        }
    };
    let (front, rest) = output.split_at(word.len());
    assert!(front
        .iter()
        .zip(&word)
        .all(|(byte, input)| *byte == input.0));
    assert!(rest.iter().all(|&byte| byte == 0xee));
}

/// The "Order." paragraph: each operation refuses what those before it in its order refuse, and
/// for the same reason. Catches an operation that has its own order or leaves a refusal out.
#[test]
fn the_operations_refuse_in_one_order() {
    for case in cases(310, 3_000) {
        let Case {
            dossier,
            unit,
            sheet,
            ..
        } = &case;
        let checked = check(dossier).err();
        let formed = read_dossier(dossier).err();
        let number = checked.as_ref().map_or(0, Refusal::number);
        assert_eq!(formed.is_some(), (1..=6).contains(&number));
        assert_eq!(cost(dossier).err(), formed);
        match (&checked, built_bytes(dossier)) {
            (Some(refusal), built) if number <= 10 => assert_eq!(built, Err(refusal.clone())),
            (_, Err(refusal)) => assert_eq!(refusal, Refusal::NoRoom { needed: 65_536 }),
            (_, Ok(_)) => {}
        }
        let run_refusal = checked
            .clone()
            .or_else(|| unit_refusal(dossier, unit, true));
        assert_eq!(run(dossier, unit).err(), run_refusal);
        let compare_refusal = formed.or_else(|| unit_refusal(dossier, unit, false));
        assert_eq!(compared(dossier, unit).err(), compare_refusal);
        let judge_refusal = judge(dossier, sheet).err();
        match checked {
            Some(refusal) => assert_eq!(judge_refusal, Some(refusal)),
            None => assert!(judge_refusal.is_none_or(|refusal| refusal.file() == File::Sheet)),
        }
    }
}

/// The unit's 1 to 6, then 15, then 16 where the bound counts.
fn unit_refusal(dossier: &[u8], unit: &[u8], bounded: bool) -> Option<Refusal> {
    let dossier = read_dossier(dossier).unwrap();
    let unit = match read_unit(unit) {
        Ok(unit) => unit,
        Err(refusal) => return Some(refusal),
    };
    if unit.inputs != dossier.golden.inputs {
        return Some(Refusal::OtherInputs);
    }
    let too_many = bounded && unit.states() > dossier.bound();
    too_many.then_some(Refusal::TooManyStates)
}

/// Catches a cost that is made up.
#[test]
fn cost_is_in_the_bytes() {
    for case in cases(311, 1_000) {
        let Ok(Cost { tests, inputs }) = cost(&case.dossier) else {
            continue;
        };
        let mut dossier = read_dossier(&case.dossier).unwrap();
        assert_eq!(tests, dossier.tests.len());
        dossier.tests.clear();
        let without_tests = write_dossier(&dossier).len();
        assert_eq!(case.dossier.len(), without_tests + tests + inputs);
    }
}

/// The line says what the run answers. Catches a line with another word, step or output.
#[test]
fn the_line_says_what_the_run_answers() {
    for case in cases(312, 2_000) {
        let line = run_line(&case.dossier, &case.unit);
        let parts: Vec<&str> = line.trim_end().split(' ').collect();
        match run(&case.dossier, &case.unit) {
            Ok(RunAnswer::Passes { tests }) => assert_eq!(line, format!("PASSES {tests}\n")),
            Ok(RunAnswer::Fails { test, step }) => {
                let dossier = read_dossier(&case.dossier).unwrap();
                assert_eq!(word(parts[3]), dossier.tests[test]);
                let golden = dossier.golden.answer(&dossier.tests[test])[step].0;
                let unit = read_unit(&case.unit).unwrap().answer(&dossier.tests[test])[step].0;
                assert_ne!(golden, unit);
                let word = parts[3];
                assert_eq!(
                    line,
                    format!("FAILS {test} {step} {word} {golden} {unit}\n")
                );
            }
            Err(refusal) => {
                let number = refusal.number().to_string();
                assert_eq!(parts[..2], ["REFUSED", number.as_str()]);
                assert_eq!(parts.len() == 4, refusal.number() <= 6);
            }
        }
    }
}

/// Everything that an operation can answer, by its name in this test.
fn answers(case: &Case) -> Vec<String> {
    let Case {
        dossier,
        unit,
        sheet,
        bound,
        output_length,
        text,
    } = case;
    let mut output = vec![0; *output_length];
    let named = |operation: &str, answer: Result<&str, Refusal>| match answer {
        Ok(name) => format!("{operation} {name}"),
        Err(refusal) => format!("{operation} {} {}", refusal.number(), refusal.file()),
    };
    let ran = run(dossier, unit).map(|answer| match answer {
        RunAnswer::Passes { .. } => "PASSES",
        RunAnswer::Fails { .. } => "FAILS",
    });
    let told = compare(dossier, unit, &mut output).map(|answer| match answer {
        CompareAnswer::Equal => "EQUAL",
        CompareAnswer::Differs { .. } => "DIFFERS",
    });
    let judged = judge(dossier, sheet).map(|answer| match answer {
        JudgeAnswer::Agrees => "AGREES",
        JudgeAnswer::Deviates { .. } => "DEVIATES",
    });
    vec![
        named("check", check(dossier).map(|_| "ACCEPTED")),
        named("build", build(dossier, &mut output).map(|_| "BUILT")),
        named("run", ran),
        named("compare", told),
        named("judge", judged),
        named("cost", cost(dossier).map(|_| "COST")),
        named("find", find(unit, *bound, &mut output).map(|_| "FOUND")),
        named("import", read_kiss2(text, &mut output).map(|_| "IMPORTED")),
    ]
}

/// Everything that the documents let the operations answer.
fn possible_answers() -> BTreeSet<String> {
    let mut names = BTreeSet::new();
    let mut add = |operation: &str, verdicts: &[&str], numbers: &[u8], file: &str| {
        names.extend(verdicts.iter().map(|name| format!("{operation} {name}")));
        names.extend(
            numbers
                .iter()
                .map(|number| format!("{operation} {number} {file}")),
        );
    };
    let eleven = [1, 2, 3, 4, 5, 6, 7, 8, 9, 10, 11];
    add("check", &["ACCEPTED"], &eleven, "dossier");
    add("build", &["BUILT"], &eleven[..10], "dossier");
    add("build", &[], &[17], "output");
    add("run", &["PASSES", "FAILS"], &eleven, "dossier");
    add("run", &[], &[1, 2, 3, 4, 6, 15, 16], "unit");
    add("compare", &["EQUAL", "DIFFERS"], &eleven[..6], "dossier");
    add("compare", &[], &[1, 2, 3, 4, 6, 15], "unit");
    add("compare", &[], &[17], "output");
    add("judge", &["AGREES", "DEVIATES"], &eleven, "dossier");
    add("judge", &[], &[1, 2, 5, 6, 12, 13, 14], "sheet");
    add("cost", &["COST"], &eleven[..6], "dossier");
    add("find", &["FOUND"], &[1, 2, 3, 4, 6, 8, 18], "unit");
    add("find", &[], &[3], "number");
    add("find", &[], &[17], "output");
    add("import", &["IMPORTED"], &[1, 19, 20, 21], "text");
    add("import", &[], &[17], "output");
    names
}

/// Catches a generator that never comes near a refusal, a verdict or a limit of document 01,
/// section "Sizes", and with it all properties that would hold because they were never tried; and
/// any answer that the documents do not know.
#[test]
fn the_generator_meets_every_answer_and_limit() {
    let mut answered: BTreeMap<String, usize> = BTreeMap::new();
    let mut limits: BTreeMap<&str, usize> = BTreeMap::new();
    let texts = (0..1_000).flat_map(|number| text_cases(313, number));
    for case in cases(313, 5_000).chain(texts) {
        for name in answers(&case) {
            *answered.entry(name).or_insert(0) += 1;
        }
        for limit in limits_met(&case) {
            *limits.entry(limit).or_insert(0) += 1;
        }
    }
    let names: BTreeSet<String> = answered.keys().cloned().collect();
    assert_eq!(names, possible_answers(), "{answered:?}");
    assert_eq!(limits.len(), 19, "{limits:?}");
}

/// The limits that a case sits at.
fn limits_met(case: &Case) -> Vec<&'static str> {
    let mut met = limits_of_sizes(case);
    if let Ok(dossier) = read_dossier(&case.dossier) {
        met.extend(limits_of_dossier(&dossier));
        met.extend(limits_of_sheet(case, dossier.golden.inputs));
    }
    if let Err(Refusal::BadWord(place)) = read_dossier(&case.dossier) {
        match case.dossier[place.byte] {
            98 => met.push("a cover word one input too long"),
            201 => met.push("a test one input too long"),
            _ => {}
        }
    }
    met
}

/// The limits that hold.
fn holding(limits: &[(bool, &'static str)]) -> Vec<&'static str> {
    let met = limits.iter().filter(|(holds, _)| *holds);
    met.map(|(_, limit)| *limit).collect()
}

fn limits_of_sizes(case: &Case) -> Vec<&'static str> {
    let built = built_bytes(&case.dossier);
    let no_room = matches!(built, Err(Refusal::NoRoom { .. }));
    let full = built.is_ok_and(|bytes| bytes.len() == 65_535);
    holding(&[
        (case.dossier.len() == 65_536, "a dossier one byte too long"),
        (case.unit.len() == 65_536, "a unit one byte too long"),
        (case.sheet.len() == 131_071, "a sheet one byte too long"),
        (full, "a full built dossier"),
        (no_room, "a built dossier over its size"),
    ])
}

fn limits_of_dossier(dossier: &Dossier) -> Vec<&'static str> {
    let longest = |words: &[Word]| words.iter().map(Word::len).max().unwrap_or(0);
    let (inputs, states) = (dossier.golden.inputs, dossier.golden.states());
    let bound = dossier.bound();
    holding(&[
        (write_dossier(dossier).len() == 65_535, "a full dossier"),
        (inputs == 16 && states == 64, "the largest table"),
        (states == 1, "one state"),
        (bound == states + 4, "four extra states"),
        (bound == 64 && states < 64, "the highest bound"),
        (dossier.bound_byte == 0, "the default bound"),
        (longest(&dossier.cover) == 97, "the longest cover word"),
        (
            longest(&dossier.separating) == 97,
            "the longest separating word",
        ),
        (longest(&dossier.tests) == 200, "the longest test"),
        (
            dossier.cover.len() > 1_000,
            "a cover with thousands of words",
        ),
    ])
}

fn limits_of_sheet(case: &Case, inputs: u8) -> Vec<&'static str> {
    let Ok(sheet) = read_sheet(&case.sheet, inputs) else {
        return Vec::new();
    };
    let mut lengths = sheet.records.iter().map(|record| record.word.len());
    holding(&[
        (case.sheet.len() == 131_070, "a full sheet"),
        (
            lengths.any(|length| length == 200),
            "the longest sheet word",
        ),
    ])
}
