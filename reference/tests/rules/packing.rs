//! The packed answers: worked values, and every generated answer unpacked again.

use crate::common::*;
use reference::build::build;
use reference::check::check;
use reference::compare::{compare, CompareAnswer};
use reference::cost::cost;
use reference::files::{write_dossier, write_sheet, write_unit, Dossier};
use reference::find::find;
use reference::generate::{cases, table_cases, text_cases, Case};
use reference::judge::{judge, JudgeAnswer};
use reference::kiss2::read_kiss2;
use reference::machine::{Input, Word};
use reference::needed::go_through_needed;
use reference::pack;
use reference::refusal::{File, Refusal};
use reference::run::{run, RunAnswer};
use std::ops::ControlFlow;

/// The bits of a packed answer from one to another, both included.
fn bits(packed: u64, from: u32, to: u32) -> u64 {
    (packed >> from) & ((1 << (to - from + 1)) - 1)
}

#[test]
fn worked_values() {
    let weak = write_dossier(&dossier_g(3, &["00", "100", "110"]));
    assert_eq!(pack::check(&dossier_37()), 0);
    assert_eq!(pack::check(&weak), 11 | 1 << 5 | 2 << 40);
    assert_eq!(pack::build(&dossier_37(), &mut [0; 37]), 37 << 8);
    assert_eq!(
        pack::build(&dossier_37(), &mut [0; 36]),
        17 | 4 << 5 | 37 << 8
    );
    assert_eq!(
        pack::run(&dossier_54(), &unit_v_bytes()),
        31 | 1 << 8 | 2 << 32
    );
    assert_eq!(pack::run(&dossier_37(), &unit_v_bytes()), 16 | 2 << 5);
    assert_eq!(pack::run(&dossier_37(), &[2]), 2 | 2 << 5 | 1 << 8);
    let differs = pack::compare(&dossier_37(), &unit_v_bytes(), &mut [0; 3]);
    assert_eq!(differs, 31 | 3 << 8);
    assert_eq!(pack::cost(&dossier_37()), 3 << 8 | 8 << 32);
    assert_eq!(pack::cost(&[]), 2 | 1 << 5);
}

#[test]
fn worked_values_of_the_judge() {
    let right = write_sheet(&sheet(&[
        ("110", &[0, 0, 1]),
        ("100", &[0, 1, 0]),
        ("00", &[0, 0]),
    ]));
    assert_eq!(pack::judge(&dossier_37(), &right), 0);
    assert_eq!(pack::judge_word(&dossier_37(), &right), 0);
    let wrong = write_sheet(&sheet(&[
        ("110", &[0, 0, 1]),
        ("100", &[0, 0, 0]),
        ("00", &[0, 0]),
    ]));
    assert_eq!(pack::judge(&dossier_37(), &wrong), 31 | 1 << 8 | 1 << 32);
    assert_eq!(pack::judge_word(&dossier_37(), &wrong), 30 << 8 | 3 << 32);
    let absent = write_sheet(&sheet(&[("00", &[0, 0])]));
    assert_eq!(pack::judge(&dossier_37(), &absent), 14 | 3 << 5 | 1 << 8);
    assert_eq!(pack::judge_word(&dossier_37(), &absent), 0);
    assert_eq!(pack::judge_word(&[], &[]), 0);
}

#[test]
fn worked_values_of_find() {
    let with = |table: &[u8], bound, room| pack::find(table, bound, &mut vec![0; room]);
    assert_eq!(with(&table_g_bytes(), 0, 26), 26 << 8);
    assert_eq!(with(&table_g_bytes(), 0, 25), 17 | 4 << 5 | 26 << 8);
    assert_eq!(with(&table_g_bytes(), 1, 26), 3 | 6 << 5);
    assert_eq!(with(&[2, 0, 17], 0, 26), 3 | 2 << 5 | 2 << 8);
    let unreached = write_unit(&machine(1, &[(1, 0), (0, 0), (0, 1), (0, 2)]));
    assert_eq!(with(&unreached, 0, 40), 8 | 2 << 5 | 2 << 8);
    let alike = write_unit(&machine(1, &[(1, 0), (2, 1), (3, 1), (1, 1)]));
    assert_eq!(with(&alike, 0, 40), 18 | 2 << 5 | 1 << 8 | 2 << 32);
}

#[test]
fn worked_values_of_read_kiss2() {
    let with = |text: &str, room| pack::read_kiss2(text.as_bytes(), &mut vec![0; room]);
    assert_eq!(with(TEXT_G, 14), 14 << 8);
    assert_eq!(with(TEXT_G, 13), 17 | 4 << 5 | 14 << 8);
    assert_eq!(with("", 13), 19 | 5 << 5 | 1 << 8);
    assert_eq!(with(&"\n".repeat(65_535), 13), 19 | 5 << 5 | 65_536 << 8);
    assert_eq!(with(&"\n".repeat(65_536), 13), 1 | 5 << 5);
    let contradicted = TEXT_G.replace("1 low high 0", "0 low high 0");
    assert_eq!(with(&contradicted, 13), 20 | 5 << 5 | 8 << 8);
    let incomplete = TEXT_G.replace("1 high high 0", "0 high low 1");
    assert_eq!(with(&incomplete, 13), 21 | 5 << 5 | 1 << 8 | 1 << 32);
}

/// MISSING with three values that differ: cover 1, middle 3a and separator 1 of sixteen inputs.
#[test]
fn missing_has_its_own_layout() {
    let mut dossier = Dossier {
        golden: machine(16, &[(0, 0); 16]),
        bound_byte: 2,
        cover: words(&["", "f"]),
        separating: words(&["", "e"]),
        tests: vec![],
    };
    let mut tests: Vec<Word> = Vec::new();
    let _ = go_through_needed(&dossier, |needed| {
        tests.push(needed.word);
        ControlFlow::<()>::Continue(())
    });
    tests.retain(|test| *test != word("f3ae"));
    dossier.tests = tests;
    let packed = pack::check(&write_dossier(&dossier));
    let inputs = 0x3 | 0xa << 4;
    assert_eq!(
        packed,
        11 | 1 << 5 | 1 << 8 | 1 << 24 | 2 << 40 | inputs << 43
    );
}

/// The answer that the bits stand for, written apart from how they are packed.
#[derive(Debug, PartialEq, Eq)]
enum Unpacked {
    Good(u64, u64),
    Bad(u64, u64),
    Refused(Refusal),
}

fn unpacked(packed: u64) -> Unpacked {
    let (first, second) = (bits(packed, 8, 31), bits(packed, 32, 55));
    let code = bits(packed, 0, 4) as u8;
    if code == 11 {
        assert_eq!((bits(packed, 5, 7), bits(packed, 63, 63)), (1, 0));
        return Unpacked::Refused(unpacked_missing(packed));
    }
    assert_eq!(bits(packed, 56, 63), 0);
    if code == 0 || code == 31 {
        assert_eq!(bits(packed, 5, 7), 0);
        let answer = if code == 0 {
            Unpacked::Good
        } else {
            Unpacked::Bad
        };
        return answer(first, second);
    }
    let file = match bits(packed, 5, 7) {
        1 => File::Dossier,
        2 => File::Unit,
        3 => File::Sheet,
        4 => File::Output,
        5 => File::Text,
        6 => File::Number,
        other => panic!("{other} is no file"),
    };
    let refusal = unpacked_refusal(code, file, first as usize, second as u8);
    assert_eq!(refusal.file(), file);
    Unpacked::Refused(refusal)
}

fn unpacked_missing(packed: u64) -> Refusal {
    let length = bits(packed, 40, 42) as u32;
    let input = |place| bits(packed, 43 + 4 * place, 46 + 4 * place) as u8;
    Refusal::Missing {
        cover: bits(packed, 8, 23) as usize,
        middle: (0..length).map(|place| Input(input(place))).collect(),
        separator: bits(packed, 24, 39) as usize,
    }
}

fn unpacked_refusal(code: u8, file: File, first: usize, second: u8) -> Refusal {
    use reference::machine::{GoldenState, UnitState};
    let place = reference::refusal::Place { file, byte: first };
    match code {
        1 => Refusal::TooLong(place),
        2 => Refusal::CutShort(place),
        3 => Refusal::BadNumbers(place),
        4 => Refusal::BadTable(place),
        5 => Refusal::BadWord(place),
        6 => Refusal::Trailing(place),
        7 => Refusal::NoEmptyWord,
        8 => Refusal::Unreached {
            file,
            state: GoldenState(first as u8),
        },
        9 => Refusal::NoSeparator,
        10 => Refusal::NotSeparated {
            first: GoldenState(first as u8),
            second: GoldenState(second),
        },
        12 => Refusal::Repeated { record: first },
        13 => Refusal::Foreign { record: first },
        14 => Refusal::Absent { test: first },
        15 => Refusal::OtherInputs,
        16 => Refusal::TooManyStates,
        17 => Refusal::NoRoom { needed: first },
        18 => Refusal::NotReduced {
            first: GoldenState(first as u8),
            second: GoldenState(second),
        },
        19 => Refusal::BadLine { line: first },
        20 => Refusal::Contradiction { line: first },
        21 => Refusal::Incomplete {
            state: UnitState(first as u8),
            input: Input(second),
        },
        other => panic!("{other} is no code"),
    }
}

/// What an operation answered, in the shape of an unpacked answer.
fn shaped<Answer>(
    answer: Result<Answer, Refusal>,
    shape: impl Fn(Answer) -> (bool, usize, usize),
) -> Unpacked {
    match answer.map(shape) {
        Ok((true, first, second)) => Unpacked::Good(first as u64, second as u64),
        Ok((false, first, second)) => Unpacked::Bad(first as u64, second as u64),
        Err(refusal) => Unpacked::Refused(refusal),
    }
}

fn assert_packed(case: &Case) {
    let (dossier, unit) = (&case.dossier, &case.unit);
    let output = || vec![0; case.output_length];
    let checked = shaped(check(dossier), |_| (true, 0, 0));
    assert_eq!(unpacked(pack::check(dossier)), checked);
    let built = shaped(build(dossier, &mut output()), |built| {
        (true, built.length, 0)
    });
    assert_eq!(unpacked(pack::build(dossier, &mut output())), built);
    let ran = shaped(run(dossier, unit), |answer| match answer {
        RunAnswer::Passes { tests } => (true, tests, 0),
        RunAnswer::Fails { test, step } => (false, test, step),
    });
    assert_eq!(unpacked(pack::run(dossier, unit)), ran);
    let compared = compare(dossier, unit, &mut output());
    let compared = shaped(compared, |answer| match answer {
        CompareAnswer::Equal => (true, 0, 0),
        CompareAnswer::Differs { length } => (false, length, 0),
    });
    assert_eq!(
        unpacked(pack::compare(dossier, unit, &mut output())),
        compared
    );
    let costs = shaped(cost(dossier), |cost| (true, cost.tests, cost.inputs));
    assert_eq!(unpacked(pack::cost(dossier)), costs);
    let found = shaped(find(unit, case.bound, &mut output()), |found| {
        (true, found.length, 0)
    });
    let packed = pack::find(unit, case.bound, &mut output());
    assert_eq!(unpacked(packed), found);
    assert_judge_packed(dossier, &case.sheet);
    let imported = shaped(read_kiss2(&case.text, &mut output()), |imported| {
        (true, imported.length, 0)
    });
    let packed = pack::read_kiss2(&case.text, &mut output());
    assert_eq!(unpacked(packed), imported);
}

fn assert_judge_packed(dossier: &[u8], sheet: &[u8]) {
    let answer = judge(dossier, sheet);
    let judged = shaped(answer.clone(), |answer| match answer {
        JudgeAnswer::Agrees => (true, 0, 0),
        JudgeAnswer::Deviates { test, step, .. } => (false, test, step),
    });
    assert_eq!(unpacked(pack::judge(dossier, sheet)), judged);
    let part = match answer {
        Ok(JudgeAnswer::Deviates { word, .. }) => word,
        _ => 0..0,
    };
    let part = Unpacked::Good(part.start as u64, part.len() as u64);
    assert_eq!(unpacked(pack::judge_word(dossier, sheet)), part);
}

/// Catches fields that overlap, are cut off or stand for another answer.
#[test]
fn every_answer_unpacks_to_itself() {
    let tables = (0..600).flat_map(|number| table_cases(202, number));
    let texts = (0..600).flat_map(|number| text_cases(203, number));
    for case in cases(201, 1_500).chain(tables).chain(texts) {
        assert_packed(&case);
    }
}
