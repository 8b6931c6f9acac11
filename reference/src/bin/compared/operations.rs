//! The operations that the library has today.

use reference::generate::Case;
use reference::pack;

/// What an operation is lent: two files, of which the second may be empty, a number, and an output.
pub struct Lent<'a> {
    pub first: &'a [u8],
    pub second: &'a [u8],
    pub number: u8,
    pub output_length: usize,
}

/// The file that an answer concerns: none where it is no refusal.
const NO_FILE: u64 = 0;
const DOSSIER: u64 = 1;
const UNIT: u64 = 2;
const SHEET: u64 = 3;
const OUTPUT: u64 = 4;
const TEXT: u64 = 5;
const NUMBER: u64 = 6;

/// A file that answers concern, and their codes.
pub type Codes = (u64, &'static [u64]);

/// An operation of the library.
pub struct Operation {
    pub name: &'static str,
    /// What it is lent of a case.
    pub lent: fn(&Case) -> Lent<'_>,
    /// What this program answers; what it writes stands in the output.
    pub answer: fn(&Lent, &mut [u8]) -> u64,
    /// All its answers.
    pub answers: &'static [Codes],
}

const MALFORMED: &[u64] = &[1, 2, 3, 4, 5, 6];
const UNSOUND: &[u64] = &[1, 2, 3, 4, 5, 6, 7, 8, 9, 10];
const NOT_ACCEPTED: &[u64] = &[1, 2, 3, 4, 5, 6, 7, 8, 9, 10, 11];

/// A unit has no words, so none is bad.
const NOT_COMPARED: &[u64] = &[1, 2, 3, 4, 6, 15];
const NOT_RUN: &[u64] = &[1, 2, 3, 4, 6, 15, 16];

const NOT_FOUND: &[u64] = &[1, 2, 3, 4, 6, 8, 18];

const NOT_IMPORTED: &[u64] = &[1, 19, 20, 21];

/// A sheet has no numbers and no table.
const NOT_JUDGED: &[u64] = &[1, 2, 5, 6, 12, 13, 14];

/// Each in the place of its number in the driver.
pub const OPERATIONS: [Operation; 9] = [
    Operation {
        name: "check",
        lent: dossier_alone,
        answer: |lent, _| pack::check(lent.first),
        answers: &[(NO_FILE, &[0]), (DOSSIER, NOT_ACCEPTED)],
    },
    Operation {
        name: "build",
        lent: dossier_and_output,
        answer: |lent, output| pack::build(lent.first, output),
        answers: &[(NO_FILE, &[0]), (DOSSIER, UNSOUND), (OUTPUT, &[17])],
    },
    Operation {
        name: "run",
        lent: dossier_and_unit,
        answer: |lent, _| pack::run(lent.first, lent.second),
        answers: &[
            (NO_FILE, &[0, 31]),
            (DOSSIER, NOT_ACCEPTED),
            (UNIT, NOT_RUN),
        ],
    },
    Operation {
        name: "cost",
        lent: dossier_alone,
        answer: |lent, _| pack::cost(lent.first),
        answers: &[(NO_FILE, &[0]), (DOSSIER, MALFORMED)],
    },
    Operation {
        name: "compare",
        lent: dossier_unit_and_output,
        answer: |lent, output| pack::compare(lent.first, lent.second, output),
        answers: &[
            (NO_FILE, &[0, 31]),
            (DOSSIER, MALFORMED),
            (UNIT, NOT_COMPARED),
            (OUTPUT, &[17]),
        ],
    },
    Operation {
        name: "judge",
        lent: dossier_and_sheet,
        answer: |lent, _| pack::judge(lent.first, lent.second),
        answers: &[
            (NO_FILE, &[0, 31]),
            (DOSSIER, NOT_ACCEPTED),
            (SHEET, NOT_JUDGED),
        ],
    },
    Operation {
        name: "judge_word",
        lent: dossier_and_sheet,
        answer: |lent, _| pack::judge_word(lent.first, lent.second),
        answers: &[(NO_FILE, &[0])],
    },
    Operation {
        name: "find",
        lent: unit_bound_and_output,
        answer: |lent, output| pack::find(lent.first, lent.number, output),
        answers: &[
            (NO_FILE, &[0]),
            (UNIT, NOT_FOUND),
            (NUMBER, &[3]),
            (OUTPUT, &[17]),
        ],
    },
    Operation {
        name: "read_kiss2",
        lent: text_and_output,
        answer: |lent, output| pack::read_kiss2(lent.first, output),
        answers: &[(NO_FILE, &[0]), (TEXT, NOT_IMPORTED), (OUTPUT, &[17])],
    },
];

fn dossier_alone(case: &Case) -> Lent<'_> {
    Lent {
        first: &case.dossier,
        second: &[],
        number: 0,
        output_length: 0,
    }
}

fn dossier_and_output(case: &Case) -> Lent<'_> {
    Lent {
        output_length: case.output_length,
        ..dossier_alone(case)
    }
}

fn dossier_and_unit(case: &Case) -> Lent<'_> {
    Lent {
        second: &case.unit,
        ..dossier_alone(case)
    }
}

fn dossier_and_sheet(case: &Case) -> Lent<'_> {
    Lent {
        second: &case.sheet,
        ..dossier_alone(case)
    }
}

fn dossier_unit_and_output(case: &Case) -> Lent<'_> {
    Lent {
        output_length: case.output_length,
        ..dossier_and_unit(case)
    }
}

fn unit_bound_and_output(case: &Case) -> Lent<'_> {
    Lent {
        first: &case.unit,
        second: &[],
        number: case.bound,
        output_length: case.output_length,
    }
}

fn text_and_output(case: &Case) -> Lent<'_> {
    Lent {
        first: &case.text,
        second: &[],
        number: 0,
        output_length: case.output_length,
    }
}
