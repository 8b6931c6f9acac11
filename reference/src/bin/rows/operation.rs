//! The operations, and every answer that each gives on small files.

use crate::said::Kind;

/// An operation. What `Run` says has the line of the program `run` with it.
#[derive(Clone, Copy, Debug, PartialEq, Eq, PartialOrd, Ord)]
pub enum Operation {
    Check,
    Build,
    Run,
    Compare,
    Judge,
    Cost,
    Find,
    Import,
}

// The numbers of the files, as the rules have them. A verdict concerns none.
const NONE: u8 = 0;
const DOSSIER: u8 = 1;
const UNIT: u8 = 2;
const SHEET: u8 = 3;
const OUTPUT: u8 = 4;
const TEXT: u8 = 5;
const NUMBER: u8 = 6;

impl Operation {
    pub const ALL: [Operation; 8] = [
        Operation::Check,
        Operation::Build,
        Operation::Run,
        Operation::Compare,
        Operation::Judge,
        Operation::Cost,
        Operation::Find,
        Operation::Import,
    ];

    /// What the names of its rows begin with.
    pub fn name(self) -> &'static str {
        match self {
            Operation::Check => "check",
            Operation::Build => "build",
            Operation::Run => "run",
            Operation::Compare => "compare",
            Operation::Judge => "judge",
            Operation::Cost => "cost",
            Operation::Find => "find",
            Operation::Import => "import",
        }
    }

    /// Every answer but TOO LONG, which no small file has.
    pub fn kinds(self) -> Vec<Kind> {
        let kinds = self.numbers_by_file().iter();
        kinds
            .flat_map(|&(file, numbers)| numbers.iter().map(move |&number| Kind { number, file }))
            .collect()
    }

    fn numbers_by_file(self) -> &'static [(u8, &'static [u8])] {
        match self {
            Operation::Check => &[(NONE, &[0]), (DOSSIER, &[2, 3, 4, 5, 6, 7, 8, 9, 10, 11])],
            Operation::Build => &[
                (NONE, &[0]),
                (DOSSIER, &[2, 3, 4, 5, 6, 7, 8, 9, 10]),
                (OUTPUT, &[17]),
            ],
            Operation::Run => &[
                (NONE, &[0, 31]),
                (DOSSIER, &[2, 3, 4, 5, 6, 7, 8, 9, 10, 11]),
                (UNIT, &[2, 3, 4, 6, 15, 16]),
            ],
            Operation::Compare => &[
                (NONE, &[0, 31]),
                (DOSSIER, &[2, 3, 4, 5, 6]),
                (UNIT, &[2, 3, 4, 6, 15]),
                (OUTPUT, &[17]),
            ],
            Operation::Judge => &[
                (NONE, &[0, 31]),
                (DOSSIER, &[2, 3, 4, 5, 6, 7, 8, 9, 10, 11]),
                (SHEET, &[2, 5, 6, 12, 13, 14]),
            ],
            Operation::Cost => &[(NONE, &[0]), (DOSSIER, &[2, 3, 4, 5, 6])],
            Operation::Find => &[
                (NONE, &[0]),
                (UNIT, &[2, 3, 4, 6, 8, 18]),
                (NUMBER, &[3]),
                (OUTPUT, &[17]),
            ],
            Operation::Import => &[(NONE, &[0]), (TEXT, &[19, 20, 21]), (OUTPUT, &[17])],
        }
    }
}
