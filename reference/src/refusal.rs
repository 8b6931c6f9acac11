//! The refusals (document 01, section "Operations and answers"; 18 is of document 02, L1,
//! and 19 to 21 are of L2).

use crate::machine::{digits, GoldenState, Input, UnitState, Word};
use crate::sizes::MOST_DOSSIER_BYTES;
use std::fmt;

/// What a refusal can concern.
#[derive(Clone, Copy, Debug, PartialEq, Eq, Hash)]
pub enum File {
    Dossier,
    Unit,
    Sheet,
    Output,
    /// A KISS2 text.
    Text,
    /// A number that was passed and stands in no file.
    Number,
}

/// A byte of a file, placed from 0.
#[derive(Clone, Copy, Debug, PartialEq, Eq, Hash)]
pub struct Place {
    pub file: File,
    pub byte: usize,
}

/// A refusal with what is returned along with it.
#[derive(Clone, Debug, PartialEq, Eq, Hash)]
pub enum Refusal {
    TooLong(Place),
    CutShort(Place),
    BadNumbers(Place),
    BadTable(Place),
    BadWord(Place),
    Trailing(Place),
    NoEmptyWord,
    /// Of the dossier where no cover word reaches the state, of a unit taken as golden where no
    /// word does.
    Unreached {
        file: File,
        state: GoldenState,
    },
    NoSeparator,
    NotSeparated {
        first: GoldenState,
        second: GoldenState,
    },
    Missing {
        cover: usize,
        middle: Word,
        separator: usize,
    },
    Repeated {
        record: usize,
    },
    Foreign {
        record: usize,
    },
    Absent {
        test: usize,
    },
    OtherInputs,
    TooManyStates,
    NoRoom {
        needed: usize,
    },
    NotReduced {
        first: GoldenState,
        second: GoldenState,
    },
    /// Lines are counted from 1.
    BadLine {
        line: usize,
    },
    Contradiction {
        line: usize,
    },
    Incomplete {
        state: UnitState,
        input: Input,
    },
}

/// What NO ROOM names for any dossier over its size, whatever room there is.
pub const OVER_ITS_SIZE: Refusal = Refusal::NoRoom {
    needed: MOST_DOSSIER_BYTES + 1,
};

impl Refusal {
    /// The number of the refusal, 1 to 21.
    pub fn number(&self) -> u8 {
        self.number_and_name().0
    }

    /// The name of the refusal, as the table has it.
    pub fn name(&self) -> &'static str {
        self.number_and_name().1
    }

    fn number_and_name(&self) -> (u8, &'static str) {
        match self {
            Refusal::TooLong(_) => (1, "TOO LONG"),
            Refusal::CutShort(_) => (2, "CUT SHORT"),
            Refusal::BadNumbers(_) => (3, "BAD NUMBERS"),
            Refusal::BadTable(_) => (4, "BAD TABLE"),
            Refusal::BadWord(_) => (5, "BAD WORD"),
            Refusal::Trailing(_) => (6, "TRAILING"),
            Refusal::NoEmptyWord => (7, "NO EMPTY WORD"),
            Refusal::Unreached { .. } => (8, "UNREACHED"),
            Refusal::NoSeparator => (9, "NO SEPARATOR"),
            Refusal::NotSeparated { .. } => (10, "NOT SEPARATED"),
            Refusal::Missing { .. } => (11, "MISSING"),
            Refusal::Repeated { .. } => (12, "REPEATED"),
            Refusal::Foreign { .. } => (13, "FOREIGN"),
            Refusal::Absent { .. } => (14, "ABSENT"),
            Refusal::OtherInputs => (15, "OTHER INPUTS"),
            Refusal::TooManyStates => (16, "TOO MANY STATES"),
            Refusal::NoRoom { .. } => (17, "NO ROOM"),
            Refusal::NotReduced { .. } => (18, "NOT REDUCED"),
            Refusal::BadLine { .. } => (19, "BAD LINE"),
            Refusal::Contradiction { .. } => (20, "CONTRADICTION"),
            Refusal::Incomplete { .. } => (21, "INCOMPLETE"),
        }
    }

    /// The byte that refusals 1 to 6 name; the others name none.
    pub fn place(&self) -> Option<Place> {
        match self {
            Refusal::TooLong(place)
            | Refusal::CutShort(place)
            | Refusal::BadNumbers(place)
            | Refusal::BadTable(place)
            | Refusal::BadWord(place)
            | Refusal::Trailing(place) => Some(*place),
            _ => None,
        }
    }

    /// The file that the refusal concerns.
    pub fn file(&self) -> File {
        if let Refusal::Unreached { file, .. } = self {
            return *file;
        }
        match (self.place(), self.number()) {
            (Some(place), _) => place.file,
            (None, 12..=14) => File::Sheet,
            (None, 15 | 16 | 18) => File::Unit,
            (None, 17) => File::Output,
            (None, 19..=21) => File::Text,
            (None, _) => File::Dossier,
        }
    }
}

impl fmt::Display for File {
    fn fmt(&self, to: &mut fmt::Formatter) -> fmt::Result {
        to.write_str(match self {
            File::Dossier => "dossier",
            File::Unit => "unit",
            File::Sheet => "sheet",
            File::Output => "output",
            File::Text => "text",
            File::Number => "number",
        })
    }
}

/// The refusal as a clerk reads it: number, name, file, and what is returned along with it.
impl fmt::Display for Refusal {
    fn fmt(&self, to: &mut fmt::Formatter) -> fmt::Result {
        let (number, name) = self.number_and_name();
        write!(to, "REFUSED {number} {name}, {}", self.file())?;
        match self {
            Refusal::CutShort(place) => write!(to, ", length {}", place.byte),
            Refusal::Unreached { state, .. } => write!(to, ", state {}", state.0),
            Refusal::NotSeparated { first, second } | Refusal::NotReduced { first, second } => {
                write!(to, ", states {} and {}", first.0, second.0)
            }
            Refusal::Missing {
                cover,
                middle,
                separator,
            } => write!(
                to,
                ", cover {cover}, middle {}, separator {separator}",
                digits_or_empty(middle)
            ),
            Refusal::Repeated { record } | Refusal::Foreign { record } => {
                write!(to, ", record {record}")
            }
            Refusal::Absent { test } => write!(to, ", test {test}"),
            Refusal::NoRoom { needed } => write!(to, ", length needed {needed}"),
            Refusal::BadLine { line } | Refusal::Contradiction { line } => {
                write!(to, ", line {line}")
            }
            Refusal::Incomplete { state, input } => {
                write!(to, ", state {}, input {}", state.0, input.0)
            }
            _ => match self.place() {
                Some(place) => write!(to, ", byte {}", place.byte),
                None => Ok(()),
            },
        }
    }
}

/// An empty word would leave a hole in the line.
fn digits_or_empty(word: &Word) -> String {
    if word.is_empty() {
        "empty".to_string()
    } else {
        digits(word)
    }
}
