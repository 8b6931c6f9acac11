//! The three files (document 01, section "The three files").

mod read;
mod write;

pub use read::{read_dossier, read_sheet, read_unit};
pub use write::{
    place_of_test, size_of_words, write_at_front, write_before_tests, write_dossier, write_sheet,
    write_unit,
};

use crate::machine::{Answer, GoldenState, Machine, UnitState, Word};

/// A dossier: the golden, the bound, and three sections of words.
#[derive(Clone, Debug, PartialEq, Eq)]
pub struct Dossier {
    pub golden: Machine<GoldenState>,
    /// The byte for m as it stands in the file; 0 stands for the default.
    pub bound_byte: u8,
    pub cover: Vec<Word>,
    pub separating: Vec<Word>,
    pub tests: Vec<Word>,
}

impl Dossier {
    /// The bound m (document 01, section "Sizes"): the byte 0 stands for m = n.
    pub fn bound(&self) -> u8 {
        match self.bound_byte {
            0 => self.golden.states(),
            bound => bound,
        }
    }

    /// The most inputs of a middle, m - n + 1 (document 01, section "Needed words").
    pub fn longest_middle(&self) -> u8 {
        self.bound() - self.golden.states() + 1
    }
}

/// A unit: the table of the part under test.
pub type Unit = Machine<UnitState>;

/// A sheet: what a bench wrote down.
#[derive(Clone, Debug, PartialEq, Eq)]
pub struct Sheet {
    pub records: Vec<Record>,
}

/// A word and the outputs that were seen for it, one for each input.
#[derive(Clone, Debug, PartialEq, Eq)]
pub struct Record {
    pub word: Word,
    pub answer: Answer,
}
