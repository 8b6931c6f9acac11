//! The cost figure (document 01, section "Operations and answers").

use crate::files::read_dossier;
use crate::machine::Word;
use crate::refusal::Refusal;

/// The count of tests and the sum of their lengths.
#[derive(Clone, Copy, Debug, PartialEq, Eq)]
pub struct Cost {
    pub tests: usize,
    pub inputs: usize,
}

/// The cost of a well-formed dossier, or refusal 1 to 6.
pub fn cost(dossier: &[u8]) -> Result<Cost, Refusal> {
    let tests = read_dossier(dossier)?.tests;
    Ok(Cost {
        tests: tests.len(),
        inputs: tests.iter().map(Word::len).sum(),
    })
}
