//! The limits of document 01, section "Sizes", and of document 02.

/// The most inputs, k.
pub const MOST_INPUTS: u8 = 16;

/// The most states of a golden or a unit, and the highest bound m.
pub const MOST_STATES: u8 = 64;

/// The most by which the bound m may exceed the golden's states n.
pub const MOST_EXTRA_STATES: u8 = 4;

/// The most inputs of a cover word or a separating word.
pub const LONGEST_COVER_WORD: u8 = 97;

/// The most inputs of a test or of a word in a sheet.
pub const LONGEST_TEST: u8 = 200;

/// The most bytes of a dossier or a unit.
pub const MOST_DOSSIER_BYTES: usize = 65_535;

/// The most bytes of a sheet.
pub const MOST_SHEET_BYTES: usize = 131_070;

/// The most bytes of a KISS2 text (document 02, L2).
pub const MOST_TEXT_BYTES: usize = 65_535;

/// The most bits of a text's inputs, and of its outputs.
pub const MOST_INPUT_BITS: usize = 4;
pub const MOST_OUTPUT_BITS: usize = 8;

/// The most bytes of a state's name in a text, and the most digits of a number.
pub const LONGEST_NAME: usize = 16;
pub const LONGEST_NUMBER: usize = 9;

/// The highest bound for so many states.
pub fn highest_bound(states: u8) -> u8 {
    MOST_STATES.min(states + MOST_EXTRA_STATES)
}

/// Whether a byte says a bound for so many states: 0, or n <= m <= 64 and m - n <= 4.
pub fn is_bound(byte: u8, states: u8) -> bool {
    byte == 0 || (states..=highest_bound(states)).contains(&byte)
}
