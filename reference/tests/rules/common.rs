//! The worked pieces of document 01 as bytes, and short ways to write sheets and places.

pub use reference::worked::*;

use reference::files::{Record, Sheet};
use reference::machine::Answer;
use reference::refusal::{File, Place};
use std::process::Output;

/// Bytes from hex, two digits a byte, with spaces between.
pub fn hex(text: &str) -> Vec<u8> {
    let byte = |digits| u8::from_str_radix(digits, 16).expect("two hex digits");
    text.split_whitespace().map(byte).collect()
}

/// A sheet from words and their answers.
pub fn sheet(records: &[(&str, &[u8])]) -> Sheet {
    let records = records.iter().map(|(digits, outputs)| Record {
        word: word(digits),
        answer: outputs
            .iter()
            .copied()
            .map(reference::machine::Output)
            .collect::<Answer>(),
    });
    Sheet {
        records: records.collect(),
    }
}

/// The 37 bytes of document 01.
pub fn dossier_37() -> Vec<u8> {
    hex(
        "03 00 02 02 02 04 00 00 00 01 00 00 01 01 00 02 00 00 01 01 \
         01 00 01 00 03 00 02 00 00 03 01 00 00 03 01 01 00",
    )
}

/// The built m = 3 dossier of document 01, byte for byte.
pub fn dossier_54() -> Vec<u8> {
    hex(
        "03 00 02 02 03 04 00 00 00 01 00 00 01 01 00 02 00 00 01 01 \
         01 00 01 00 06 00 03 00 00 00 03 00 01 00 04 01 00 00 00 \
         04 01 00 01 00 04 01 01 00 00 04 01 01 01 00",
    )
}

/// The file of unit V, byte for byte.
pub fn unit_v_bytes() -> Vec<u8> {
    hex("02 00 02 03 06 00 02 00 01 00 00 01 01 00 02 00 02 00")
}

/// The file of G as a bare table, byte for byte.
pub fn table_g_bytes() -> Vec<u8> {
    hex("02 00 02 02 04 00 00 00 01 00 00 01 01 00")
}

/// The text of G that stands among the examples.
pub const TEXT_G: &str = "\
# The golden G of document 01
.i 1
.o 1
.p 4
.s 2
.r low
0 low low 0
1 low high 0
0 high low 1
1 high high 0
.e
";

pub fn in_dossier(byte: usize) -> Place {
    Place {
        file: File::Dossier,
        byte,
    }
}

pub fn in_unit(byte: usize) -> Place {
    Place {
        file: File::Unit,
        byte,
    }
}

pub fn in_sheet(byte: usize) -> Place {
    Place {
        file: File::Sheet,
        byte,
    }
}

/// What a program tells that prints nothing and ends with a status.
pub fn told(output: &Output, status: i32) -> String {
    assert_eq!(output.status.code(), Some(status));
    assert!(output.stdout.is_empty());
    String::from_utf8(output.stderr.clone()).unwrap()
}
