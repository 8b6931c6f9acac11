//! Writing: the bytes of a dossier, a unit or a sheet. Reading them back gives what was written.

use super::{Dossier, Sheet, Unit};
use crate::machine::{Input, Machine, State, Word};
use crate::refusal::Refusal;

/// The bytes of a dossier.
pub fn write_dossier(dossier: &Dossier) -> Vec<u8> {
    let mut bytes = write_before_tests(dossier);
    put_words(&mut bytes, &dossier.tests);
    bytes
}

/// The bytes of a dossier's sections before its tests.
pub fn write_before_tests(dossier: &Dossier) -> Vec<u8> {
    let golden = &dossier.golden;
    let mut bytes = Vec::new();
    put_count(&mut bytes, 3);
    bytes.extend([golden.inputs, golden.states(), dossier.bound_byte]);
    put_table(&mut bytes, golden);
    put_words(&mut bytes, &dossier.cover);
    put_words(&mut bytes, &dossier.separating);
    bytes
}

/// The bytes of a unit.
pub fn write_unit(unit: &Unit) -> Vec<u8> {
    let mut bytes = Vec::new();
    put_count(&mut bytes, 2);
    bytes.extend([unit.inputs, unit.states()]);
    put_table(&mut bytes, unit);
    bytes
}

/// The bytes of a sheet.
pub fn write_sheet(sheet: &Sheet) -> Vec<u8> {
    let mut bytes = Vec::new();
    put_count(&mut bytes, sheet.records.len());
    for record in &sheet.records {
        put_word(&mut bytes, &record.word);
        bytes.extend(record.answer.iter().map(|output| output.0));
    }
    bytes
}

/// The bytes that a section of words takes, its count included.
pub fn size_of_words(words: &[Word]) -> usize {
    2 + words.iter().map(|word| 1 + word.len()).sum::<usize>()
}

/// The byte of the dossier at which the inputs of a test begin.
pub fn place_of_test(dossier: &Dossier, test: usize) -> usize {
    let earlier = size_of_words(&dossier.tests[..test]);
    write_before_tests(dossier).len() + earlier + 1
}

/// Writes bytes at the front of an output. Later bytes stay; without room nothing is written.
pub fn write_at_front(bytes: &[u8], output: &mut [u8]) -> Result<(), Refusal> {
    let needed = bytes.len();
    let front = output.get_mut(..needed).ok_or(Refusal::NoRoom { needed })?;
    front.copy_from_slice(bytes);
    Ok(())
}

fn put_count(bytes: &mut Vec<u8>, count: usize) {
    let count = u16::try_from(count).expect("no file has room for a section of 65,536 parts");
    bytes.extend(count.to_le_bytes());
}

fn put_table<S: State>(bytes: &mut Vec<u8>, machine: &Machine<S>) {
    put_count(bytes, machine.steps.len());
    for step in &machine.steps {
        bytes.extend([step.next.number(), step.output.0]);
    }
}

fn put_words(bytes: &mut Vec<u8>, words: &[Word]) {
    put_count(bytes, words.len());
    for word in words {
        put_word(bytes, word);
    }
}

fn put_word(bytes: &mut Vec<u8>, word: &[Input]) {
    let length = u8::try_from(word.len()).expect("a word's length is written in one byte");
    bytes.push(length);
    bytes.extend(word.iter().map(|input| input.0));
}
