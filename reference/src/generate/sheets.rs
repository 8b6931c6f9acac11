//! Sheets: the golden's answers in any order, and sheets with one thing wrong.

use super::Dice;
use crate::files::{Dossier, Record, Sheet};
use crate::machine::Output;
use crate::sizes::{LONGEST_TEST, MOST_SHEET_BYTES};
use std::collections::HashSet;

/// A sheet to be judged by this dossier.
pub fn sheet_for(dice: &mut Dice, dossier: &Dossier) -> Sheet {
    let mut records = true_records(dossier);
    if dice.one_in(2) {
        dice.shuffle(&mut records);
    }
    match dice.below(12) {
        0 => repeat_one(dice, &mut records),
        1 => add_foreign(dice, dossier, &mut records),
        2 => drop_one(dice, &mut records),
        3..=5 => change_one_output(dice, &mut records),
        6 => exchange_two_answers(dice, &mut records),
        7 => {
            repeat_one(dice, &mut records);
            add_foreign(dice, dossier, &mut records);
            drop_one(dice, &mut records);
        }
        8 if dice.one_in(10) => {
            let wanted = MOST_SHEET_BYTES + dice.below(2);
            fill(dice, dossier, &mut records, wanted);
        }
        _ => {}
    }
    Sheet { records }
}

/// The golden's answers in any order.
pub fn shuffled(dice: &mut Dice, dossier: &Dossier) -> Sheet {
    let mut records = true_records(dossier);
    dice.shuffle(&mut records);
    Sheet { records }
}

/// The golden's answers in any order, and foreign records until the sheet is full.
pub fn full(dice: &mut Dice, dossier: &Dossier) -> Sheet {
    let Sheet { mut records } = shuffled(dice, dossier);
    fill(dice, dossier, &mut records, MOST_SHEET_BYTES);
    Sheet { records }
}

/// The golden's answers in any order, and the same with one thing wrong at its end: a record that
/// is repeated, is foreign, is not there, or has another last output.
pub fn wrong_at_the_end(dice: &mut Dice, dossier: &Dossier) -> Vec<Sheet> {
    let Sheet { records } = shuffled(dice, dossier);
    let mut repeated = records.clone();
    repeated.extend(records.first().cloned());
    let mut foreign = records.clone();
    foreign.push(any_record(dice, dossier, usize::from(LONGEST_TEST)));
    let mut absent = records.clone();
    absent.pop();
    let mut deviating = records.clone();
    let last = deviating.last_mut();
    let last = last.and_then(|record| record.answer.last_mut());
    last.into_iter().for_each(|output| output.0 ^= 1);
    let sheets = [records, repeated, foreign, absent, deviating].into_iter();
    sheets.map(|records| Sheet { records }).collect()
}

/// One record for each word that is a test, with the golden's answer.
fn true_records(dossier: &Dossier) -> Vec<Record> {
    let mut seen = HashSet::new();
    let words = dossier.tests.iter().filter(|word| seen.insert(*word));
    words
        .map(|word| Record {
            word: word.clone(),
            answer: dossier.golden.answer(word),
        })
        .collect()
}

fn repeat_one(dice: &mut Dice, records: &mut Vec<Record>) {
    if records.is_empty() {
        return;
    }
    let mut again = dice.pick(records).clone();
    if dice.one_in(2) {
        again.answer.iter_mut().for_each(|output| output.0 ^= 1);
    }
    records.insert(dice.below(records.len() + 1), again);
}

fn add_foreign(dice: &mut Dice, dossier: &Dossier, records: &mut Vec<Record>) {
    let longest = usize::from(LONGEST_TEST);
    let length = *dice.pick(&[0, 1, 5, 10, longest, longest, longest + 1]);
    let record = any_record(dice, dossier, length);
    records.insert(dice.below(records.len() + 1), record);
}

fn any_record(dice: &mut Dice, dossier: &Dossier, length: usize) -> Record {
    Record {
        word: dice.word(dossier.golden.inputs, length),
        answer: (0..length).map(|_| Output(dice.byte())).collect(),
    }
}

fn drop_one(dice: &mut Dice, records: &mut Vec<Record>) {
    if !records.is_empty() {
        records.remove(dice.below(records.len()));
    }
}

fn change_one_output(dice: &mut Dice, records: &mut [Record]) {
    if records.is_empty() {
        return;
    }
    let place = dice.below(records.len());
    let answer = &mut records[place].answer;
    if !answer.is_empty() {
        let step = dice.below(answer.len());
        answer[step] = Output(dice.byte_below(3));
    }
}

/// Exchanges the answers of two words of one length: every output total stays the same.
fn exchange_two_answers(dice: &mut Dice, records: &mut [Record]) {
    if records.is_empty() {
        return;
    }
    let one = dice.below(records.len());
    let length = records[one].word.len();
    let places = (0..records.len()).filter(|&place| records[place].word.len() == length);
    let other = *dice.pick(&places.collect::<Vec<_>>());
    let answer = records[one].answer.clone();
    records[one].answer = std::mem::replace(&mut records[other].answer, answer);
}

/// Adds records until the sheet has so many bytes. A record has an odd size.
fn fill(dice: &mut Dice, dossier: &Dossier, records: &mut Vec<Record>, wanted: usize) {
    let sizes = records.iter().map(|record| 1 + 2 * record.word.len());
    let size = 2 + sizes.sum::<usize>();
    let mut room = wanted.saturating_sub(size);
    while room > 0 {
        let length = usize::from(LONGEST_TEST).min((room - 1) / 2);
        records.push(any_record(dice, dossier, length));
        room -= 1 + 2 * length;
    }
}
