//! Dossiers: accepted ones, ones that lack something, and wild ones.

use super::{limits, machines, Dice};
use crate::build::built_tests;
use crate::files::Dossier;
use crate::find::access_words;
use crate::machine::{GoldenState, Input, Machine, Word};
use crate::sizes::{highest_bound, LONGEST_TEST, MOST_EXTRA_STATES, MOST_STATES};

/// The throws of the dice for a dossier that is not at a limit.
const PLAIN: usize = 38;

/// A dossier before any damage to its bytes.
pub fn draft(dice: &mut Dice) -> Dossier {
    match dice.below(PLAIN + 2) {
        throw @ 0..PLAIN => thrown(dice, throw),
        _ => limits::draft(dice),
    }
}

/// One that is not at a limit: many of these are short.
pub fn plain_draft(dice: &mut Dice) -> Dossier {
    let throw = dice.below(PLAIN);
    thrown(dice, throw)
}

fn thrown(dice: &mut Dice, throw: usize) -> Dossier {
    match throw {
        0..=20 => accepted(dice),
        21..=26 => with_weak_tests(dice),
        27..=32 => with_wrong_words(dice),
        _ => wild(dice),
    }
}

/// An accepted dossier, its tests in any order, and perhaps more tests than needed.
fn accepted(dice: &mut Dice) -> Dossier {
    let mut dossier = with_built_tests(sound(dice));
    for _ in 0..dice.below(3) {
        let more = one_more_test(dice, &dossier);
        dossier.tests.push(more);
    }
    if dice.one_in(3) {
        lengthen_one_test(dice, &mut dossier);
    }
    if dice.one_in(2) {
        dice.shuffle(&mut dossier.tests);
    }
    dossier
}

/// A dossier with built tests from which something was taken: most lack a needed word.
fn with_weak_tests(dice: &mut Dice) -> Dossier {
    let mut dossier = with_built_tests(sound(dice));
    match dice.below(5) {
        0 => dossier.tests.clear(),
        1 => keep_some(dice, &mut dossier.tests),
        2 => drop_any(dice, &mut dossier.tests),
        3 => shorten_any(dice, &mut dossier.tests),
        _ => raise_bound(&mut dossier),
    }
    if dice.one_in(2) {
        let more = one_more_test(dice, &dossier);
        dossier.tests.push(more);
    }
    dossier
}

/// A dossier whose cover or separating section was spoiled.
fn with_wrong_words(dice: &mut Dice) -> Dossier {
    let mut dossier = with_built_tests(sound(dice));
    match dice.below(7) {
        0 => dossier.cover.clear(),
        1 => dossier.cover.retain(|word| !word.is_empty()),
        2 => dossier.cover.retain(Word::is_empty),
        3 => drop_any(dice, &mut dossier.cover),
        4 => dossier.separating.clear(),
        5 => dossier.separating = vec![Word::new()],
        _ => drop_any(dice, &mut dossier.separating),
    }
    dossier
}

/// A dossier over a machine that may have unreached or equivalent states, with words of any sort.
fn wild(dice: &mut Dice) -> Dossier {
    let inputs = dice.between(1, 4) as u8;
    let states = dice.between(1, 5) as u8;
    let outputs = dice.between(1, 3);
    let golden = machines::random(dice, inputs, states, outputs);
    let mut dossier = found(golden, dice.byte_below(2));
    if dice.one_in(2) {
        dossier.cover = any_words(dice, inputs);
    }
    if dice.one_in(2) {
        dossier.separating = any_words(dice, inputs);
    }
    if dice.one_in(2) {
        dossier.tests = any_words(dice, inputs);
        return dossier;
    }
    with_built_tests(dossier)
}

/// A reduced machine with good cover and separating sections, and no tests yet.
fn sound(dice: &mut Dice) -> Dossier {
    let inputs = *dice.pick(&[1, 2, 2, 2, 3, 3, 4]);
    let states = dice.between(1, 7) as u8;
    let outputs = *dice.pick(&[2, 2, 2, 3, 256]);
    let golden = machines::reduced(&machines::random(dice, inputs, states, outputs));
    let extra = dice.below(most_extra(inputs) + 1);
    let mut dossier = found(golden, extra as u8);
    if extra == 0 && dice.one_in(3) {
        dossier.bound_byte = 0;
    }
    decorate(dice, inputs, &mut dossier.cover);
    decorate(dice, inputs, &mut dossier.separating);
    dossier
}

/// The most extra states for which the built tests stay few.
fn most_extra(inputs: u8) -> usize {
    match inputs {
        1 => usize::from(MOST_EXTRA_STATES),
        2 => 3,
        _ => 1,
    }
}

/// The shortest cover and separating words of a machine, and no tests.
pub fn found(golden: Machine<GoldenState>, extra: u8) -> Dossier {
    let cover = access_words(&golden).into_iter();
    let cover = cover.map(|(_, word)| word).collect();
    let mut separating = machines::telling_words(&golden);
    if separating.is_empty() {
        separating.push(Word::new());
    }
    Dossier {
        bound_byte: (golden.states() + extra).min(MOST_STATES),
        golden,
        cover,
        separating,
        tests: Vec::new(),
    }
}

/// The dossier with the tests that build would write, or without tests where there is no room.
pub fn with_built_tests(dossier: Dossier) -> Dossier {
    let tests = built_tests(&dossier).unwrap_or_default();
    Dossier { tests, ..dossier }
}

/// Adds words and repeats to a section and shuffles it; what it was good for it stays good for.
fn decorate(dice: &mut Dice, inputs: u8, words: &mut Vec<Word>) {
    if dice.one_in(4) {
        let length = dice.below(4);
        words.push(dice.word(inputs, length));
    }
    if dice.one_in(4) {
        words.push(dice.pick(words).clone());
    }
    if dice.one_in(4) {
        dice.shuffle(words);
    }
}

fn any_words(dice: &mut Dice, inputs: u8) -> Vec<Word> {
    (0..dice.below(6))
        .map(|_| {
            let length = dice.below(5);
            dice.word(inputs, length)
        })
        .collect()
}

/// Any word, or the beginning of a test, or a test once more.
fn one_more_test(dice: &mut Dice, dossier: &Dossier) -> Word {
    if dossier.tests.is_empty() || dice.one_in(3) {
        let length = dice.below(usize::from(LONGEST_TEST) + 1);
        return dice.word(dossier.golden.inputs, length);
    }
    let test = dice.pick(&dossier.tests);
    let length = if dice.one_in(2) {
        test.len()
    } else {
        dice.below(test.len() + 1)
    };
    test[..length].to_vec()
}

/// A longer test still begins with the needed word that it was built for.
fn lengthen_one_test(dice: &mut Dice, dossier: &mut Dossier) {
    let inputs = dossier.golden.inputs;
    if dossier.tests.is_empty() {
        return;
    }
    let place = dice.below(dossier.tests.len());
    let test = &mut dossier.tests[place];
    let more = dice.below(usize::from(LONGEST_TEST) - test.len() + 1);
    let more: Vec<Input> = dice.word(inputs, more);
    test.extend(more);
}

/// Raises the bound by one where it can be raised: the tests were built for a lower one.
fn raise_bound(dossier: &mut Dossier) {
    let highest = highest_bound(dossier.golden.states());
    dossier.bound_byte = highest.min(dossier.bound() + 1);
}

fn keep_some(dice: &mut Dice, words: &mut Vec<Word>) {
    words.truncate(dice.below(words.len() + 1));
}

fn drop_any(dice: &mut Dice, words: &mut Vec<Word>) {
    if !words.is_empty() {
        words.remove(dice.below(words.len()));
    }
}

fn shorten_any(dice: &mut Dice, words: &mut [Word]) {
    if !words.is_empty() {
        words[dice.below(words.len())].pop();
    }
}
