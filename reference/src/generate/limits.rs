//! Dossiers at the limits of document 01, section "Sizes", and one step past them.

use super::dossiers::{found, with_built_tests};
use super::{machines, Dice};
use crate::build::built_tests;
use crate::files::{size_of_words, write_before_tests, write_dossier, Dossier};
use crate::machine::{GoldenState, Machine, Word};
use crate::sizes::{
    LONGEST_COVER_WORD, LONGEST_TEST, MOST_DOSSIER_BYTES, MOST_EXTRA_STATES, MOST_INPUTS,
    MOST_STATES,
};

/// A dossier at one of the limits.
pub fn draft(dice: &mut Dice) -> Dossier {
    let kinds = [
        one_state,
        long_words,
        largest_table,
        long_ring,
        full_file,
        repeated_words,
        just_room_to_build,
        too_much_to_build,
    ];
    dice.pick(&kinds)(dice)
}

/// One state, whose only separating word may be empty.
fn one_state(dice: &mut Dice) -> Dossier {
    let inputs = *dice.pick(&[1, 2, MOST_INPUTS]);
    let golden = machines::random(dice, inputs, 1, 2);
    let most_extra = if inputs == 1 { MOST_EXTRA_STATES } else { 1 };
    let extra = dice.byte_below(most_extra + 1);
    with_built_tests(found(golden, extra))
}

/// A cover word, a separating word and a test of the longest length, or one of them too long.
fn long_words(dice: &mut Dice) -> Dossier {
    let golden = small_golden(dice);
    let inputs = golden.inputs;
    let mut dossier = found(golden, 0);
    let one_too_many = dice.below(4);
    let longest = |dice: &mut Dice, limit: u8, place: usize| {
        let length = usize::from(limit) + usize::from(one_too_many == place);
        dice.word(inputs, length)
    };
    dossier.cover.push(longest(dice, LONGEST_COVER_WORD, 0));
    dossier
        .separating
        .push(longest(dice, LONGEST_COVER_WORD, 1));
    let mut dossier = with_built_tests(dossier);
    dossier.tests.push(longest(dice, LONGEST_TEST, 2));
    dossier
}

/// 64 states and 16 inputs.
fn largest_table(dice: &mut Dice) -> Dossier {
    let golden = machines::random(dice, MOST_INPUTS, MOST_STATES, 256);
    with_built_tests(found(machines::reduced(&golden), 0))
}

/// A ring with nearly 64 states and a bound at the edge of its range, or past it.
fn long_ring(dice: &mut Dice) -> Dossier {
    let states = dice.between(58, usize::from(MOST_STATES)) as u8;
    let mut dossier = with_built_tests(found(machines::ring(1, states), MOST_EXTRA_STATES));
    let highest = states + MOST_EXTRA_STATES;
    let bounds = [states - 1, states, highest, highest + 1, MOST_STATES];
    dossier.bound_byte = *dice.pick(&bounds);
    dossier
}

/// A file of 65,535 bytes, or of one more.
fn full_file(dice: &mut Dice) -> Dossier {
    let mut dossier = with_built_tests(found(small_golden(dice), 0));
    let size = MOST_DOSSIER_BYTES + usize::from(dice.one_in(3));
    let mut room = size - write_dossier(&dossier).len();
    while room > 0 {
        let length = usize::from(LONGEST_TEST).min(room - 1);
        dossier.tests.push(dice.word(dossier.golden.inputs, length));
        room -= 1 + length;
    }
    dossier
}

/// Thousands of words that stand there again and again.
fn repeated_words(dice: &mut Dice) -> Dossier {
    let mut dossier = with_built_tests(found(small_golden(dice), 0));
    for section in [&mut dossier.cover, &mut dossier.separating] {
        let word = dice.pick(section).clone();
        let count = dice.below(20_000 / (1 + word.len()));
        section.extend(std::iter::repeat_n(word, count));
    }
    if dice.one_in(2) {
        dossier.tests.pop();
    }
    dossier
}

/// A dossier whose built length is 65,535, or one more. With one state and 16 inputs each
/// separating word adds much; each further empty word in the cover adds one byte.
fn just_room_to_build(dice: &mut Dice) -> Dossier {
    let mut dossier = found(machines::random(dice, MOST_INPUTS, 1, 2), 0);
    let mut length = built_length(&dossier);
    while let Some(room) = length.and_then(|length| MOST_DOSSIER_BYTES.checked_sub(length)) {
        let next = dice.between(20, usize::from(LONGEST_COVER_WORD));
        if room < 4_000 {
            let one_more = usize::from(dice.one_in(2));
            let empty = std::iter::repeat_n(Word::new(), room + one_more);
            dossier.cover.extend(empty);
            break;
        }
        dossier.separating.push(dice.word(MOST_INPUTS, next));
        length = built_length(&dossier);
    }
    dossier
}

fn built_length(dossier: &Dossier) -> Option<usize> {
    let tests = built_tests(dossier).ok()?;
    Some(write_before_tests(dossier).len() + size_of_words(&tests))
}

/// More than a million middles.
fn too_much_to_build(dice: &mut Dice) -> Dossier {
    let states = dice.between(1, 60) as u8;
    let golden = machines::random(dice, MOST_INPUTS, states, 256);
    found(machines::reduced(&golden), MOST_EXTRA_STATES)
}

fn small_golden(dice: &mut Dice) -> Machine<GoldenState> {
    let inputs = dice.between(1, 3) as u8;
    let states = dice.between(1, 4) as u8;
    machines::reduced(&machines::random(dice, inputs, states, 2))
}
