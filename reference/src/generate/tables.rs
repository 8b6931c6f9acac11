//! Bare tables: units that are to be taken as golden, and a bound with each.

use super::{machines, sometimes_damaged, units, Dice};
use crate::files::{write_unit, Unit};
use crate::machine::UnitState;
use crate::sizes::{highest_bound, MOST_DOSSIER_BYTES, MOST_INPUTS, MOST_STATES};

/// One table of each size stands at the front.
const SIZES: u64 = MOST_INPUTS as u64 * MOST_STATES as u64;

/// The bytes of a table, and its bound. Many tables are reduced; the others have states that no
/// word reaches, states that answer alike, or both, or are damaged.
pub fn table(dice: &mut Dice, number: u64) -> (Vec<u8>, u8) {
    let mut unit = match number {
        0..SIZES => of_size(dice, number),
        _ => thrown(dice),
    };
    if dice.one_in(2) {
        units::renumber(dice, &mut unit);
    }
    let bound = bound_of(dice, unit.inputs, unit.states());
    let mut bytes = write_unit(&unit);
    if number >= SIZES {
        bytes = sometimes_damaged(dice, 16, bytes, MOST_DOSSIER_BYTES);
    }
    (bytes, bound)
}

fn thrown(dice: &mut Dice) -> Unit {
    match dice.below(200) {
        0..=99 => small(dice),
        100..=129 => wild(dice),
        130..=149 => with_more(dice, add_unreached),
        150..=169 => with_more(dice, add_alike),
        170..=179 => with_both(dice),
        180..=189 => one_state(dice),
        190..=197 => one_input(dice),
        198 => chain(dice),
        _ => longest_chain(dice),
    }
}

/// The table of a number: each count of inputs with each count of states.
fn of_size(dice: &mut Dice, number: u64) -> Unit {
    let most_inputs = u64::from(MOST_INPUTS);
    let inputs = 1 + (number % most_inputs) as u8;
    let states = 1 + (number / most_inputs) as u8;
    let outputs = *dice.pick(&[2, 2, 3, 256]);
    machines::connected(dice, inputs, states, outputs)
}

/// Few states, all of which are reached.
fn small(dice: &mut Dice) -> Unit {
    let inputs = dice.between(1, 4) as u8;
    let states = dice.between(1, 8) as u8;
    let outputs = *dice.pick(&[2, 2, 3, 256]);
    machines::connected(dice, inputs, states, outputs)
}

/// States of any sort.
fn wild(dice: &mut Dice) -> Unit {
    let inputs = dice.between(1, 4) as u8;
    let states = dice.between(1, 6) as u8;
    let outputs = dice.between(1, 3);
    machines::random(dice, inputs, states, outputs)
}

fn with_more(dice: &mut Dice, add: fn(&mut Dice, &mut Unit)) -> Unit {
    let mut unit = small(dice);
    add(dice, &mut unit);
    unit
}

/// Both are wrong: which is told does not hang on which state is lower.
fn with_both(dice: &mut Dice) -> Unit {
    let mut unit = with_more(dice, add_alike);
    add_unreached(dice, &mut unit);
    unit
}

/// One state more, to which nothing leads but itself.
fn add_unreached(dice: &mut Dice, unit: &mut Unit) {
    let new = unit.states();
    let more: Unit = machines::random(dice, unit.inputs, new + 1, 2);
    let row = more
        .all_inputs()
        .map(|input| more.step(UnitState(new), input));
    unit.steps.extend(row);
}

/// One state more, which answers every word as another does.
fn add_alike(dice: &mut Dice, unit: &mut Unit) {
    let wanted = unit.states() + 1;
    units::split(dice, unit, wanted);
}

fn one_state(dice: &mut Dice) -> Unit {
    let inputs = dice.between(1, usize::from(MOST_INPUTS)) as u8;
    machines::random(dice, inputs, 1, 3)
}

fn one_input(dice: &mut Dice) -> Unit {
    let states = dice.between(1, 24) as u8;
    let outputs = dice.between(2, 3);
    machines::connected(dice, 1, states, outputs)
}

/// Words as long as words get for so many states.
fn chain(dice: &mut Dice) -> Unit {
    let inputs = dice.between(1, 3) as u8;
    let states = dice.between(2, 40) as u8;
    machines::ring(inputs, states).over_states()
}

/// Words of 63 inputs.
fn longest_chain(dice: &mut Dice) -> Unit {
    let inputs = *dice.pick(&[1, 1, 1, 2, MOST_INPUTS]);
    machines::ring(inputs, MOST_STATES).over_states()
}

/// The most needed words that a bound may ask for, so that a build takes no time.
const MOST_NEEDED: usize = 4_000;

/// Mostly a bound for so many states, often the default, now and then any number.
pub fn bound_of(dice: &mut Dice, inputs: u8, states: u8) -> u8 {
    match dice.below(24) {
        0..=5 => 0,
        6 => dice.byte(),
        7 => highest_bound(states) + 1,
        8 => states - 1,
        _ => {
            let bounds: Vec<u8> = (states..=highest_bound(states))
                .filter(|&bound| bound == states || needed(inputs, states, bound) <= MOST_NEEDED)
                .collect();
            *dice.pick(&bounds)
        }
    }
}

/// About how many words are needed: cover words, middles, and a few separators.
fn needed(inputs: u8, states: u8, bound: u8) -> usize {
    let longest = u32::from(bound - states) + 1;
    let middles = usize::from(inputs).pow(longest);
    4 * usize::from(states) * middles
}
