//! Units: the golden under other numbers, with more states, with one fault, and strangers.

use super::{machines, Dice};
use crate::files::{Dossier, Unit};
use crate::machine::{Input, Output, Step, UnitState};
use crate::sizes::{MOST_INPUTS, MOST_STATES};

/// A unit to be held against this dossier's golden.
pub fn unit_for(dice: &mut Dice, dossier: &Dossier) -> Unit {
    let mut unit = dossier.golden.over_states();
    match dice.below(12) {
        0 => return stranger(dice, dossier),
        1 => return with_other_inputs(dice, dossier),
        2 => split(dice, &mut unit, dossier.bound().saturating_add(1)),
        3 => {}
        _ => split(dice, &mut unit, dossier.bound()),
    }
    for _ in 0..dice.below(3) {
        spoil_one_step(dice, &mut unit);
    }
    renumber(dice, &mut unit);
    unit
}

/// A unit that answers every word as the golden does, with as many states as the bound allows.
pub fn largest_equal(dice: &mut Dice, dossier: &Dossier) -> Unit {
    let mut unit = dossier.golden.over_states();
    split(dice, &mut unit, dossier.bound());
    unit
}

/// Splits states in two until there are so many; the unit still answers every word alike.
pub fn split(dice: &mut Dice, unit: &mut Unit, wanted: u8) {
    while unit.states() < wanted.min(MOST_STATES) {
        let old = UnitState(dice.byte_below(unit.states()));
        let new = UnitState(unit.states());
        let row: Vec<_> = (0..unit.inputs)
            .map(|input| unit.step(old, Input(input)))
            .collect();
        unit.steps.extend(row);
        for step in &mut unit.steps {
            if step.next == old && dice.one_in(2) {
                step.next = new;
            }
        }
    }
}

/// Changes one output or one next state.
fn spoil_one_step(dice: &mut Dice, unit: &mut Unit) {
    let states = unit.states();
    let place = dice.below(unit.steps.len());
    if dice.one_in(2) {
        unit.steps[place].next = UnitState(dice.byte_below(states));
    } else {
        unit.steps[place].output = Output(dice.byte_below(3));
    }
}

/// Gives all states but 0 other numbers.
pub fn renumber(dice: &mut Dice, unit: &mut Unit) {
    let mut numbers: Vec<u8> = (0..unit.states()).collect();
    dice.shuffle(&mut numbers[1..]);
    let mut steps = unit.steps.clone();
    for (old, &new) in numbers.iter().enumerate() {
        for input in unit.all_inputs() {
            let step = unit.step(UnitState(old as u8), input);
            let place = unit.place_of_step(UnitState(new), input);
            let next = UnitState(numbers[usize::from(step.next.0)]);
            steps[place] = Step { next, ..step };
        }
    }
    unit.steps = steps;
}

/// A unit with nothing of the golden but its inputs.
fn stranger(dice: &mut Dice, dossier: &Dossier) -> Unit {
    let states = dice.between(1, usize::from(dossier.bound().clamp(1, MOST_STATES))) as u8;
    machines::random(dice, dossier.golden.inputs, states, 2)
}

fn with_other_inputs(dice: &mut Dice, dossier: &Dossier) -> Unit {
    let inputs = match dossier.golden.inputs {
        MOST_INPUTS => MOST_INPUTS - 1,
        fewer => fewer + 1,
    };
    let states = dice.between(1, 4) as u8;
    machines::random(dice, inputs, states, 2)
}
