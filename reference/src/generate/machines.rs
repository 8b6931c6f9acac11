//! Random machines, and the words that make good dossiers of them.

use super::Dice;
use crate::compare::telling_word;
use crate::find::access_words;
use crate::machine::{GoldenState, Input, Machine, Output, State, Step, Word};

/// Any machine of this size. Few outputs make states hard to tell apart.
pub fn random<S: State>(dice: &mut Dice, inputs: u8, states: u8, outputs: usize) -> Machine<S> {
    let entries = usize::from(inputs) * usize::from(states);
    let steps = (0..entries)
        .map(|_| Step {
            next: S::numbered(dice.byte_below(states)),
            output: Output(dice.below(outputs) as u8),
        })
        .collect();
    Machine { inputs, steps }
}

/// A machine of this size whose states are all reached.
pub fn connected<S: State>(dice: &mut Dice, inputs: u8, states: u8, outputs: usize) -> Machine<S> {
    let mut machine = random(dice, inputs, states, outputs);
    // Entries of states that are reached so far, on which no later state hangs yet.
    let mut free: Vec<usize> = (0..usize::from(inputs)).collect();
    for state in (1..states).map(S::numbered) {
        let entry = free.swap_remove(dice.below(free.len()));
        machine.steps[entry].next = state;
        let row = machine.place_of_step(state, Input(0));
        free.extend(row..row + usize::from(inputs));
    }
    machine
}

/// A ring of states with one output that differs: its words are as long as words get.
pub fn ring(inputs: u8, states: u8) -> Machine<GoldenState> {
    let step = |state: u8| Step {
        next: GoldenState((state + 1) % states),
        output: Output(u8::from(state + 1 == states)),
    };
    let steps = (0..states)
        .flat_map(|state| (0..inputs).map(move |_| step(state)))
        .collect();
    Machine { inputs, steps }
}

/// The shortest telling word of each two states that can be told apart, each word once.
pub fn telling_words(golden: &Machine<GoldenState>) -> Vec<Word> {
    let mut found = Vec::new();
    for second in golden.all_states() {
        for first in golden.all_states().take_while(|first| *first != second) {
            match telling_word(golden, first, golden, second) {
                Some(word) if !found.contains(&word) => found.push(word),
                _ => {}
            }
        }
    }
    found
}

/// The machine without unreached states and with one state for those that answer alike.
pub fn reduced(golden: &Machine<GoldenState>) -> Machine<GoldenState> {
    let mut kept: Vec<GoldenState> = Vec::new();
    for (state, _) in access_words(golden) {
        if kept_like(&kept, golden, state).is_none() {
            kept.push(state);
        }
    }
    // An unreached state may be like none that is kept, but no kept state leads there.
    let renumbered: Vec<GoldenState> = golden
        .all_states()
        .map(|state| kept_like(&kept, golden, state).unwrap_or(state))
        .collect();
    let steps = kept
        .iter()
        .flat_map(|&state| golden.all_inputs().map(move |input| (state, input)))
        .map(|(state, input)| golden.step(state, input))
        .map(|step| Step {
            next: renumbered[usize::from(step.next.0)],
            ..step
        })
        .collect();
    Machine {
        inputs: golden.inputs,
        steps,
    }
}

/// The new number of the kept state that answers like this one.
fn kept_like(
    kept: &[GoldenState],
    golden: &Machine<GoldenState>,
    state: GoldenState,
) -> Option<GoldenState> {
    let alike = |&other: &GoldenState| telling_word(golden, state, golden, other).is_none();
    let place = kept.iter().position(alike)?;
    Some(GoldenState(place as u8))
}
