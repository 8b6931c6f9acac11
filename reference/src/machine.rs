//! Mealy machines and their answers (document 01, section "What the bureau will hold").
//!
//! A golden state, a unit state, an input and an output are four sorts of number, so each has a
//! type of its own.

/// A state of the golden.
#[derive(Clone, Copy, Debug, PartialEq, Eq, PartialOrd, Ord, Hash)]
pub struct GoldenState(pub u8);

/// A state of a unit.
#[derive(Clone, Copy, Debug, PartialEq, Eq, PartialOrd, Ord, Hash)]
pub struct UnitState(pub u8);

/// An input, numbered from 0.
#[derive(Clone, Copy, Debug, PartialEq, Eq, PartialOrd, Ord, Hash)]
pub struct Input(pub u8);

/// An output; any byte.
#[derive(Clone, Copy, Debug, PartialEq, Eq, PartialOrd, Ord, Hash)]
pub struct Output(pub u8);

/// A word: a list of inputs, ordered by inputs from the front.
pub type Word = Vec<Input>;

/// The answer to a word: one output for each input.
pub type Answer = Vec<Output>;

/// What golden and unit states have in common. State 0 is the state after reset.
pub trait State: Copy + PartialEq {
    /// The state with this number.
    fn numbered(number: u8) -> Self;
    /// The number of this state.
    fn number(self) -> u8;
}

impl State for GoldenState {
    fn numbered(number: u8) -> Self {
        GoldenState(number)
    }
    fn number(self) -> u8 {
        self.0
    }
}

impl State for UnitState {
    fn numbered(number: u8) -> Self {
        UnitState(number)
    }
    fn number(self) -> u8 {
        self.0
    }
}

/// One entry of a table.
#[derive(Clone, Copy, Debug, PartialEq, Eq)]
pub struct Step<S> {
    pub next: S,
    pub output: Output,
}

/// A machine's table.
#[derive(Clone, Debug, PartialEq, Eq)]
pub struct Machine<S> {
    /// The count of inputs, k; at least 1.
    pub inputs: u8,
    /// The entries, by state and then by input.
    pub steps: Vec<Step<S>>,
}

impl<S: State> Machine<S> {
    /// The count of states; at most 64, so that a byte holds it.
    pub fn states(&self) -> u8 {
        (self.steps.len() / usize::from(self.inputs)) as u8
    }

    /// All states, from 0.
    pub fn all_states(&self) -> impl Iterator<Item = S> {
        (0..self.states()).map(S::numbered)
    }

    /// All inputs, from 0.
    pub fn all_inputs(&self) -> impl Iterator<Item = Input> {
        (0..self.inputs).map(Input)
    }

    /// The entry for a state and an input.
    pub fn step(&self, state: S, input: Input) -> Step<S> {
        self.steps[self.place_of_step(state, input)]
    }

    /// Where the entry for a state and an input stands.
    pub fn place_of_step(&self, state: S, input: Input) -> usize {
        usize::from(state.number()) * usize::from(self.inputs) + usize::from(input.0)
    }

    /// The same table over another sort of state: a unit taken as golden, or a golden as unit.
    pub fn over_states<T: State>(&self) -> Machine<T> {
        let steps = self.steps.iter().map(|step| Step {
            next: T::numbered(step.next.number()),
            output: step.output,
        });
        Machine {
            inputs: self.inputs,
            steps: steps.collect(),
        }
    }

    /// The answer to a word that starts in this state.
    pub fn answer_from(&self, start: S, word: &[Input]) -> Answer {
        let mut state = start;
        let mut answer = Answer::with_capacity(word.len());
        for &input in word {
            let step = self.step(state, input);
            answer.push(step.output);
            state = step.next;
        }
        answer
    }

    /// The answer to a word after reset.
    pub fn answer(&self, word: &[Input]) -> Answer {
        self.answer_from(S::numbered(0), word)
    }

    /// The state that a word reaches after reset.
    pub fn reached(&self, word: &[Input]) -> S {
        word.iter()
            .fold(S::numbered(0), |state, &input| self.step(state, input).next)
    }
}

/// The first step at which two answers to the same word differ.
pub fn first_difference(one: &[Output], other: &[Output]) -> Option<usize> {
    one.iter().zip(other).position(|(a, b)| a != b)
}

/// A word in print: one lower-case hex digit for each input.
pub fn digits(word: &[Input]) -> String {
    word.iter().map(|input| format!("{:x}", input.0)).collect()
}
