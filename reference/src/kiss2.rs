//! The reading of KISS2 text into a unit file (document 02, L2). docs/KISS2.md numbers the rules of
//! the grammar.

use crate::files::{write_at_front, write_unit, Unit};
use crate::machine::{Input, Machine, Output, Step, UnitState};
use crate::refusal::{File, Place, Refusal};
use crate::sizes::{
    LONGEST_NAME, LONGEST_NUMBER, MOST_INPUT_BITS, MOST_OUTPUT_BITS, MOST_STATES, MOST_TEXT_BYTES,
};
use std::collections::HashMap;

/// The length of the unit file that was written.
#[derive(Clone, Copy, Debug, PartialEq, Eq)]
pub struct Imported {
    pub length: usize,
}

/// Writes the unit file of a text at the front of the output, or refuses: 1, then 19 and 20 as met
/// by line, 21, 17.
pub fn read_kiss2(text: &[u8], output: &mut [u8]) -> Result<Imported, Refusal> {
    let bytes = imported_bytes(text)?;
    write_at_front(&bytes, output)?;
    Ok(Imported {
        length: bytes.len(),
    })
}

/// The bytes of the unit file, for an output that has room for any.
pub fn imported_bytes(text: &[u8]) -> Result<Vec<u8>, Refusal> {
    if text.len() > MOST_TEXT_BYTES {
        return Err(Refusal::TooLong(Place {
            file: File::Text,
            byte: 0,
        }));
    }
    let mut reader = Reader::default();
    let mut line = 1;
    for bytes in lines(text) {
        reader.line(&fields(bytes)).map_err(|fault| fault(line))?;
        line += 1;
    }
    if !reader.is_whole() {
        return Err(bad_line(line));
    }
    Ok(write_unit(&reader.unit()?))
}

/// A line ends in a line feed. What stands after the last one is a line too, but for nothing.
fn lines(text: &[u8]) -> Vec<&[u8]> {
    let mut lines: Vec<&[u8]> = text.split(|&byte| byte == b'\n').collect();
    if lines.last().is_some_and(|last| last.is_empty()) {
        lines.pop();
    }
    lines
}

/// The fields of a line, between any count of spaces, tabs and carriage returns.
fn fields(line: &[u8]) -> Vec<&[u8]> {
    let between = |byte: &u8| matches!(byte, b' ' | b'\t' | b'\r');
    let fields = line.split(between);
    fields.filter(|field| !field.is_empty()).collect()
}

/// A refusal that lacks its line.
type Fault = fn(usize) -> Refusal;

fn bad_line(line: usize) -> Refusal {
    Refusal::BadLine { line }
}

fn contradiction(line: usize) -> Refusal {
    Refusal::Contradiction { line }
}

const BAD_LINE: Fault = bad_line;
const CONTRADICTION: Fault = contradiction;

/// A term whose fields are as they should be.
struct Term<'a> {
    inputs: Vec<Input>,
    current: &'a [u8],
    next: &'a [u8],
    output: Output,
}

/// The next state and the output that a term has.
type Answered<'a> = (&'a [u8], Output);

/// What the lines up to now have said.
#[derive(Default)]
struct Reader<'a> {
    input_bits: Option<usize>,
    output_bits: Option<usize>,
    terms_said: Option<usize>,
    states_said: Option<usize>,
    reset: Option<&'a [u8]>,
    /// Every name once, of `.r`, current and next states together.
    names: Vec<&'a [u8]>,
    /// The current and the next state of each term.
    terms: Vec<(&'a [u8], &'a [u8])>,
    /// What was said of a state and an input.
    steps: HashMap<(&'a [u8], Input), Answered<'a>>,
    is_ended: bool,
}

impl<'a> Reader<'a> {
    fn line(&mut self, fields: &[&'a [u8]]) -> Result<(), Fault> {
        let is_head = self.terms.is_empty();
        match *fields {
            [] => Ok(()),
            [first, ..] if first.starts_with(b"#") => Ok(()),
            _ if self.is_ended => Err(BAD_LINE),
            [b".e"] => {
                self.is_ended = true;
                Ok(())
            }
            [b".i", bits] if is_head => say(&mut self.input_bits, bits, MOST_INPUT_BITS),
            [b".o", bits] if is_head => say(&mut self.output_bits, bits, MOST_OUTPUT_BITS),
            [b".p", terms] if is_head => say(&mut self.terms_said, terms, usize::MAX),
            [b".s", states] if is_head => say(&mut self.states_said, states, MOST_STATES.into()),
            [b".r", name] if is_head && self.reset.is_none() => {
                self.reset = Some(name);
                self.name(name)
            }
            [cube, current, next, output] => {
                let term = self.term(cube, current, next, output)?;
                self.take(term)
            }
            _ => Err(BAD_LINE),
        }
    }

    /// Counts a name, unless it is a known one. One too many is a fault.
    fn name(&mut self, name: &'a [u8]) -> Result<(), Fault> {
        let is_printable = name.iter().all(|byte| (0x21..=0x7e).contains(byte));
        if name.len() > LONGEST_NAME || !is_printable {
            return Err(BAD_LINE);
        }
        if !self.names.contains(&name) {
            self.names.push(name);
        }
        let most = self.states_said.unwrap_or(MOST_STATES.into());
        hold(self.names.len() <= most)
    }

    /// A term by itself, without the terms before it.
    fn term(
        &mut self,
        cube: &[u8],
        current: &'a [u8],
        next: &'a [u8],
        output: &[u8],
    ) -> Result<Term<'a>, Fault> {
        hold(Some(cube.len()) == self.input_bits)?;
        hold(Some(output.len()) == self.output_bits)?;
        hold(cube.iter().all(|bit| b"01-".contains(bit)))?;
        hold(output.iter().all(|bit| b"01".contains(bit)))?;
        self.name(current)?;
        self.name(next)?;
        let one_more = self.terms.len() + 1;
        hold(self.terms_said.is_none_or(|said| one_more <= said))?;
        Ok(Term {
            inputs: opened(cube).into_iter().map(Input).collect(),
            current,
            next,
            // Without a dash there is one number.
            output: Output(opened(output)[0]),
        })
    }

    /// Whether the term says the same as earlier ones, on each input of its own.
    fn take(&mut self, term: Term<'a>) -> Result<(), Fault> {
        let said = (term.next, term.output);
        for input in term.inputs {
            let earlier = self.steps.insert((term.current, input), said);
            if earlier.is_some_and(|earlier| earlier != said) {
                return Err(CONTRADICTION);
            }
        }
        self.terms.push((term.current, term.next));
        Ok(())
    }

    /// Whether the lines lack nothing. A term stands behind `.i` and `.o`.
    fn is_whole(&self) -> bool {
        let (terms, states) = (self.terms.len(), self.names.len());
        self.is_ended
            && terms > 0
            && self.terms_said.is_none_or(|said| said == terms)
            && self.states_said.is_none_or(|said| said == states)
    }

    /// The names in the order of their states: the reset state, then current states, then states
    /// that are next states only, each as they first occur.
    fn numbered(&self) -> Vec<&'a [u8]> {
        let currents = self.terms.iter().map(|&(current, _)| current);
        let nexts = self.terms.iter().map(|&(_, next)| next);
        let mut names = Vec::new();
        for name in self.reset.into_iter().chain(currents).chain(nexts) {
            if !names.contains(&name) {
                names.push(name);
            }
        }
        names
    }

    /// The machine, or INCOMPLETE with the lowest state, then input, without a term.
    fn unit(&self) -> Result<Unit, Refusal> {
        let names = self.numbered();
        let number = |name| names.iter().position(|&other| other == name);
        let inputs = 1 << self.input_bits.unwrap_or(0);
        let mut steps = Vec::new();
        for (state, name) in names.iter().enumerate() {
            for input in (0..inputs).map(Input) {
                let said = self.steps.get(&(name, input));
                let &(next, output) = said.ok_or(Refusal::Incomplete {
                    state: UnitState(state as u8),
                    input,
                })?;
                let next = number(next).expect("every next state has a number");
                steps.push(Step {
                    next: UnitState(next as u8),
                    output,
                });
            }
        }
        Ok(Machine { inputs, steps })
    }
}

fn hold(good: bool) -> Result<(), Fault> {
    if good {
        Ok(())
    } else {
        Err(BAD_LINE)
    }
}

/// Takes down a number from 1 to the most, in at most nine digits, that was not said before.
fn say(said: &mut Option<usize>, digits: &[u8], most: usize) -> Result<(), Fault> {
    hold(said.is_none() && digits.len() <= LONGEST_NUMBER)?;
    hold(digits.iter().all(u8::is_ascii_digit))?;
    let add = |number: usize, digit: &u8| 10 * number + usize::from(digit - b'0');
    let number = digits.iter().fold(0, add);
    hold((1..=most).contains(&number))?;
    *said = Some(number);
    Ok(())
}

/// The numbers that bits stand for: the leftmost is the highest, a dash is both bits.
fn opened(bits: &[u8]) -> Vec<u8> {
    bits.iter().fold(vec![0], |numbers, bit| {
        let ends: &[u8] = match bit {
            b'0' => &[0],
            b'1' => &[1],
            _ => &[0, 1],
        };
        let grown = |number: u8| ends.iter().map(move |end| number << 1 | end);
        numbers.into_iter().flat_map(grown).collect()
    })
}
