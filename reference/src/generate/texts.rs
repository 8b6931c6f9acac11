//! KISS2 texts: written from random machines with dashes and in every layout, and damaged by byte,
//! by field and by line.

use super::{damage, machines, Dice};
use crate::files::Unit;
use crate::machine::{Input, Output, Step, UnitState};
use crate::sizes::{LONGEST_NAME, MOST_INPUT_BITS, MOST_OUTPUT_BITS, MOST_STATES, MOST_TEXT_BYTES};

/// A line as its fields.
type Line = Vec<Vec<u8>>;

/// One draft as it is, and damaged in three ways.
pub fn texts(dice: &mut Dice) -> [Vec<u8>; 4] {
    let lines = draft(dice);
    let whole = laid_out(dice, &lines);
    let byte = damaged_by_byte(dice, whole.clone());
    let fields = damaged_by_field(dice, lines.clone());
    let field = laid_out(dice, &fields);
    let lines = damaged_by_line(dice, lines);
    let line = laid_out(dice, &lines);
    [whole, byte, field, line]
}

/// A machine as text, a term for each state and input, with nothing that could be left out; empty
/// where the count of inputs is no power of two.
pub fn plain(machine: &Unit) -> Vec<u8> {
    let bits = machine.inputs.trailing_zeros() as usize;
    if bits == 0 || 1 << bits != machine.inputs {
        return Vec::new();
    }
    let mut text = format!(".i {bits}\n.o {MOST_OUTPUT_BITS}\n");
    for state in machine.all_states() {
        for input in machine.all_inputs() {
            let Step { next, output } = machine.step(state, input);
            let (input, output) = (input.0, output.0);
            text += &format!("{input:0bits$b} s{} s{} {output:08b}\n", state.0, next.0);
        }
    }
    (text + ".e\n").into_bytes()
}

/// Lines of which most are without fault.
fn draft(dice: &mut Dice) -> Vec<Line> {
    let input_bits = *dice.pick(&[1, 1, 1, 2, 2, 3, MOST_INPUT_BITS]);
    let output_bits = dice.between(1, MOST_OUTPUT_BITS);
    let states = match dice.below(40) {
        0 => dice.between(7, usize::from(MOST_STATES)),
        _ => dice.between(1, 5),
    };
    let outputs = *dice.pick(&[1, 2, 1 << output_bits]);
    let mut machine = machines::random(dice, 1 << input_bits, states as u8, outputs);
    if dice.one_in(2) {
        forget_bits(dice, &mut machine);
    }
    let names = names(dice, states);
    let mut terms = terms(dice, &machine, output_bits, &names);
    let mut head = vec![said(dice, ".i", input_bits), said(dice, ".o", output_bits)];
    head.extend(more_of_head(dice, terms.len(), &names));
    if dice.one_in(2) {
        dice.shuffle(&mut head);
    }
    head.append(&mut terms);
    head.push(fields(&[".e"]));
    head
}

/// Makes some bits of the inputs matter no more, so that there is something to write as dashes.
fn forget_bits(dice: &mut Dice, machine: &mut Unit) {
    for state in machine.all_states() {
        let kept = dice.byte();
        for input in machine.all_inputs() {
            let place = machine.place_of_step(state, input);
            machine.steps[place] = machine.step(state, Input(input.0 & kept));
        }
    }
}

/// Names that differ, of one kind: numbered, alike but for the last of 16 bytes, with any bytes that
/// a name may have, or such as could be taken for something else.
fn names(dice: &mut Dice, count: usize) -> Vec<Vec<u8>> {
    const ODD: [&str; 12] = [
        ".e", ".i", ".r", "*", "-", "#", "0", "1", "--", "#a", "~", "!",
    ];
    let kind = dice.below(4);
    let mut names: Vec<Vec<u8>> = Vec::new();
    while names.len() < count {
        let length = dice.between(1, LONGEST_NAME);
        let name = match kind {
            0 => format!("s{}", names.len()).into_bytes(),
            1 => [&[b'q'; LONGEST_NAME - 1][..], &[b'!' + names.len() as u8]].concat(),
            2 if names.len() < 8 => dice.pick(&ODD).as_bytes().to_vec(),
            _ => (0..length).map(|_| printable(dice)).collect(),
        };
        if !names.contains(&name) {
            names.push(name);
        }
    }
    names
}

fn printable(dice: &mut Dice) -> u8 {
    dice.between(0x21, 0x7e) as u8
}

/// Which inputs a term is of: those that are the value where there is no dash.
#[derive(Clone, Copy)]
struct Cube {
    value: u8,
    dashes: u8,
}

impl Cube {
    fn holds(self, input: Input) -> bool {
        (input.0 ^ self.value) & !self.dashes == 0
    }

    fn shown(self, bits: usize) -> Vec<u8> {
        let shown = |bit: usize| match (self.dashes >> bit & 1, self.value >> bit & 1) {
            (1, _) => b'-',
            (_, value) => b'0' + value,
        };
        (0..bits).rev().map(shown).collect()
    }
}

/// A machine's terms, often in any order, now and then with some of them once more.
fn terms(dice: &mut Dice, machine: &Unit, output_bits: usize, names: &[Vec<u8>]) -> Vec<Line> {
    let bits = machine.inputs.trailing_zeros() as usize;
    let mut terms = Vec::new();
    for state in machine.all_states() {
        for cube in cubes(dice, machine, state, bits) {
            let Step { next, output } = machine.step(state, Input(cube.value));
            terms.push(vec![
                cube.shown(bits),
                names[usize::from(state.0)].clone(),
                names[usize::from(next.0)].clone(),
                output_of(output, output_bits),
            ]);
        }
    }
    if dice.one_in(2) {
        dice.shuffle(&mut terms);
    }
    if dice.one_in(6) {
        let again = dice.pick(&terms).clone();
        terms.insert(dice.below(terms.len() + 1), again);
    }
    terms
}

fn output_of(output: Output, bits: usize) -> Vec<u8> {
    format!("{:0bits$b}", output.0).into_bytes()
}

/// Cubes that hold all inputs of a state, some inputs more than once.
fn cubes(dice: &mut Dice, machine: &Unit, state: UnitState, bits: usize) -> Vec<Cube> {
    let mut left: Vec<Input> = machine.all_inputs().collect();
    let mut cubes = Vec::new();
    while let Some(&input) = left.first() {
        let cube = widened(dice, machine, state, input, bits);
        left.retain(|&other| !cube.holds(other));
        cubes.push(cube);
    }
    cubes
}

/// The cube of one input with dashes, as far as all that it holds is answered alike.
fn widened(dice: &mut Dice, machine: &Unit, state: UnitState, input: Input, bits: usize) -> Cube {
    let mut cube = Cube {
        value: input.0,
        dashes: 0,
    };
    for bit in 0..bits {
        let wider = Cube {
            dashes: cube.dashes | 1 << bit,
            ..cube
        };
        let mut held = machine.all_inputs().filter(|&other| wider.holds(other));
        let alike = held.all(|other| machine.step(state, other) == machine.step(state, input));
        if alike && !dice.one_in(4) {
            cube = wider;
        }
    }
    cube
}

/// `.p`, `.s` and `.r`, each of which may be left out or be wrong.
fn more_of_head(dice: &mut Dice, terms: usize, names: &[Vec<u8>]) -> Vec<Line> {
    let mut head = Vec::new();
    for (directive, right) in [(".p", terms), (".s", names.len())] {
        let number = *dice.pick(&[right, right, right, right, right - 1, right + 1]);
        let number = if dice.one_in(2) { number } else { right };
        if dice.one_in(2) {
            head.push(said(dice, directive, number));
        }
    }
    let stranger = vec![printable(dice)];
    let reset = match dice.below(12) {
        0 => &stranger,
        1..=5 => dice.pick(names),
        _ => return head,
    };
    head.push(vec![b".r".to_vec(), reset.clone()]);
    head
}

/// A directive with its number, now and then with zeros before it.
fn said(dice: &mut Dice, directive: &str, number: usize) -> Line {
    let width = match dice.below(16) {
        0 => dice.between(2, 9),
        _ => 1,
    };
    fields(&[directive, &format!("{number:0width$}")])
}

fn fields(line: &[&str]) -> Line {
    line.iter().map(|field| field.as_bytes().to_vec()).collect()
}

/// The bytes of lines: plain, or with everything between the fields and the lines that is skipped.
fn laid_out(dice: &mut Dice, lines: &[Line]) -> Vec<u8> {
    let is_plain = dice.one_in(3);
    let mut text = Vec::new();
    for line in lines {
        if is_plain {
            text.extend(line.join(&b' '));
        } else {
            put_skipped(dice, &mut text);
            put_line(dice, &mut text, line);
        }
        text.push(b'\n');
    }
    if dice.one_in(4) {
        text.pop();
    }
    text
}

/// Now and then a comment, or a line without fields.
fn put_skipped(dice: &mut Dice, text: &mut Vec<u8>) {
    const SKIPPED: [&[u8]; 6] = [
        b"# a comment\n",
        b"\t#0 a b 0\r\n",
        b"#\x00\xff.e\n",
        b"\n",
        b" \t\r\n",
        b"\r\n",
    ];
    if dice.one_in(5) {
        text.extend(*dice.pick(&SKIPPED));
    }
}

/// The fields with mostly one space between, and mostly nothing before and behind them.
fn put_line(dice: &mut Dice, text: &mut Vec<u8>, line: &Line) {
    const BETWEEN: [&[u8]; 8] = [b" ", b" ", b" ", b" ", b"\t", b"\r", b"  ", b" \t\r "];
    const AROUND: [&[u8]; 8] = [b"", b"", b"", b"", b"", b"\r", b" ", b"\t "];
    text.extend(*dice.pick(&AROUND));
    for (place, field) in line.iter().enumerate() {
        if place > 0 {
            text.extend(*dice.pick(&BETWEEN));
        }
        text.extend(field);
    }
    text.extend(*dice.pick(&AROUND));
}

/// Bytes that mean something in a text, and such as stand just beside those that a name may have.
const TELLING: &[u8] = b" \t\r\n\n#.-01201eiopsr\x00\x0b\x0c\x20\x21\x7e\x7f\x80\xff";

/// A byte changed, put in or taken out; now and then as any file is damaged.
fn damaged_by_byte(dice: &mut Dice, mut text: Vec<u8>) -> Vec<u8> {
    if text.is_empty() || dice.one_in(40) {
        return damage::damaged(dice, text, MOST_TEXT_BYTES);
    }
    let place = dice.below(text.len());
    let byte = *dice.pick(TELLING);
    match dice.below(4) {
        0 => text.insert(place, byte),
        1 => drop(text.remove(place)),
        2 => text.truncate(place),
        _ => text[place] = byte,
    }
    text
}

/// A field dropped, doubled, exchanged with another, longer, shorter, a strange one, or with one bit
/// that is another.
fn damaged_by_field(dice: &mut Dice, mut lines: Vec<Line>) -> Vec<Line> {
    const STRANGE: [&str; 10] = [
        ".e",
        ".i",
        "#",
        "-",
        "*",
        "2",
        "01",
        "0-1",
        "sixteen-bytes-ok",
        "seventeen-bytes-no",
    ];
    let other = dice.pick(&lines).clone();
    let other = dice.pick(&other).clone();
    let at = dice.below(lines.len());
    let line = &mut lines[at];
    let (place, beside) = (dice.below(line.len()), dice.below(line.len()));
    match dice.below(10) {
        0 => drop(line.remove(place)),
        1 => line.insert(place, line[place].clone()),
        2 => line.swap(place, beside),
        3 => line[place] = other,
        4 => line[place].push(*dice.pick(b"01-2x")),
        5 => drop(line[place].pop()),
        6 => line[place] = dice.pick(&STRANGE).as_bytes().to_vec(),
        _ => turn_bit(dice, &mut line[place]),
    }
    lines
}

/// Another bit in the place of one; the field may be any.
fn turn_bit(dice: &mut Dice, field: &mut [u8]) {
    let place = dice.below(field.len());
    field[place] = *dice.pick(b"01-");
}

/// A line dropped, doubled, moved, exchanged with another, a strange one put in, or a term more that
/// has its fields of others.
fn damaged_by_line(dice: &mut Dice, mut lines: Vec<Line>) -> Vec<Line> {
    const STRANGE: [&[&str]; 8] = [
        &[".e"],
        &[".ilb", "a"],
        &[".end"],
        &[".start_kiss"],
        &[".i", "1"],
        &[".r", "a"],
        &["x"],
        &["0", "a", "b", "0"],
    ];
    let (from, to) = (dice.below(lines.len()), dice.below(lines.len()));
    match dice.below(7) {
        0 => drop(lines.remove(from)),
        1 => lines.insert(to, lines[from].clone()),
        2 => lines.swap(from, to),
        3 => {
            let moved = lines.remove(from);
            lines.insert(to, moved);
        }
        4 => lines.insert(to, fields(dice.pick::<&[&str]>(&STRANGE))),
        _ => {
            let mixed = mixed_term(dice, &lines);
            lines.insert(lines.len() - 1, mixed);
        }
    }
    lines
}

/// Each field of any term.
fn mixed_term(dice: &mut Dice, lines: &[Line]) -> Line {
    let terms: Vec<&Line> = lines.iter().filter(|line| line.len() == 4).collect();
    (0..4)
        .map(|place| dice.pick(&terms)[place].clone())
        .collect()
}
