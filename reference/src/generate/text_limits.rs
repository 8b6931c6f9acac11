//! KISS2 texts at the limits of document 02, L2, and one step past them; and the longest.

use super::{machines, Dice};
use crate::machine::{Input, Output, Step, UnitState};
use crate::sizes::{
    LONGEST_NAME, MOST_INPUTS, MOST_INPUT_BITS, MOST_OUTPUT_BITS, MOST_STATES, MOST_TEXT_BYTES,
};

/// Short texts: numbers, widths and names around their limits, what may be left out, and what is
/// lacking.
pub fn edges() -> Vec<Vec<u8>> {
    [widths(), numbers(), names(), counts(), endings()].concat()
}

/// A text of one state whose term is of all inputs.
fn of_one_state(inputs: usize, outputs: usize) -> String {
    let (cube, output) = ("-".repeat(inputs), "1".repeat(outputs));
    format!(".i {inputs}\n.o {outputs}\n{cube} a a {output}\n.e\n")
}

/// Each count of bits; a cube and an output of a bit more or less.
fn widths() -> Vec<Vec<u8>> {
    let inputs = (0..=MOST_INPUT_BITS + 1).map(|bits| of_one_state(bits, 1));
    let outputs = (0..=MOST_OUTPUT_BITS + 1).map(|bits| of_one_state(1, bits));
    let others = [
        "- a a 1",
        "--- a a 1",
        "-- a a",
        "-- a a 11",
        "-- a a 1 1",
        "-2 a a 1",
        "-- a a -",
        "-- a a 2",
    ];
    let others = others.map(|term| format!(".i 2\n.o 1\n{term}\n.e\n"));
    inputs
        .chain(outputs)
        .chain(others)
        .map(String::into_bytes)
        .collect()
}

/// Each directive with numbers of any form.
fn numbers() -> Vec<Vec<u8>> {
    let forms = [
        "0",
        "01",
        "000000001",
        "0000000001",
        "+1",
        "1a",
        "1 1",
        "",
        "64",
        "65",
        "999999999",
    ];
    let text = |directive: &str, number: &str| {
        let others = [".i", ".o"].into_iter().filter(|&other| other != directive);
        let others: String = others.map(|other| format!("{other} 1\n")).collect();
        format!("{others}{directive} {number}\n- a a 0\n.e\n").into_bytes()
    };
    let directives = [".i", ".o", ".p", ".s"].into_iter();
    let texts = directives.flat_map(|directive| forms.map(|number| text(directive, number)));
    texts.collect()
}

/// Names of 1, 16 and 17 bytes, with the bytes beside those that a name may have.
fn names() -> Vec<Vec<u8>> {
    let lengths = [1, LONGEST_NAME, LONGEST_NAME + 1].map(|length| vec![b'a'; length]);
    let bytes = [0x0b, 0x20, 0x21, 0x7e, 0x7f, 0x80].map(|byte| vec![b'a', byte]);
    let names = lengths.into_iter().chain(bytes);
    let texts = names.flat_map(|name| {
        let reset = [b".r ", &name[..], b"\n.i 1\n.o 1\n- a a 0\n.e\n"].concat();
        let next = [b".i 1\n.o 1\n- a ", &name[..], b" 0\n.e\n"].concat();
        [reset, next]
    });
    texts.collect()
}

/// Two terms and two states, of which more or fewer are said; and directives twice or too late.
fn counts() -> Vec<Vec<u8>> {
    let heads = [
        ".p 1\n", ".p 2\n", ".p 3\n", ".s 1\n", ".s 2\n", ".s 3\n", ".r b\n", ".r c\n", ".i 1\n",
        ".x\n",
    ];
    let before = heads.map(|head| format!(".i 1\n.o 1\n{head}- a b 0\n- b a 1\n.e\n"));
    let after = heads.map(|head| format!(".i 1\n.o 1\n- a b 0\n{head}- b a 1\n.e\n"));
    let bare = [
        "- b a 1\n",
        "1 a b 1\n",
        "1 a a 0\n",
        "- a b 0\n",
        "",
        "0 b a 0\n",
    ];
    let terms = bare.map(|term| format!(".i 1\n.o 1\n- a b 0\n{term}.e\n"));
    let texts = before.into_iter().chain(after).chain(terms);
    texts.map(String::into_bytes).collect()
}

/// What lacks something at its end, and what has something after it.
fn endings() -> Vec<Vec<u8>> {
    let texts = [
        "",
        "\n",
        " ",
        "#",
        ".e",
        ".e\n",
        ".e\n ",
        ".i 1\n.o 1\n.e\n",
        ".i 1\n.o 1\n.p 1\n.r a\n.e",
        ".o 1\n- a a 0\n.e\n",
        ".i 1\n- a a 0\n.e\n",
        ".i 1\n.o 1\n- a a 0",
        ".i 1\n.o 1\n- a a 0\n",
        ".i 1\n.o 1\n- a a 0\n.e",
        ".i 1\n.o 1\n- a a 0\n.e\n\n# \n\r",
        ".i 1\n.o 1\n- a a 0\n.e\n.e\n",
        ".i 1\n.o 1\n- a a 0\n.e x\n",
        ".i 1\r\n.o\t1\r\n\t- a  a 0 \r\n.e\r\n",
    ];
    texts.map(|text| text.as_bytes().to_vec()).to_vec()
}

/// Longer texts: 64 states and one more, and 65,535 bytes and one more.
pub fn limits() -> Vec<Vec<u8>> {
    let mut texts = many_states();
    for length in MOST_TEXT_BYTES - 1..=MOST_TEXT_BYTES + 2 {
        for filling in [b'\n', b' ', b'#', b'x', b'.', 0] {
            texts.push(vec![filling; length]);
            texts.push(filled(of_one_state(4, 8).into_bytes(), length, filling));
        }
    }
    texts.extend(longest().into_iter().map(|(_, text)| text));
    texts
}

/// The text with more of one byte behind it.
fn filled(mut text: Vec<u8>, length: usize, filling: u8) -> Vec<u8> {
    text.resize(length, filling);
    text
}

/// States that follow each other and states that stay, with and without `.s` and `.r`. The 65th
/// comes as a next state or as a current one.
fn many_states() -> Vec<Vec<u8>> {
    let most = usize::from(MOST_STATES);
    let mut texts = Vec::new();
    for states in most - 1..=most + 1 {
        for step in [0, 1] {
            let term = |state: usize| format!("- s{state} s{} 0\n", (state + step) % states);
            let terms: String = (0..states).map(term).collect();
            for said in [
                "",
                ".s 63\n",
                ".s 64\n",
                ".s 65\n",
                ".r s9\n",
                ".r t\n",
                ".r t\n.s 64\n",
            ] {
                texts.push(format!("{said}.i 1\n.o 1\n{terms}.e\n").into_bytes());
            }
        }
    }
    texts
}

/// Texts of 65,535 bytes on which the reading has most to do, and what they are.
pub fn longest() -> Vec<(&'static str, Vec<u8>)> {
    let long_name = "x".repeat(MOST_TEXT_BYTES).into_bytes();
    let many_fields = "x ".repeat(MOST_TEXT_BYTES).into_bytes();
    vec![
        ("8,000 short terms", full(1, 1, &["- a a 0\n".to_string()])),
        (
            "wide cubes",
            full(4, 8, &["---- a a 00000000\n".to_string()]),
        ),
        ("one line, one field", long_name),
        (
            "one line, 32,768 fields",
            many_fields[..MOST_TEXT_BYTES].to_vec(),
        ),
        ("65,535 line feeds", vec![b'\n'; MOST_TEXT_BYTES]),
        (
            "64 names alike but for the last byte",
            full(1, 1, &alike_names()),
        ),
        ("64 states and 16 inputs", largest_machine()),
    ]
}

/// A text of those terms, of which the last is repeated until it is full, and a comment for the rest.
fn full(inputs: usize, outputs: usize, terms: &[String]) -> Vec<u8> {
    let mut text = format!(".i {inputs}\n.o {outputs}\n{}", terms.concat());
    let last = &terms[terms.len() - 1];
    while text.len() + last.len() + ".e\n".len() <= MOST_TEXT_BYTES {
        text += last;
    }
    filled((text + ".e\n").into_bytes(), MOST_TEXT_BYTES, b'#')
}

fn alike_name(state: u8) -> String {
    let last = char::from(b'!' + state);
    "n".repeat(LONGEST_NAME - 1) + &last.to_string()
}

fn alike_names() -> Vec<String> {
    let term = |state: u8| format!("- {0} {0} 0\n", alike_name(state));
    (0..MOST_STATES).map(term).collect()
}

/// A term for each state and input, with names of 16 bytes.
fn largest_machine() -> Vec<u8> {
    let mut dice = Dice::new(1, 1);
    let machine = machines::random(&mut dice, MOST_INPUTS, MOST_STATES, 256);
    let mut terms = Vec::new();
    for state in machine.all_states() {
        for input in machine.all_inputs() {
            let Step { next, output }: Step<UnitState> = machine.step(state, input);
            let (Input(input), Output(output)) = (input, output);
            let (state, next) = (alike_name(state.0), alike_name(next.0));
            terms.push(format!("{input:04b} {state} {next} {output:08b}\n"));
        }
    }
    full(4, 8, &terms)
}
