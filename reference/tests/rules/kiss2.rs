//! The reading of KISS2 text, rule by rule of docs/KISS2.md, and each refusal at its limits.

use crate::common::*;
use reference::files::{read_unit, write_unit};
use reference::generate::{edges, text_case, text_cases, text_limits, Case};
use reference::kiss2::{imported_bytes, read_kiss2, Imported};
use reference::machine::{Input, UnitState};
use reference::refusal::{File, Place, Refusal};
use std::collections::BTreeMap;

fn bad_line(line: usize) -> Refusal {
    Refusal::BadLine { line }
}

fn contradiction(line: usize) -> Refusal {
    Refusal::Contradiction { line }
}

fn incomplete(state: u8, input: u8) -> Refusal {
    Refusal::Incomplete {
        state: UnitState(state),
        input: Input(input),
    }
}

const TOO_LONG: Refusal = Refusal::TooLong(Place {
    file: File::Text,
    byte: 0,
});

#[track_caller]
fn gives(text: &str, unit: &str) {
    assert_eq!(imported_bytes(text.as_bytes()), Ok(hex(unit)), "{text:?}");
}

#[track_caller]
fn is_refused(text: &str, refusal: Refusal) {
    assert_eq!(imported_bytes(text.as_bytes()), Err(refusal), "{text:?}");
}

/// A text of one input bit and one output bit with these lines behind `.i` and `.o`.
fn narrow(lines: &str) -> String {
    format!(".i 1\n.o 1\n{lines}")
}

/// One state that stays where it is; the smallest machine there is.
const STAYS: &str = ".i 1\n.o 1\n- a a 0\n.e\n";
const STAYS_UNIT: &str = "02 00 02 01 02 00 00 00 00 00";

#[test]
fn g_is_imported_in_14_bytes() {
    let mut output = [0xee; 16];
    let answer = read_kiss2(TEXT_G.as_bytes(), &mut output);
    assert_eq!(answer, Ok(Imported { length: 14 }));
    assert_eq!(output[..14], table_g_bytes());
    assert_eq!(output[14..], [0xee; 2]);
}

/// The second worked text of docs/KISS2.md: dashes, a comment, and a reset state that is no first
/// term's.
#[test]
fn dashes_are_opened_and_states_numbered() {
    let text = "\
.i 2
.o 3
.s 3
.r idle
# left bit: start, right bit: stop
-1 run  idle 001
00 run  run  100
10 run  run  100
0- idle idle 000
1- idle wait 010
-0 wait run  110
-1 wait idle 001
.e
";
    gives(
        text,
        "02 00 04 03 0c 00 00 00 00 00 02 02 02 02 01 04 00 01 01 04 00 01 01 06 00 01 01 06 00 01",
    );
}

#[test]
fn rule_1_a_last_line_needs_no_line_feed() {
    gives(STAYS, STAYS_UNIT);
    gives(STAYS.trim_end(), STAYS_UNIT);
    for (text, line) in [
        ("", 1),
        ("\n", 2),
        (" ", 2),
        ("\n ", 3),
        ("\n\n", 3),
        (".e", 2),
        (".e\n", 2),
    ] {
        is_refused(text, bad_line(line));
    }
}

#[test]
fn rule_2_fields_stand_between_spaces_tabs_and_carriage_returns() {
    gives(".i 1\r\n.o 1\r\n- a a 0\r\n.e\r\n", STAYS_UNIT);
    gives("\t.i\t \r1\r \n\r.o  1\n  -\ta\ra  0\t\n .e ", STAYS_UNIT);
    for other in ["\x0b", "\x0c", "\0", "\u{a0}"] {
        is_refused(&narrow(&format!("-{other}a a 0\n.e\n")), bad_line(3));
        is_refused(&narrow(&format!("- a a 0{other}\n.e\n")), bad_line(3));
    }
}

#[test]
fn rule_3_comments_and_empty_lines_are_skipped_and_counted() {
    let text = "#\n.i 1\n\n # .i 2\n.o 1\n \t\r\n#\0\n- a a 0\n#\n.e\n\n# x\n";
    gives(text, STAYS_UNIT);
    gives(&narrow("- # # 0\n.e\n"), STAYS_UNIT);
    is_refused(&narrow("- a a 0 # x\n.e\n"), bad_line(3));
    is_refused(&narrow("\n#\n- a a 0 1\n.e\n"), bad_line(5));
    is_refused("\n# x\n\n", bad_line(4));
}

#[test]
fn rule_4_directives_stand_once_and_before_the_terms() {
    gives(".r a\n.s 1\n.p 1\n.o 1\n.i 1\n- a a 0\n.e\n", STAYS_UNIT);
    for directive in [".i 1", ".o 1", ".p 2", ".s 2", ".r a"] {
        let twice = format!(".p 2\n.s 2\n.r a\n.i 1\n.o 1\n{directive}\n- a b 0\n- b a 0\n.e\n");
        is_refused(&twice, bad_line(6));
        is_refused(&narrow(&format!("- a a 0\n{directive}\n.e\n")), bad_line(4));
        let alone = directive.split(' ').next().unwrap();
        is_refused(&format!("{alone}\n{STAYS}"), bad_line(1));
        is_refused(&format!("{directive} 1\n{STAYS}"), bad_line(1));
    }
    is_refused(".i 1\n- a a 0\n.o 1\n.e\n", bad_line(2));
    is_refused(".o 1\n- a a 0\n.i 1\n.e\n", bad_line(2));
    is_refused("- a a 0\n.i 1\n.o 1\n.e\n", bad_line(1));
}

#[test]
fn rule_5_bits_have_their_range() {
    for (bits, good) in [(0, false), (1, true), (4, true), (5, false)] {
        let cube = "-".repeat(bits);
        let text = format!(".i {bits}\n.o 1\n{cube} a a 0\n.e\n");
        let entries = imported_bytes(text.as_bytes()).map(|unit| (unit.len() - 6) / 2);
        let right = if good {
            Ok(1 << bits)
        } else {
            Err(bad_line(1))
        };
        assert_eq!(entries, right);
    }
    for (bits, good) in [(0, false), (1, true), (8, true), (9, false)] {
        let output = "1".repeat(bits);
        let text = format!(".i 1\n.o {bits}\n- a a {output}\n.e\n");
        let last = imported_bytes(text.as_bytes()).map(|unit| unit[9]);
        let right = if good {
            Ok(255 >> (8 - bits))
        } else {
            Err(bad_line(2))
        };
        assert_eq!(last, right);
    }
}

#[test]
fn rule_5_numbers_have_at_most_nine_digits() {
    for number in ["1", "01", "000000001"] {
        let head = format!(".i {number}\n.o {number}\n.p {number}\n.s {number}\n");
        gives(&format!("{head}- a a 0\n.e\n"), STAYS_UNIT);
    }
    for number in [
        "0000000001",
        "0",
        "000000000",
        "+1",
        "-1",
        "1.",
        "1x",
        "x",
        "0x1",
        "1000000000",
    ] {
        for directive in [".i", ".o", ".p", ".s"] {
            is_refused(&format!("{directive} {number}\n"), bad_line(1));
        }
    }
    is_refused(".s 65\n", bad_line(1));
    is_refused(".s 64\n", bad_line(2));
    is_refused(&narrow(".p 999999999\n- a a 0\n.e\n"), bad_line(6));
}

#[test]
fn rule_6_a_term_has_four_fields_of_their_widths() {
    for term in [
        "- a a",
        "- a a 0 0",
        "-- a a 0",
        "2 a a 0",
        "- a a 00",
        "- a a -",
        "- a a 2",
        "a - a 0",
        "-aa0",
    ] {
        is_refused(&narrow(&format!("{term}\n.e\n")), bad_line(3));
    }
    is_refused(".i 2\n.o 2\n- a a 00\n.e\n", bad_line(3));
    is_refused(".i 2\n.o 2\n-- a a 0\n.e\n", bad_line(3));
}

/// "the leftmost bit is highest, in outputs too".
#[test]
fn the_leftmost_bit_is_highest() {
    let text = ".i 2\n.o 2\n00 a a 00\n01 a a 01\n10 a a 10\n11 a a 11\n.e\n";
    gives(text, "02 00 04 01 04 00 00 00 00 01 00 02 00 03");
}

#[test]
fn rule_7_names_have_16_printable_bytes() {
    let longest = "n".repeat(16);
    let longer = "n".repeat(17);
    for name in ["*", "-", ".e", ".i", "#", "!", "~", "0", &longest] {
        gives(
            &narrow(&format!(".r {name}\n- {name} {name} 0\n.e\n")),
            STAYS_UNIT,
        );
    }
    for name in [&longer, "\x7f", "a\x01", "a\u{e9}", "\0"] {
        is_refused(&narrow(&format!(".r {name}\n- a a 0\n.e\n")), bad_line(3));
        is_refused(&narrow(&format!("- {name} a 0\n.e\n")), bad_line(3));
        is_refused(&narrow(&format!("- a {name} 0\n.e\n")), bad_line(3));
    }
    // Names that begin alike are two.
    gives(
        &narrow("- a aa 0\n- aa a 1\n.e\n"),
        "02 00 02 02 04 00 01 00 01 00 00 01 00 01",
    );
}

#[test]
fn rule_8_after_the_end_nothing_but_skipped_lines() {
    gives(&format!("{STAYS}\n# x\n\r\n"), STAYS_UNIT);
    for line in [".e", "x", ".p 1", "- a a 0"] {
        is_refused(&format!("{STAYS}{line}\n"), bad_line(5));
        is_refused(&format!("{STAYS}\n{line}\n"), bad_line(6));
    }
    for end in [".e x", ".E", ".end", "e", ". e"] {
        is_refused(&narrow(&format!("- a a 0\n{end}\n")), bad_line(4));
    }
    is_refused(&narrow("- a a 0\n"), bad_line(4));
    is_refused(&narrow("- a a 0"), bad_line(4));
}

#[test]
fn rule_9_counts_are_true() {
    let two = "- a b 0\n- b a 1\n.e\n";
    let unit = "02 00 02 02 04 00 01 00 01 00 00 01 00 01";
    for (head, answer) in [
        (".p 2\n", None),
        (".p 1\n", Some(bad_line(5))),
        (".p 3\n", Some(bad_line(7))),
        (".s 2\n", None),
        (".s 1\n", Some(bad_line(4))),
        (".s 3\n", Some(bad_line(7))),
    ] {
        match answer {
            None => gives(&narrow(&format!("{head}{two}")), unit),
            Some(refusal) => is_refused(&narrow(&format!("{head}{two}")), refusal),
        }
    }
    // A term that is repeated counts again, a name does not.
    is_refused(&narrow(".p 1\n- a a 0\n- a a 0\n.e\n"), bad_line(5));
    gives(&narrow(".p 2\n.s 1\n- a a 0\n- a a 0\n.e\n"), STAYS_UNIT);
}

#[test]
fn rule_10_what_is_lacking_is_told_behind_the_last_line() {
    for text in [
        ".i 1\n.o 1\n.e\n",
        ".i 1\n.e\n# x",
        ".o 1\n\n.e",
        ".p 1\n.s 1\n.r a\n.e\n\n\n",
    ] {
        is_refused(text, bad_line(text.lines().count() + 1));
    }
    // What is lacking comes before 21.
    is_refused(&narrow(".p 2\n0 a a 0\n.e\n"), bad_line(6));
    is_refused(&narrow("0 a a 0\n"), bad_line(4));
}

/// `states` states, each with a term; the last name comes as a current or as a next state.
fn states(states: usize, step: usize) -> String {
    let term = |state: usize| format!("- s{state} s{} 0\n", (state + step) % states);
    (0..states).map(term).collect::<String>() + ".e\n"
}

#[test]
fn rule_11_the_65th_state_is_told_where_it_comes() {
    for step in [0, 1] {
        let text = narrow(&states(64, step));
        let unit = imported_bytes(text.as_bytes()).unwrap();
        assert_eq!((unit[3], unit.len()), (64, 6 + 2 * 2 * 64));
        // As a next state the 65th comes with the 64th term.
        is_refused(&narrow(&states(65, step)), bad_line(2 + 65 - step));
        is_refused(
            &narrow(&format!(".s 64\n{}", states(65, step))),
            bad_line(3 + 65 - step),
        );
    }
    // The name of `.r` is one of the 64.
    is_refused(
        &narrow(&format!(".r t\n{}", states(64, 0))),
        bad_line(3 + 64),
    );
    is_refused(
        &narrow(&format!(".r t\n{}", states(63, 0))),
        incomplete(0, 0),
    );
    is_refused(&narrow(".s 1\n.r t\n- a a 0\n.e\n"), bad_line(5));
}

#[test]
fn rule_12_the_same_once_more_is_no_contradiction() {
    gives(
        &narrow("- a a 0\n- a a 0\n0 a a 0\n1 a a 0\n.e\n"),
        STAYS_UNIT,
    );
    is_refused(&narrow("- a a 0\n1 a a 1\n.e\n"), contradiction(4));
    is_refused(&narrow("0 a a 0\n- a a 1\n.e\n"), contradiction(4));
    is_refused(&narrow("- a a 0\n0 a b 0\n.e\n"), contradiction(4));
    is_refused(&narrow("- a b 0\n- b a 0\n- a b 1\n.e\n"), contradiction(5));
    // An earlier line is told first, 20 or 19; on one line 19 is.
    is_refused(&narrow("- a a 0\n0 a a 1\nx\n.e\n"), contradiction(4));
    is_refused(&narrow("- a a 0\nx\n0 a a 1\n.e\n"), bad_line(4));
    is_refused(&narrow(".p 1\n- a a 0\n0 a a 1\n.e\n"), bad_line(5));
    is_refused(&narrow(".s 1\n- a a 0\n0 a b 0\n.e\n"), bad_line(5));
    // 20 comes before what the text lacks, and before 21.
    is_refused(&narrow("0 a a 0\n0 a a 1\n"), contradiction(4));
}

#[test]
fn rule_13_any_other_line_is_bad() {
    for line in [
        ".ilb x",
        ".latch",
        ".start_kiss",
        ".i1",
        ".I 1",
        ".p",
        "x",
        ".",
        ". i 1",
    ] {
        is_refused(&format!("{line}\n{STAYS}"), bad_line(1));
    }
}

/// "the lowest state, then input, without a term". The reset state is 0, a state that is a next
/// state only comes last.
#[test]
fn incomplete_names_the_lowest_state_and_input() {
    is_refused(&narrow("0 a a 0\n.e\n"), incomplete(0, 1));
    is_refused(&narrow("1 a a 0\n.e\n"), incomplete(0, 0));
    is_refused(&narrow("- a b 0\n.e\n"), incomplete(1, 0));
    is_refused(&narrow(".r b\n- a b 0\n.e\n"), incomplete(0, 0));
    is_refused(&narrow(".r c\n- a a 0\n.e\n"), incomplete(0, 0));
    is_refused(&narrow("0 a c 0\n- b a 0\n1 a b 0\n.e\n"), incomplete(2, 0));
    is_refused(&narrow("0 a c 0\n1 b a 0\n1 a b 0\n.e\n"), incomplete(1, 0));
    is_refused(
        ".i 4\n.o 1\n0--- a a 0\n10-- a a 0\n-11- a a 0\n.e\n",
        incomplete(0, 12),
    );
}

#[test]
fn one_byte_short_is_17_with_the_length() {
    for room in [0, 1, 13] {
        let mut output = vec![0xee; room];
        let answer = read_kiss2(TEXT_G.as_bytes(), &mut output);
        assert_eq!(answer, Err(Refusal::NoRoom { needed: 14 }));
        assert_eq!(output, vec![0xee; room]);
    }
    // 17 comes last.
    let answer = read_kiss2(narrow("0 a a 0\n.e\n").as_bytes(), &mut []);
    assert_eq!(answer, Err(incomplete(0, 1)));
}

#[test]
fn too_long_comes_first() {
    let mut text = STAYS.as_bytes().to_vec();
    text.resize(65_535, b'\n');
    assert_eq!(imported_bytes(&text), Ok(hex(STAYS_UNIT)));
    text.push(b'\n');
    assert_eq!(imported_bytes(&text), Err(TOO_LONG));
    assert_eq!(imported_bytes(&[b'x'; 65_536]), Err(TOO_LONG));
    assert_eq!(imported_bytes(&[b'\n'; 65_535]), Err(bad_line(65_536)));
}

/// Catches a reader that writes what is no unit, that hangs on the layout, or that writes beside
/// the unit or where it refuses.
#[test]
fn what_is_imported_is_a_unit_and_nothing_else_is_written() {
    let mut imported = 0;
    for Case {
        text,
        output_length,
        ..
    } in (0..3_000).flat_map(|number| text_cases(501, number))
    {
        let mut output = vec![0xee; output_length];
        let written = match read_kiss2(&text, &mut output) {
            Ok(Imported { length }) => length,
            Err(_) => 0,
        };
        assert!(output[written..].iter().all(|&byte| byte == 0xee));
        if written > 0 {
            let unit = read_unit(&output[..written]).unwrap();
            assert_eq!(write_unit(&unit), output[..written]);
            imported += 1;
        }
    }
    assert!(imported > 1_500, "{imported}");
}

/// Catches a generator whose texts are all refused alike, or that leaves a limit out.
#[test]
fn the_texts_meet_every_answer() {
    let seeded = (0..2_000).flat_map(|number| text_cases(502, number));
    let at_limits = text_limits().into_iter().map(|text| text_case(text, 3_000));
    let short = edges().into_iter().filter(|edge| !edge.text.is_empty());
    for (cases, least) in [
        (seeded.collect::<Vec<_>>(), [900, 600, 3, 3_000, 80, 200]),
        (at_limits.collect(), [16, 0, 12, 30, 0, 4]),
        (short.collect(), [20, 1, 0, 60, 2, 2]),
    ] {
        let mut met: BTreeMap<u8, usize> = BTreeMap::new();
        for Case {
            text,
            output_length,
            ..
        } in cases
        {
            let answer = read_kiss2(&text, &mut vec![0; output_length]);
            let number = answer.map_or_else(|refusal| refusal.number(), |_| 0);
            *met.entry(number).or_default() += 1;
        }
        for (number, least) in [0, 17, 1, 19, 20, 21].into_iter().zip(least) {
            let count = met.get(&number).copied().unwrap_or(0);
            assert!(count >= least, "{number}: {met:?}");
        }
    }
}
