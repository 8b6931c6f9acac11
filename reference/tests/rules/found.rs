//! Find, sentence by sentence of document 02, L1.

use crate::common::*;
use reference::build::built_bytes;
use reference::check::{check, Accepted};
use reference::files::{read_dossier, read_unit, write_dossier, write_unit, Dossier, Unit};
use reference::find::{find, found_bytes, Found};
use reference::generate::{table_cases, worst, Case};
use reference::machine::{GoldenState, Word};
use reference::refusal::{File, Place, Refusal};
use std::collections::{BTreeSet, HashSet};

/// The dossier that is found for a table with the default bound.
fn found(table: &Unit) -> Dossier {
    let bytes = found_bytes(&write_unit(table), 0).unwrap();
    read_dossier(&bytes).unwrap()
}

fn refusal(table: &Unit, bound: u8) -> Refusal {
    found_bytes(&write_unit(table), bound).unwrap_err()
}

fn unreached(state: u8) -> Refusal {
    Refusal::Unreached {
        file: File::Unit,
        state: GoldenState(state),
    }
}

fn not_reduced(first: u8, second: u8) -> Refusal {
    Refusal::NotReduced {
        first: GoldenState(first),
        second: GoldenState(second),
    }
}

const BAD_BOUND: Refusal = Refusal::BadNumbers(Place {
    file: File::Number,
    byte: 0,
});

/// Zeros, as many as this.
fn zeros(length: usize) -> Word {
    word(&"0".repeat(length))
}

#[test]
fn g_is_found_in_26_bytes() {
    let mut output = [0xee; 28];
    let answer = find(&table_g_bytes(), 2, &mut output);
    assert_eq!(answer, Ok(Found { length: 26 }));
    assert_eq!(output[..26], write_dossier(&dossier_g(2, &[])));
    assert_eq!(output[26..], [0xee; 2]);
}

/// The cover of G is the empty word and 1, its separating word 0, as document 01 has them.
#[test]
fn g_has_the_words_of_document_01() {
    assert_eq!(found(&table_g()), dossier_g(0, &[]));
    let three = found_bytes(&table_g_bytes(), 3).unwrap();
    assert_eq!(built_bytes(&three), Ok(dossier_54()));
}

#[test]
fn one_byte_short_is_17_with_the_length() {
    for room in [0, 1, 25] {
        let mut output = vec![0xee; room];
        let answer = find(&table_g_bytes(), 0, &mut output);
        assert_eq!(answer, Err(Refusal::NoRoom { needed: 26 }));
        assert_eq!(output, vec![0xee; room]);
    }
    let mut output = [0xee; 26];
    assert!(find(&table_g_bytes(), 0, &mut output).is_ok());
}

/// "a bound (0 allowed, written as 0)", within the range that document 01 has for m.
#[test]
fn the_bound_is_written_as_it_is_passed() {
    for (states, good) in [
        (1, vec![0, 1, 2, 3, 4, 5]),
        (2, vec![0, 2, 3, 4, 5, 6]),
        (59, vec![0, 59, 60, 61, 62, 63]),
        (60, vec![0, 60, 61, 62, 63, 64]),
        (61, vec![0, 61, 62, 63, 64]),
        (64, vec![0, 64]),
    ] {
        let table = write_unit(&chain(states));
        for bound in 0..=255 {
            match found_bytes(&table, bound) {
                Ok(bytes) => assert_eq!((good.contains(&bound), bytes[4]), (true, bound)),
                Err(refusal) => assert_eq!((good.contains(&bound), refusal), (false, BAD_BOUND)),
            }
        }
    }
}

#[test]
fn one_state_has_the_empty_word_twice() {
    for inputs in [1, 2, 16] {
        let table = machine(inputs, &vec![(0, 7); usize::from(inputs)]);
        let dossier = found(&table);
        assert_eq!(dossier.cover, words(&[""]));
        assert_eq!(dossier.separating, words(&[""]));
    }
    let smallest = found_bytes(&write_unit(&machine(1, &[(0, 0)])), 0).unwrap();
    assert_eq!(smallest.len(), 17);
    assert_eq!(read_dossier(&smallest), Ok(dossier_of_one_state(0, &[])));
}

/// 64 states in a row: access words and telling words of up to 63 inputs.
#[test]
fn a_chain_of_64_states_has_words_of_63_inputs() {
    let dossier = found(&chain(64));
    let cover: Vec<Word> = (0..64).map(zeros).collect();
    assert_eq!(dossier.cover, cover);
    // 0 and 1 are told apart last, by the step in which 1 is at the end.
    let separating: Vec<Word> = (1..64).rev().map(zeros).collect();
    assert_eq!(dossier.separating, separating);
}

/// "its shortest access word, the first by inputs among equals".
#[test]
fn access_words_are_the_shortest_and_first_by_inputs() {
    // 1 is reached by 1 and 2, 2 by 0, and 3 by 01, 10 and 20.
    let table = machine(
        3,
        &[
            [(2, 0), (1, 0), (1, 0)],
            [(3, 1), (0, 0), (0, 0)],
            [(0, 2), (3, 0), (0, 0)],
            [(0, 3), (0, 0), (0, 0)],
        ]
        .concat(),
    );
    assert_eq!(found(&table).cover, words(&["", "1", "0", "01"]));
}

/// "for each pair of states in order the shortest telling word, chosen likewise, each word kept once
/// at its first place".
#[test]
fn telling_words_are_kept_once_in_the_order_of_pairs() {
    // 1 tells 0 and 2 from 1 and 3; 0 tells nothing but leads from 2 to 1 and from the others to 0.
    let table = machine(
        2,
        &[
            [(0, 0), (1, 0)],
            [(0, 0), (2, 1)],
            [(1, 0), (3, 0)],
            [(1, 0), (0, 1)],
        ]
        .concat(),
    );
    // (0,1) 1, (0,2) 01, (0,3) 1, (1,2) 1, (1,3) 01, (2,3) 1.
    assert_eq!(found(&table).separating, words(&["1", "01"]));
    // The same with 1 and 2 exchanged: (0,1) 01, (0,2) 1, and so on.
    let table = machine(
        2,
        &[
            [(0, 0), (2, 0)],
            [(2, 0), (3, 0)],
            [(0, 0), (1, 1)],
            [(2, 0), (0, 1)],
        ]
        .concat(),
    );
    assert_eq!(found(&table).separating, words(&["01", "1"]));
}

/// A longer word that comes first by inputs does not matter, nor does a later one of the same length.
#[test]
fn telling_words_are_the_shortest_and_first_by_inputs() {
    // 0 and 1 are told by 1, by 2 and by 00.
    let table = machine(
        3,
        &[
            [(1, 0), (1, 0), (1, 0)],
            [(2, 0), (0, 1), (0, 1)],
            [(0, 5), (0, 5), (0, 5)],
        ]
        .concat(),
    );
    assert_eq!(found(&table).separating, words(&["1", "0"]));
}

#[test]
fn unreached_has_the_lowest_state() {
    let table = machine(1, &[(1, 0), (0, 1), (3, 2), (2, 3), (0, 4)]);
    assert_eq!(refusal(&table, 0), unreached(2));
    assert_eq!(refusal(&table, 0).file(), File::Unit);
}

/// The lowest first state, then the lowest second.
#[test]
fn not_reduced_has_the_lowest_pair() {
    let table = machine(1, &[(1, 0), (2, 1), (3, 1), (1, 1)]);
    assert_eq!(refusal(&table, 0), not_reduced(1, 2));
    let table = machine(1, &[(1, 0), (2, 1), (3, 0), (0, 1)]);
    assert_eq!(refusal(&table, 0), not_reduced(0, 2));
    assert_eq!(refusal(&table, 0).file(), File::Unit);
}

/// All of 8 comes before 18, even where a lower pair is alike.
#[test]
fn unreached_comes_before_not_reduced() {
    let table = machine(1, &[(1, 0), (0, 0), (2, 1)]);
    assert_eq!(refusal(&table, 0), unreached(2));
    let reached = machine(1, &[(1, 0), (2, 0), (0, 0)]);
    assert_eq!(refusal(&reached, 0), not_reduced(0, 1));
}

/// "Refusals: those of the unit file, then 3 with place 0 for the bound, 8, 18, 17."
#[test]
fn refusals_come_in_order() {
    let unit = table_g_bytes();
    let longer = [&unit[..], &[0]].concat();
    assert_eq!(found_bytes(&[], 99), Err(Refusal::CutShort(in_unit(0))));
    assert_eq!(
        found_bytes(&longer, 99),
        Err(Refusal::Trailing(in_unit(14)))
    );
    assert_eq!(
        found_bytes(&vec![0; 65_536], 99),
        Err(Refusal::TooLong(in_unit(0)))
    );
    let mut bad_table = unit.clone();
    bad_table[6] = 2;
    let refused = Err(Refusal::BadTable(in_unit(6)));
    assert_eq!(found_bytes(&bad_table, 99), refused);
    let unreached_state = machine(1, &[(0, 0), (1, 1)]);
    assert_eq!(refusal(&unreached_state, 99), BAD_BOUND);
    let alike = machine(1, &[(1, 0), (0, 0)]);
    assert_eq!(refusal(&alike, 1), BAD_BOUND);
    let none: &mut [u8] = &mut [];
    let answer = find(&write_unit(&alike), 0, none);
    assert_eq!(answer, Err(not_reduced(0, 1)));
    let answer = find(&write_unit(&unreached_state), 0, none);
    assert_eq!(answer, Err(unreached(1)));
    assert_eq!(find(&unit, 1, none), Err(BAD_BOUND));
}

/// The tables of so many numbers of a seed, each as its first case has it.
fn tables(seed: u64, count: u64) -> impl Iterator<Item = Case> {
    (0..count).map(move |number| table_cases(seed, number).swap_remove(0))
}

/// "Building on the result is never refused by 7 to 10", and what is built is accepted.
#[test]
fn what_is_found_is_built_and_accepted() {
    let (mut built, mut over) = (0, 0);
    for Case { unit, bound, .. } in tables(401, 3_000) {
        let Ok(bytes) = found_bytes(&unit, bound) else {
            continue;
        };
        match built_bytes(&bytes) {
            Ok(dossier) => {
                assert_eq!(check(&dossier), Ok(Accepted));
                built += 1;
            }
            Err(refusal) => {
                assert_eq!(refusal, Refusal::NoRoom { needed: 65_536 });
                over += 1;
            }
        }
    }
    assert!(built > 1_500 && over > 0, "{built} {over}");
}

/// Catches a found dossier with another table or bound, or with tests; words that stand twice; and
/// more words than are of use: each separating word tells apart two states that no earlier one by
/// length and inputs does, so that there are fewer than states.
#[test]
fn what_is_found_has_the_table_and_few_words() {
    for Case { unit, bound, .. } in tables(402, 2_000) {
        let Ok(bytes) = found_bytes(&unit, bound) else {
            continue;
        };
        let dossier = read_dossier(&bytes).unwrap();
        assert_eq!(dossier.golden, read_unit(&unit).unwrap().over_states());
        assert_eq!(dossier.bound_byte, bound);
        assert!(dossier.tests.is_empty());
        let states = usize::from(dossier.golden.states());
        assert_eq!(dossier.cover.len(), states);
        let distinct: HashSet<&Word> = dossier.separating.iter().collect();
        assert_eq!(distinct.len(), dossier.separating.len());
        assert!(distinct.len() <= 1.max(states - 1));
    }
}

/// Catches a limit on what is found that is too low: words of 63 inputs in both sections, and as
/// many as there can be.
#[test]
fn the_hardest_tables_are_found() {
    let hard = worst().into_iter();
    let hard = hard.filter(|timed| timed.name.starts_with("hard table"));
    let lengths: BTreeSet<usize> = hard
        .map(|timed| found_bytes(&timed.table, 0).unwrap().len())
        .collect();
    assert_eq!(lengths.len(), 2);
    assert_eq!(lengths.last(), Some(&6_220));
}

/// Catches tables that leave a size out: each count of inputs with each count of states is there.
#[test]
fn tables_have_every_size() {
    let sizes = tables(403, 1_024).map(|case| {
        let unit = read_unit(&case.unit).unwrap();
        (unit.inputs, unit.states())
    });
    let sizes: HashSet<_> = sizes.collect();
    assert_eq!(sizes.len(), 16 * 64);
}
