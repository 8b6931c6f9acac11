//! The points of document 01 at which a reader can go wrong, each held by a test of its own. The
//! sections named below are document 01's.

use crate::common::*;
use reference::build::{build, built_bytes};
use reference::check::{check, Accepted};
use reference::compare::{compare, CompareAnswer};
use reference::cost::{cost, Cost};
use reference::files::{
    read_dossier, read_sheet, read_unit, write_dossier, write_sheet, write_unit, Dossier,
};
use reference::judge::{judge, JudgeAnswer};
use reference::line::run_line;
use reference::machine::{GoldenState, Input, Output, Word};
use reference::needed::middles;
use reference::refusal::{File, Refusal};
use reference::run::{run, RunAnswer};

/// Section "The three files": bytes are judged as they are read.
#[test]
fn a_bad_byte_counts_even_where_the_file_ends() {
    // The table ends before byte 15; the cover's count is there, and then one length byte.
    let with_byte = |byte| [&dossier_37()[..17], &[byte]].concat();
    let bad_word = Err(Refusal::BadWord(in_dossier(17)));
    assert_eq!(read_dossier(&with_byte(98)), bad_word);
    assert_eq!(read_dossier(&with_byte(255)), bad_word);
    let cut_short = Err(Refusal::CutShort(in_dossier(18)));
    assert_eq!(read_dossier(&with_byte(97)), cut_short);
    // A word of five inputs, cut off after its first, which is not below k.
    let bad_input = [&dossier_37()[..17], &[5, 2]].concat();
    let bad_word = Err(Refusal::BadWord(in_dossier(18)));
    assert_eq!(read_dossier(&bad_input), bad_word);
    // A next state that is no state, and no output after it.
    let bad_table = Err(Refusal::BadTable(in_dossier(7)));
    let entry = [&dossier_37()[..7], &[2]].concat();
    assert_eq!(read_dossier(&entry), bad_table);
    let bad_table = Err(Refusal::BadTable(in_unit(6)));
    let entry = [&unit_v_bytes()[..6], &[3]].concat();
    assert_eq!(read_unit(&entry), bad_table);
    // A sheet's word of 201 inputs, and an input that is not below k.
    let bad_word = Err(Refusal::BadWord(in_sheet(2)));
    assert_eq!(read_sheet(&[1, 0, 201], 2), bad_word);
    let bad_word = Err(Refusal::BadWord(in_sheet(4)));
    assert_eq!(read_sheet(&[1, 0, 9, 1, 2], 2), bad_word);
}

/// Section "The three files", the other way: each beginning of a good file is CUT SHORT at its
/// length.
#[test]
fn each_beginning_of_a_good_file_is_cut_short() {
    for length in 0..37 {
        let cut_short = Err(Refusal::CutShort(in_dossier(length)));
        assert_eq!(read_dossier(&dossier_37()[..length]), cut_short);
    }
    for length in 0..18 {
        let cut_short = Err(Refusal::CutShort(in_unit(length)));
        assert_eq!(read_unit(&unit_v_bytes()[..length]), cut_short);
    }
    let sheet = write_sheet(&sheet(&[("00", &[0, 0]), ("1", &[7])]));
    for length in 0..sheet.len() {
        let cut_short = Err(Refusal::CutShort(in_sheet(length)));
        assert_eq!(read_sheet(&sheet[..length], 2), cut_short);
    }
}

/// Section "The three files": a count is judged when both its bytes are there, before anything
/// after it.
#[test]
fn a_count_is_judged_when_both_its_bytes_are_there() {
    assert_eq!(read_dossier(&[4]), Err(Refusal::CutShort(in_dossier(1))));
    let bad_count = Err(Refusal::BadNumbers(in_dossier(0)));
    assert_eq!(read_dossier(&[4, 0]), bad_count);
    assert_eq!(read_dossier(&[3, 1]), bad_count);
    assert_eq!(read_dossier(&[2, 0, 0, 0, 0]), bad_count);
    let numbers = &dossier_37()[..5];
    let half_a_count = [numbers, &[5]].concat();
    let cut_short = Err(Refusal::CutShort(in_dossier(6)));
    assert_eq!(read_dossier(&half_a_count), cut_short);
    let bad_table = Err(Refusal::BadTable(in_dossier(5)));
    assert_eq!(read_dossier(&[numbers, &[5, 0]].concat()), bad_table);
    assert_eq!(read_dossier(&[numbers, &[4, 1]].concat()), bad_table);
    assert_eq!(read_unit(&[3, 0]), Err(Refusal::BadNumbers(in_unit(0))));
    let bad_table = Err(Refusal::BadTable(in_unit(4)));
    assert_eq!(read_unit(&[2, 0, 2, 3, 7, 0]), bad_table);
}

/// Section "The three files": k is judged before n is read, n before m.
#[test]
fn numbers_are_judged_one_after_the_other() {
    let bad = |byte| Err(Refusal::BadNumbers(in_dossier(byte)));
    for k in [0, 17, 255] {
        assert_eq!(read_dossier(&[3, 0, k]), bad(2));
        assert_eq!(read_dossier(&[3, 0, k, 0, 9]), bad(2));
    }
    for n in [0, 65, 255] {
        assert_eq!(read_dossier(&[3, 0, 16, n]), bad(3));
    }
    for (n, m) in [(2, 1), (2, 7), (61, 66), (64, 65), (64, 63), (1, 6)] {
        assert_eq!(read_dossier(&[3, 0, 1, n, m]), bad(4));
    }
    for (n, m) in [(2, 0), (2, 2), (2, 6), (61, 64), (64, 64), (64, 0), (1, 5)] {
        let cut_short = Err(Refusal::CutShort(in_dossier(5)));
        assert_eq!(read_dossier(&[3, 0, 1, n, m]), cut_short);
    }
    for (k, u, place) in [(0, 1, 2), (17, 1, 2), (16, 0, 3), (16, 65, 3)] {
        let bad = Err(Refusal::BadNumbers(in_unit(place)));
        assert_eq!(read_unit(&[2, 0, k, u]), bad);
    }
}

/// Section "The three files": a count of words larger than the file can hold is no fault of its
/// own.
#[test]
fn a_large_count_of_words_is_read_until_something_is_wrong() {
    let front = &dossier_37()[..15];
    let cut_short = Err(Refusal::CutShort(in_dossier(19)));
    assert_eq!(
        read_dossier(&[front, &[255, 255, 1, 0]].concat()),
        cut_short
    );
    let bad_word = Err(Refusal::BadWord(in_dossier(19)));
    let bytes = [front, &[255, 255, 1, 0, 98, 0]].concat();
    assert_eq!(read_dossier(&bytes), bad_word);
    let cut_short = Err(Refusal::CutShort(in_sheet(3)));
    assert_eq!(read_sheet(&[255, 255, 0], 1), cut_short);
}

/// Section "The three files": output bytes are any byte.
#[test]
fn an_output_is_any_byte() {
    for output in 0..=255 {
        let unit = [2, 0, 1, 1, 1, 0, 0, output];
        assert_eq!(read_unit(&unit).unwrap().steps[0].output, Output(output));
        let sheet = read_sheet(&[1, 0, 1, 0, output], 1).unwrap();
        assert_eq!(sheet.records[0].answer, [Output(output)]);
    }
}

fn missing(cover: usize, middle: &str, separator: usize) -> Result<Accepted, Refusal> {
    let middle = word(middle);
    Err(Refusal::Missing {
        cover,
        middle,
        separator,
    })
}

fn checked(dossier: &Dossier) -> Result<Accepted, Refusal> {
    check(&write_dossier(dossier))
}

/// Section "Needed words": the empty needed word begins a test as soon as there is one.
#[test]
fn without_tests_even_the_empty_needed_word_is_missing() {
    assert_eq!(checked(&dossier_of_one_state(1, &[])), missing(0, "", 0));
    assert_eq!(checked(&dossier_of_one_state(1, &[""])), missing(0, "0", 0));
    assert_eq!(checked(&dossier_of_one_state(1, &["0"])), Ok(Accepted));
}

/// Section "Needed words": of repeated words MISSING names the first place.
#[test]
fn missing_names_the_first_of_repeated_words() {
    let mut dossier = dossier_g(2, &["00", "10"]);
    dossier.cover = words(&["", "", "1", "1"]);
    dossier.separating = words(&["0", "0"]);
    assert_eq!(checked(&dossier), missing(2, "0", 0));
    dossier.separating = words(&["", "", "0", "0"]);
    assert_eq!(checked(&dossier), missing(2, "0", 2));
}

/// Section "Needed words": places are those of the file, whatever the order of the words.
#[test]
fn missing_names_places_in_file_order() {
    let mut dossier = dossier_g(2, &["100", "110"]);
    dossier.cover = words(&["1", ""]);
    assert_eq!(checked(&dossier), missing(1, "", 0));
    dossier.tests = words(&["00", "110"]);
    assert_eq!(checked(&dossier), missing(0, "", 0));
}

/// Section "Operations and answers": pairs go by the lower state first, and equivalent states are
/// always refused.
#[test]
fn not_separated_gives_the_lowest_pair() {
    let not_separated = |entries: &[(u8, u8)]| {
        let dossier = Dossier {
            golden: machine(2, entries),
            bound_byte: 0,
            cover: words(&["", "0", "1", "00"]),
            separating: words(&["0", "1", "00", "01", "10", "11"]),
            tests: vec![],
        };
        match checked(&dossier) {
            Err(Refusal::NotSeparated { first, second }) => (first.0, second.0),
            other => panic!("{other:?}"),
        }
    };
    // 1 and 2 answer alike, 0 by itself.
    let pair = not_separated(&[(1, 0), (2, 0), (1, 1), (2, 0), (2, 1), (1, 0)]);
    assert_eq!(pair, (1, 2));
    // All three answer alike.
    let pair = not_separated(&[(1, 0), (2, 0), (1, 0), (2, 0), (2, 0), (1, 0)]);
    assert_eq!(pair, (0, 1));
    // 0 and 3 answer alike, and so do 1 and 2.
    let pair = not_separated(&[
        (1, 0),
        (2, 0),
        (3, 1),
        (2, 0),
        (3, 1),
        (1, 0),
        (2, 0),
        (1, 0),
    ]);
    assert_eq!(pair, (0, 3));
}

/// Section "Operations and answers": one state needs a separating word, and the empty one is good.
#[test]
fn one_state_needs_a_separating_word_too() {
    let mut dossier = dossier_of_one_state(0, &["0"]);
    assert_eq!(checked(&dossier), Ok(Accepted));
    dossier.separating.clear();
    assert_eq!(checked(&dossier), Err(Refusal::NoSeparator));
}

/// Section "Operations and answers": old tests have no influence on the built ones, but they must
/// be well formed.
#[test]
fn old_tests_are_read_and_replaced() {
    for tests in [&[][..], &["0101010"], &["1", "1", ""]] {
        let bytes = write_dossier(&dossier_g(2, tests));
        assert_eq!(built_bytes(&bytes), Ok(dossier_37()));
    }
    let mut bytes = dossier_37();
    bytes[36] = 2;
    assert_eq!(built_bytes(&bytes), Err(Refusal::BadWord(in_dossier(36))));
}

/// Section "Operations and answers": a built dossier over its size is 65,536, whatever the output's
/// length.
#[test]
fn a_built_dossier_over_its_size_never_has_room() {
    let dossier = write_dossier(&Dossier {
        golden: machine(16, &[(0, 0); 16]),
        bound_byte: 5,
        cover: words(&[""]),
        separating: words(&[""]),
        tests: vec![],
    });
    for length in [0, 37, 65_535, 65_536, 10_000_000] {
        let mut output = vec![0xee; length];
        let answer = build(&dossier, &mut output);
        assert_eq!(answer, Err(Refusal::NoRoom { needed: 65_536 }));
        assert!(output.iter().all(|&byte| byte == 0xee));
    }
}

/// Section "Operations and answers": run and judge finish the dossier before the first byte of the
/// other file.
#[test]
fn the_dossier_is_finished_before_the_other_file() {
    let weak = write_dossier(&dossier_g(3, &["00"]));
    let missing = check(&weak).unwrap_err();
    for other in [vec![], vec![0; 200_000], vec![9, 9, 9]] {
        assert_eq!(run(&weak, &other), Err(missing.clone()));
        assert_eq!(judge(&weak, &other), Err(missing.clone()));
    }
    let too_long = Err(Refusal::TooLong(in_unit(0)));
    assert_eq!(run(&dossier_37(), &[0; 65_536]), too_long);
    let too_long = Err(Refusal::TooLong(in_sheet(0)));
    assert_eq!(judge(&dossier_37(), &[0; 131_071]), too_long);
}

/// Section "Operations and answers": compare takes any well-formed dossier and a unit with any u.
#[test]
fn compare_needs_no_accepted_dossier() {
    let mut dossier = dossier_g(2, &[]);
    dossier.cover.clear();
    dossier.separating.clear();
    let bytes = write_dossier(&dossier);
    assert!(check(&bytes).is_err());
    let mut output = [0xee; 3];
    let differs = Ok(CompareAnswer::Differs { length: 3 });
    assert_eq!(compare(&bytes, &unit_v_bytes(), &mut output), differs);
    assert_eq!(output, [0, 1, 0]);
    // 64 states that all answer as one.
    let one = write_dossier(&dossier_of_one_state(1, &[]));
    let entries: Vec<(u8, u8)> = (0..64).map(|state| ((state + 1) % 64, 0)).collect();
    let unit = write_unit(&machine(1, &entries));
    assert_eq!(compare(&one, &unit, &mut []), Ok(CompareAnswer::Equal));
}

/// Section "Operations and answers": the part that the judge hands back is the test's inputs,
/// without the length byte.
#[test]
fn the_judge_hands_back_the_inputs_alone() {
    let all_wrong = sheet(&[("00", &[9, 9]), ("100", &[9, 9, 9]), ("110", &[9, 9, 9])]);
    match judge(&dossier_37(), &write_sheet(&all_wrong)) {
        Ok(JudgeAnswer::Deviates { test, step, word }) => {
            assert_eq!((test, step), (0, 0));
            assert_eq!(word, 27..29);
            assert_eq!(dossier_37()[word], [0, 0]);
        }
        other => panic!("{other:?}"),
    }
}

/// Section "Operations and answers": a test that stands twice is served by one record.
#[test]
fn a_repeated_test_is_served_by_one_record() {
    let dossier = write_dossier(&dossier_g(2, &["00", "110", "100", "110", ""]));
    let one_each = sheet(&[
        ("", &[]),
        ("110", &[0, 0, 1]),
        ("100", &[0, 1, 0]),
        ("00", &[0, 0]),
    ]);
    let agrees = Ok(JudgeAnswer::Agrees);
    assert_eq!(judge(&dossier, &write_sheet(&one_each)), agrees);
    let without_empty = write_sheet(&sheet(&[
        ("110", &[0, 0, 1]),
        ("100", &[0, 1, 0]),
        ("00", &[0, 0]),
    ]));
    let absent = Err(Refusal::Absent { test: 4 });
    assert_eq!(judge(&dossier, &without_empty), absent);
}

/// Section "Operations and answers": REPEATED comes before FOREIGN, and answers play no part in it.
#[test]
fn repeated_comes_before_foreign() {
    let judged = |records: &[(&str, &[u8])]| {
        let sheet = write_sheet(&sheet(records));
        judge(&dossier_37(), &sheet).unwrap_err()
    };
    let foreign_twice: [(&str, &[u8]); 3] = [("00", &[0, 0]), ("1", &[0]), ("1", &[9])];
    assert_eq!(judged(&foreign_twice), Refusal::Repeated { record: 2 });
    let foreign_first: [(&str, &[u8]); 3] = [("1", &[0]), ("00", &[0, 0]), ("00", &[0, 0])];
    assert_eq!(judged(&foreign_first), Refusal::Repeated { record: 2 });
    // Of two words that occur twice, the place of the first record that an earlier one has.
    let two_repeats: [(&str, &[u8]); 4] =
        [("1", &[0]), ("00", &[0, 0]), ("00", &[1, 1]), ("1", &[0])];
    assert_eq!(judged(&two_repeats), Refusal::Repeated { record: 2 });
    let foreign: [(&str, &[u8]); 3] = [("00", &[0, 0]), ("1", &[0]), ("0", &[0])];
    assert_eq!(judged(&foreign), Refusal::Foreign { record: 1 });
}

/// Section "Operations and answers": ABSENT concerns the sheet; its place is the test's.
#[test]
fn absent_concerns_the_sheet() {
    let sheet = write_sheet(&sheet(&[("00", &[0, 0]), ("110", &[0, 0, 1])]));
    let refusal = judge(&dossier_37(), &sheet).unwrap_err();
    assert_eq!(refusal, Refusal::Absent { test: 1 });
    assert_eq!(refusal.file(), File::Sheet);
}

/// Section "Worked pieces": for the refusals after 6 the line is the number alone.
#[test]
fn the_line_for_the_later_refusals_is_the_number_alone() {
    let line = |change: fn(&mut Dossier), unit: &[u8]| {
        let mut dossier = dossier_g(2, &["00", "100", "110"]);
        change(&mut dossier);
        run_line(&write_dossier(&dossier), unit)
    };
    let v = unit_v_bytes();
    assert_eq!(line(|dossier| dossier.cover.clear(), &v), "REFUSED 7\n");
    assert_eq!(line(|dossier| dossier.cover.truncate(1), &v), "REFUSED 8\n");
    assert_eq!(
        line(|dossier| dossier.separating.clear(), &v),
        "REFUSED 9\n"
    );
    let not_separated = |dossier: &mut Dossier| dossier.separating = words(&["1"]);
    assert_eq!(line(not_separated, &v), "REFUSED 10\n");
    assert_eq!(line(|dossier| dossier.bound_byte = 3, &v), "REFUSED 11\n");
    let other_inputs = hex("02 00 01 01 01 00 00 00");
    assert_eq!(line(|_| (), &other_inputs), "REFUSED 15\n");
    assert_eq!(line(|_| (), &v), "REFUSED 16\n");
}

/// Section "Operations and answers": compare gives NO ROOM only where it DIFFERS.
#[test]
fn compare_needs_room_only_where_it_differs() {
    let golden_as_unit = write_unit(&machine(2, &[(0, 0), (1, 0), (0, 1), (1, 0)]));
    let equal = Ok(CompareAnswer::Equal);
    assert_eq!(compare(&dossier_37(), &golden_as_unit, &mut []), equal);
    let mut output = [0xee; 2];
    let no_room = Err(Refusal::NoRoom { needed: 3 });
    assert_eq!(
        compare(&dossier_37(), &unit_v_bytes(), &mut output),
        no_room
    );
    assert_eq!(output, [0xee; 2]);
}

/// Section "Operations and answers": repeated tests are counted each time they stand.
#[test]
fn repeated_tests_are_counted() {
    let dossier = write_dossier(&dossier_g(2, &["00", "100", "110", "100", ""]));
    let golden_as_unit = write_unit(&machine(2, &[(0, 0), (1, 0), (0, 1), (1, 0)]));
    let passes = Ok(RunAnswer::Passes { tests: 5 });
    assert_eq!(run(&dossier, &golden_as_unit), passes);
    let counted = Cost {
        tests: 5,
        inputs: 11,
    };
    assert_eq!(cost(&dossier), Ok(counted));
}

/// Section "Needed words": middles go by length first, then by inputs.
#[test]
fn middles_go_by_length_and_then_by_inputs() {
    let all: Vec<Word> = middles(2, 2).collect();
    assert_eq!(all, words(&["", "0", "1", "00", "01", "10", "11"]));
    assert_eq!(middles(16, 5).count(), 1_118_481);
    let last = middles(16, 5).last().unwrap();
    assert_eq!(last, vec![Input(15); 5]);
    // Both middle 1 and middle 00 are missing; the shorter one is named.
    assert_eq!(checked(&dossier_g(3, &["00"])), missing(0, "1", 0));
}

/// The order of refusals within check, build and run, where a file has several faults.
#[test]
fn refusals_come_as_numbered() {
    let mut dossier = dossier_g(3, &[]);
    dossier.cover = words(&["1"]);
    dossier.separating.clear();
    let refusal = |dossier: &Dossier| checked(dossier).unwrap_err();
    assert_eq!(refusal(&dossier), Refusal::NoEmptyWord);
    dossier.cover = words(&["0", ""]);
    let state = GoldenState(1);
    let file = File::Dossier;
    assert_eq!(refusal(&dossier), Refusal::Unreached { file, state });
    dossier.cover = words(&["", "1"]);
    assert_eq!(refusal(&dossier), Refusal::NoSeparator);
    dossier.separating = words(&["1", ""]);
    assert_eq!(refusal(&dossier).number(), 10);
    assert_eq!(
        build(&write_dossier(&dossier), &mut [])
            .unwrap_err()
            .number(),
        10
    );
    dossier.separating = words(&["0"]);
    assert_eq!(refusal(&dossier).number(), 11);
    // Other inputs and too many states at once.
    let unit = write_unit(&machine(1, &[(0, 0); 9]));
    assert_eq!(run(&dossier_37(), &unit), Err(Refusal::OtherInputs));
    assert_eq!(
        compare(&dossier_37(), &unit, &mut []),
        Err(Refusal::OtherInputs)
    );
}

/// TRAILING names the first byte after the last section.
#[test]
fn trailing_bytes_are_refused_at_the_first() {
    let longer = |bytes: Vec<u8>| [bytes, vec![0, 0]].concat();
    let trailing = Err(Refusal::Trailing(in_dossier(37)));
    assert_eq!(read_dossier(&longer(dossier_37())), trailing);
    let trailing = Err(Refusal::Trailing(in_unit(18)));
    assert_eq!(read_unit(&longer(unit_v_bytes())), trailing);
    let trailing = Err(Refusal::Trailing(in_sheet(2)));
    assert_eq!(read_sheet(&[0, 0, 1], 2), trailing);
}

/// Tests and sheet words have up to 200 inputs, separating words up to 97.
#[test]
fn each_section_has_its_longest_word() {
    let mut dossier = dossier_g(2, &[]);
    dossier.separating.push(vec![Input(0); 97]);
    dossier.tests.push(vec![Input(0); 200]);
    assert_eq!(read_dossier(&write_dossier(&dossier)), Ok(dossier.clone()));
    dossier.tests[0].push(Input(0));
    // Front of 20 bytes, then the count, the word 0, the word of 97, and the tests' count.
    let bad_word = Err(Refusal::BadWord(in_dossier(20 + 2 + 2 + 98 + 2)));
    assert_eq!(read_dossier(&write_dossier(&dossier)), bad_word);
    dossier.separating[1].push(Input(0));
    let bad_word = Err(Refusal::BadWord(in_dossier(20 + 2 + 2)));
    assert_eq!(read_dossier(&write_dossier(&dossier)), bad_word);
}

/// A file at its size is read, one byte more is TOO LONG before any byte is read.
#[test]
fn each_file_has_its_size() {
    let too_long = Err(Refusal::TooLong(in_dossier(0)));
    assert_eq!(read_dossier(&[0; 65_536]), too_long);
    let bad_count = Err(Refusal::BadNumbers(in_dossier(0)));
    assert_eq!(read_dossier(&[0; 65_535]), bad_count);
    assert_eq!(read_unit(&[0; 65_536]), Err(Refusal::TooLong(in_unit(0))));
    assert_eq!(
        read_unit(&[0; 65_535]),
        Err(Refusal::BadNumbers(in_unit(0)))
    );
    let too_long = Err(Refusal::TooLong(in_sheet(0)));
    assert_eq!(read_sheet(&[0; 131_071], 2), too_long);
    let trailing = Err(Refusal::Trailing(in_sheet(2)));
    assert_eq!(read_sheet(&[0; 131_070], 2), trailing);
}
