//! The program over files: its lines, its exit status, and what it writes.

use crate::common::*;
use reference::files::{write_dossier, write_sheet, write_unit};
use std::fs;
use std::path::{Path, PathBuf};
use std::process::{Command, Output};

/// A fresh folder for one test.
fn folder(name: &str) -> PathBuf {
    let folder = Path::new(env!("CARGO_TARGET_TMPDIR")).join(name);
    if folder.exists() {
        fs::remove_dir_all(&folder).unwrap();
    }
    fs::create_dir_all(&folder).unwrap();
    folder
}

/// Calls the program in a folder.
fn call(folder: &Path, arguments: &[&str]) -> Output {
    Command::new(env!("CARGO_BIN_EXE_reference"))
        .current_dir(folder)
        .args(arguments)
        .output()
        .unwrap()
}

/// What the program prints where it answers.
fn line(folder: &Path, arguments: &[&str]) -> String {
    let output = call(folder, arguments);
    assert_eq!(output.status.code(), Some(0));
    assert!(output.stderr.is_empty());
    String::from_utf8(output.stdout).unwrap()
}

#[test]
fn run_prints_the_line_of_document_01() {
    let folder = folder("run");
    fs::write(folder.join("unit"), unit_v_bytes()).unwrap();
    let lines = [
        (dossier_54(), "FAILS 1 2 010 1 0\n"),
        (dossier_37(), "REFUSED 16\n"),
    ];
    for (golden, printed) in lines {
        fs::write(folder.join("golden"), golden).unwrap();
        assert_eq!(line(&folder, &["run", "."]), printed);
    }
}

#[test]
fn a_file_that_cannot_be_opened_counts_as_empty() {
    let folder = folder("unopened");
    assert_eq!(line(&folder, &["run", "."]), "REFUSED 2 D 0\n");
    assert_eq!(line(&folder, &["run", "nowhere"]), "REFUSED 2 D 0\n");
    fs::write(folder.join("golden"), dossier_37()).unwrap();
    assert_eq!(line(&folder, &["run", "."]), "REFUSED 2 U 0\n");
}

/// A file that opens but cannot be read to its end counts as ended there. A folder opens, but
/// nothing of it can be read.
#[test]
fn a_file_that_cannot_be_read_counts_as_ended() {
    let folder = folder("unread");
    fs::create_dir(folder.join("golden")).unwrap();
    assert_eq!(line(&folder, &["run", "."]), "REFUSED 2 D 0\n");
}

#[test]
fn a_file_over_its_size_is_too_long_whatever_its_length() {
    let folder = folder("long");
    for length in [65_536, 131_070, 131_071, 131_072, 1_000_000] {
        fs::write(folder.join("golden"), vec![0; length]).unwrap();
        assert_eq!(line(&folder, &["run", "."]), "REFUSED 1 D 0\n");
    }
}

#[test]
fn check_and_cost_print_one_line() {
    let folder = folder("check");
    fs::write(folder.join("good"), dossier_37()).unwrap();
    fs::write(folder.join("cut"), &dossier_37()[..36]).unwrap();
    let weak = write_dossier(&dossier_g(3, &["00", "100", "110"]));
    fs::write(folder.join("weak"), weak).unwrap();
    assert_eq!(line(&folder, &["check", "good"]), "ACCEPTED\n");
    let missing = "REFUSED 11 MISSING, dossier, cover 0, middle 00, separator 0\n";
    assert_eq!(line(&folder, &["check", "weak"]), missing);
    let cut_short = "REFUSED 2 CUT SHORT, dossier, length 36\n";
    assert_eq!(line(&folder, &["check", "cut"]), cut_short);
    assert_eq!(line(&folder, &["cost", "good"]), "COST tests 3, inputs 8\n");
    assert_eq!(line(&folder, &["cost", "cut"]), cut_short);
}

#[test]
fn compare_prints_one_line() {
    let folder = folder("compare");
    fs::write(folder.join("golden"), dossier_37()).unwrap();
    fs::write(folder.join("v"), unit_v_bytes()).unwrap();
    let same = hex("02 00 02 02 04 00 00 00 01 00 00 01 01 00");
    fs::write(folder.join("same"), same).unwrap();
    let differs = "DIFFERS length 3, word 010\n";
    assert_eq!(line(&folder, &["compare", "golden", "v"]), differs);
    assert_eq!(line(&folder, &["compare", "golden", "same"]), "EQUAL\n");
    let bad_numbers = "REFUSED 3 BAD NUMBERS, unit, byte 0\n";
    assert_eq!(line(&folder, &["compare", "golden", "golden"]), bad_numbers);
}

#[test]
fn judge_prints_one_line() {
    let folder = folder("judge");
    fs::write(folder.join("dossier"), dossier_37()).unwrap();
    let write = |records: &[(&str, &[u8])]| {
        fs::write(folder.join("sheet"), write_sheet(&sheet(records))).unwrap();
    };
    write(&[("00", &[0, 0]), ("100", &[0, 1, 0]), ("110", &[0, 0, 1])]);
    let judge = ["judge", "dossier", "sheet"];
    assert_eq!(line(&folder, &judge), "AGREES\n");
    write(&[("00", &[0, 0]), ("100", &[0, 0, 0]), ("110", &[0, 0, 1])]);
    assert_eq!(line(&folder, &judge), "DEVIATES test 1, step 1, word 100\n");
    write(&[("00", &[0, 0])]);
    assert_eq!(line(&folder, &judge), "REFUSED 14 ABSENT, sheet, test 1\n");
}

#[test]
fn build_writes_the_file_or_leaves_it() {
    let folder = folder("build");
    fs::write(folder.join("old"), write_dossier(&dossier_g(3, &[]))).unwrap();
    fs::write(folder.join("out"), vec![0xee; 100]).unwrap();
    let mut uncovered = dossier_g(3, &[]);
    uncovered.cover.clear();
    fs::write(folder.join("uncovered"), write_dossier(&uncovered)).unwrap();
    let refused = "REFUSED 7 NO EMPTY WORD, dossier\n";
    assert_eq!(line(&folder, &["build", "uncovered", "out"]), refused);
    assert_eq!(fs::read(folder.join("out")).unwrap(), vec![0xee; 100]);
    assert_eq!(line(&folder, &["build", "old", "out"]), "BUILT length 54\n");
    assert_eq!(fs::read(folder.join("out")).unwrap(), dossier_54());
}

#[test]
fn find_writes_the_file_or_leaves_it() {
    let folder = folder("find");
    fs::write(folder.join("table"), table_g_bytes()).unwrap();
    fs::write(folder.join("out"), vec![0xee; 100]).unwrap();
    let refused = "REFUSED 3 BAD NUMBERS, number, byte 0\n";
    assert_eq!(line(&folder, &["find", "table", "1", "out"]), refused);
    let alike = write_unit(&machine(1, &[(1, 0), (2, 1), (3, 1), (1, 1)]));
    fs::write(folder.join("alike"), alike).unwrap();
    let refused = "REFUSED 18 NOT REDUCED, unit, states 1 and 2\n";
    assert_eq!(line(&folder, &["find", "alike", "0", "out"]), refused);
    let unreached = write_unit(&machine(1, &[(0, 0), (1, 0)]));
    fs::write(folder.join("unreached"), unreached).unwrap();
    let refused = "REFUSED 8 UNREACHED, unit, state 1\n";
    assert_eq!(line(&folder, &["find", "unreached", "0", "out"]), refused);
    assert_eq!(fs::read(folder.join("out")).unwrap(), vec![0xee; 100]);
    let found = "FOUND length 26\n";
    assert_eq!(line(&folder, &["find", "table", "3", "out"]), found);
    let right = write_dossier(&dossier_g(3, &[]));
    assert_eq!(fs::read(folder.join("out")).unwrap(), right);
}

#[test]
fn import_writes_the_file_or_leaves_it() {
    let folder = folder("import");
    fs::write(folder.join("out"), vec![0xee; 100]).unwrap();
    for (text, said) in [
        (".i 1\n.o 1\n- a a\n", "REFUSED 19 BAD LINE, text, line 3\n"),
        (
            ".i 1\n.o 1\n- a a 0\n0 a a 1\n",
            "REFUSED 20 CONTRADICTION, text, line 4\n",
        ),
        (
            ".i 1\n.o 1\n- a b 0\n0 b a 1\n.e",
            "REFUSED 21 INCOMPLETE, text, state 1, input 1\n",
        ),
        (&"x".repeat(65_536), "REFUSED 1 TOO LONG, text, byte 0\n"),
    ] {
        fs::write(folder.join("text"), text).unwrap();
        assert_eq!(line(&folder, &["import", "text", "out"]), said);
    }
    assert_eq!(fs::read(folder.join("out")).unwrap(), vec![0xee; 100]);
    fs::write(folder.join("text"), TEXT_G).unwrap();
    let imported = "IMPORTED length 14\n";
    assert_eq!(line(&folder, &["import", "text", "out"]), imported);
    assert_eq!(fs::read(folder.join("out")).unwrap(), table_g_bytes());
}

#[test]
fn a_file_that_cannot_be_written_is_told() {
    let folder = folder("unwritten");
    fs::write(folder.join("old"), dossier_37()).unwrap();
    let told = told(&call(&folder, &["build", "old", "nowhere/out"]), 1);
    assert!(told.contains("cannot write nowhere/out"));
}

#[test]
fn wrong_usage_is_told_and_has_status_2() {
    let folder = folder("usage");
    let wrong: [&[&str]; 11] = [
        &[],
        &["run"],
        &["walk", "."],
        &["check", "a", "b"],
        &["build", "a"],
        &["find", "a", "0"],
        &["find", "a", "256", "b"],
        &["find", "a", "+1", "b"],
        &["find", "a", "", "b"],
        &["import", "a"],
        &["import", "a", "b", "c"],
    ];
    for arguments in wrong {
        let told = told(&call(&folder, arguments), 2);
        assert!(told.starts_with("usage: reference run FOLDER"));
    }
}
