//! The program that prints rows: what it prints for a seed, and its exit status.

use crate::common::told;
use std::process::{Command, Output};

fn rows(arguments: &[&str]) -> Output {
    Command::new(env!("CARGO_BIN_EXE_rows"))
        .args(arguments)
        .output()
        .unwrap()
}

/// Catches rows that could not be found again.
#[test]
fn the_same_seed_gives_the_same_rows() {
    let once = rows(&["1", "1"]);
    assert_eq!(once.status.code(), Some(0));
    assert!(once.stderr.is_empty());
    assert!(once.stdout == rows(&["1", "1"]).stdout);
    assert!(once.stdout != rows(&["2", "1"]).stdout);
}

/// Catches rows of one operation or one kind of answer only.
#[test]
fn each_kind_of_answer_has_its_rows() {
    let module = String::from_utf8(rows(&["1", "2"]).stdout).unwrap();
    let times = |operation: &str, answer: &str| {
        let of_operation = module.lines().filter(|line| line.starts_with(operation));
        of_operation.filter(|line| line.contains(answer)).count()
    };
    for operation in ["check", "build", "run", "compare", "judge", "cost"] {
        assert!(times(&format!("  pub {operation}-"), "(says 0 0 ") >= 2);
        assert!(times(&format!("  pub {operation}-"), "(says 6 1 ") >= 2);
    }
    let others = [
        ("run", "16 2"),
        ("build", "17 4"),
        ("judge", "14 3"),
        ("find", "0 0"),
        ("find", "3 6"),
        ("find", "18 2"),
        ("import", "0 0"),
        ("import", "17 4"),
        ("import", "19 5"),
        ("import", "20 5"),
        ("import", "21 5"),
    ];
    for (operation, answer) in others {
        assert!(times(&format!("  pub {operation}-"), &format!("(says {answer} ")) >= 2);
    }
}

#[test]
fn wrong_usage_is_told() {
    for arguments in [&[][..], &["1"], &["1", "x"], &["1", "1", "1"]] {
        let told = told(&rows(arguments), 2);
        assert!(told.starts_with("usage: rows SEED COUNT"));
    }
}
