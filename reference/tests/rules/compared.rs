//! The comparison with the library: its exit status, and what it tells of a driver that fails.

use crate::common::told;
use std::path::Path;
use std::process::{Command, Output};

fn compared(arguments: &[&str]) -> Output {
    Command::new(env!("CARGO_BIN_EXE_compared"))
        .current_dir(Path::new(env!("CARGO_MANIFEST_DIR")).join(".."))
        .args(arguments)
        .output()
        .unwrap()
}

/// Catches a comparison that passes where nothing was compared: a driver that is not there, one
/// that ends at once, and one that answers with what it was asked.
#[test]
fn a_driver_that_fails_is_told() {
    let told_of = [
        ("./no-such-driver", "the driver cannot be started"),
        (
            "true",
            "check of worked file 0: the library answers nothing",
        ),
        ("cat", "check of worked file 0: the library answers 0x"),
    ];
    for (driver, told) in told_of {
        let output = compared(&["1", "1", "examples", driver]);
        assert_eq!(output.status.code(), Some(1));
        let line = String::from_utf8(output.stdout).unwrap();
        assert!(
            line.starts_with(&format!("compared, seed 1: {told}")),
            "{line}"
        );
    }
}

#[test]
fn an_example_that_is_not_there_is_told() {
    let told = told(&compared(&["1", "1", "no-such-folder", "cat"]), 1);
    assert!(told.starts_with("compared: an example cannot be read"));
}

#[test]
fn wrong_usage_of_the_comparison_is_told() {
    let wrong = [
        &[][..],
        &["1", "1", "examples"],
        &["1", "x", "examples", "cat"],
    ];
    for arguments in wrong {
        assert!(told(&compared(arguments), 2).starts_with("usage: compared SEED COUNT"));
    }
}
