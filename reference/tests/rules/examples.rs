//! The example folder holds the worked pieces of document 01.

use crate::common::*;
use reference::build::built_bytes;
use reference::check::{check, Accepted};
use reference::find::found_bytes;
use reference::judge::{judge, JudgeAnswer};
use reference::kiss2::imported_bytes;
use reference::line::run_line;
use std::fs;
use std::path::Path;

fn example(name: &str) -> Vec<u8> {
    let folder = Path::new(env!("CARGO_MANIFEST_DIR")).join("../examples");
    fs::read(folder.join(name)).unwrap()
}

#[test]
fn golden_is_the_built_m_3_dossier_and_unit_is_v() {
    assert_eq!(example("golden"), dossier_54());
    assert_eq!(example("unit"), unit_v_bytes());
    assert_eq!(check(&example("golden")), Ok(Accepted));
    let line = run_line(&example("golden"), &example("unit"));
    assert_eq!(line, "FAILS 1 2 010 1 0\n");
}

/// From the bare table to the golden's dossier.
#[test]
fn table_is_g_alone() {
    assert_eq!(example("table"), table_g_bytes());
    let found = found_bytes(&example("table"), 3).unwrap();
    assert_eq!(built_bytes(&found), Ok(example("golden")));
}

/// From a maker's text to the bare table.
#[test]
fn text_is_g_in_kiss2() {
    assert_eq!(example("text"), TEXT_G.as_bytes());
    assert_eq!(imported_bytes(&example("text")), Ok(example("table")));
}

/// Each worked text of docs/KISS2.md gives the bytes of the table below it, at the places that it names.
#[test]
fn the_texts_of_the_page_on_kiss2_give_their_bytes() {
    let page = Path::new(env!("CARGO_MANIFEST_DIR")).join("../docs/KISS2.md");
    let page = fs::read_to_string(page).unwrap();
    let (worked, _) = page.split_once("## What is refused").unwrap();
    let worked: Vec<&str> = worked.split("\n### ").skip(1).collect();
    assert_eq!(worked.len(), 2);
    for piece in worked {
        let text = piece.lines().filter_map(|line| line.strip_prefix("    "));
        let text: String = text.map(|line| format!("{line}\n")).collect();
        let mut unit = Vec::new();
        for row in piece.lines().filter_map(|line| line.strip_prefix("| ")) {
            let cells: Vec<&str> = row.split(" | ").collect();
            if let Ok(place) = cells[0].parse::<usize>() {
                assert_eq!(unit.len(), place);
                unit.extend(hex(&cells[1].replace('`', "")));
            }
        }
        assert_eq!(imported_bytes(text.as_bytes()), Ok(unit));
    }
}

/// The answers of G to the six tests, worked out by hand.
#[test]
fn sheet_holds_the_answers_of_g() {
    let answers: [(&str, &[u8]); 6] = [
        ("000", &[0, 0, 0]),
        ("010", &[0, 0, 1]),
        ("1000", &[0, 1, 0, 0]),
        ("1010", &[0, 1, 0, 1]),
        ("1100", &[0, 0, 1, 0]),
        ("1110", &[0, 0, 0, 1]),
    ];
    let bytes = reference::files::write_sheet(&sheet(&answers));
    assert_eq!(example("sheet"), bytes);
    let judged = judge(&example("golden"), &example("sheet"));
    assert_eq!(judged, Ok(JudgeAnswer::Agrees));
}
