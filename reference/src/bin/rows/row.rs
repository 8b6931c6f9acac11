//! Rows: what an operation answers on a case, as a statement about the definitions.

use crate::operation::Operation;
use crate::said::{said, Kind, Said};
use reference::build::build;
use reference::check::check;
use reference::compare::compare;
use reference::cost::cost;
use reference::find::find;
use reference::generate::Case;
use reference::judge::{judge, JudgeAnswer};
use reference::kiss2::read_kiss2;
use reference::line::run_line;
use reference::run::run;

/// One row.
pub struct Row {
    pub name: String,
    pub operation: Operation,
    pub kind: Kind,
    pub statement: String,
    pub proof: &'static str,
}

/// The proof of a row that says one thing, and of one that says two.
const ONE: &str = "refl";
const TWO: &str = "(refl, refl)";

/// A row for each operation. The case's name ends the names of its rows.
pub fn rows_of(name: &str, case: &Case) -> Vec<Row> {
    let row = |operation: Operation| {
        let (answer, statement, proof) = match operation {
            Operation::Check => checks(case),
            Operation::Build => builds(case),
            Operation::Run => runs(case),
            Operation::Compare => compares(case),
            Operation::Judge => judges(case),
            Operation::Cost => costs(case),
            Operation::Find => finds(case),
            Operation::Import => imports(case),
        };
        Row {
            name: format!("{}-{name}", operation.name()),
            operation,
            kind: answer.kind,
            statement,
            proof,
        }
    };
    Operation::ALL.into_iter().map(row).collect()
}

/// An answer, the statement that it is given, and the statement's proof.
type Stated = (Said, String, &'static str);

fn checks(case: &Case) -> Stated {
    let answer = said(check(&case.dossier));
    let statement = format!("Checks {} {}", list(&case.dossier), says(&answer));
    (answer, statement, ONE)
}

fn builds(case: &Case) -> Stated {
    let before = output(case);
    let mut after = before.clone();
    let answer = said(build(&case.dossier, &mut after));
    let files = lists([&case.dossier, &before]);
    let statement = format!("Builds {files} {} {}", says(&answer), list(&after));
    (answer, statement, TWO)
}

fn runs(case: &Case) -> Stated {
    let answer = said(run(&case.dossier, &case.unit));
    let line = run_line(&case.dossier, &case.unit);
    let files = lists([&case.dossier, &case.unit]);
    let statement = format!("Runs {files} {} {}", says(&answer), list(line.as_bytes()));
    (answer, statement, TWO)
}

fn compares(case: &Case) -> Stated {
    let before = output(case);
    let mut after = before.clone();
    let answer = said(compare(&case.dossier, &case.unit, &mut after));
    let files = lists([&case.dossier, &case.unit, &before]);
    let statement = format!("Compares {files} {} {}", says(&answer), list(&after));
    (answer, statement, TWO)
}

fn judges(case: &Case) -> Stated {
    let judged = judge(&case.dossier, &case.sheet);
    let part = match &judged {
        Ok(JudgeAnswer::Deviates { word, .. }) => word.clone(),
        Ok(JudgeAnswer::Agrees) | Err(_) => 0..0,
    };
    let part = format!("(part_at {} {})", part.start, part.len());
    let answer = said(judged);
    let files = lists([&case.dossier, &case.sheet]);
    let statement = format!("Judges {files} {} {part}", says(&answer));
    (answer, statement, TWO)
}

fn costs(case: &Case) -> Stated {
    let answer = said(cost(&case.dossier));
    let statement = format!("Costs {} {}", list(&case.dossier), says(&answer));
    (answer, statement, ONE)
}

fn finds(case: &Case) -> Stated {
    let before = output(case);
    let mut after = before.clone();
    let answer = said(find(&case.unit, case.bound, &mut after));
    let (unit, bound, out) = (list(&case.unit), case.bound, list(&before));
    let statement = format!(
        "Finds {unit} {bound} {out} {} {}",
        says(&answer),
        list(&after)
    );
    (answer, statement, TWO)
}

fn imports(case: &Case) -> Stated {
    let before = output(case);
    let mut after = before.clone();
    let answer = said(read_kiss2(&case.text, &mut after));
    let files = lists([&case.text, &before]);
    let statement = format!("Imports {files} {} {}", says(&answer), list(&after));
    (answer, statement, TWO)
}

/// An output before the call. Bytes that stand near each other differ, so that none can be taken
/// for another that was to stay.
fn output(case: &Case) -> Vec<u8> {
    (0..=255).rev().cycle().take(case.output_length).collect()
}

fn says(answer: &Said) -> String {
    let Kind { number, file } = answer.kind;
    format!("(says {number} {file} {})", list(&answer.values))
}

fn lists<const FILES: usize>(files: [&Vec<u8>; FILES]) -> String {
    files.map(|bytes| list(bytes)).join(" ")
}

fn list<T: ToString>(things: &[T]) -> String {
    let things: String = things
        .iter()
        .map(|thing| thing.to_string() + " ∷ ")
        .collect();
    format!("({things}[])")
}
