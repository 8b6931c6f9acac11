//! The second program for a clerk: each operation over files, one line an answer.
//!
//! The line of `run` is document 01's, to the byte. Those of the other commands are in README.md.

use reference::build::built_bytes;
use reference::check::{check, Accepted};
use reference::compare::compared;
use reference::cost::{cost, Cost};
use reference::find::found_bytes;
use reference::judge::{judge, JudgeAnswer};
use reference::kiss2::imported_bytes;
use reference::line::run_line;
use reference::machine::{digits, Input};
use reference::refusal::Refusal;
use reference::sizes::MOST_SHEET_BYTES;
use std::fs::{self, File};
use std::io::{self, Read, Write};
use std::path::{Path, PathBuf};
use std::process::ExitCode;

const USAGE: &str = "\
usage: reference run FOLDER             run FOLDER/unit over the tests of FOLDER/golden
       reference check DOSSIER          is the dossier accepted?
       reference cost DOSSIER           the count of tests and the sum of their lengths
       reference compare DOSSIER UNIT   do golden and unit answer every word alike?
       reference judge DOSSIER SHEET    does the sheet hold the golden's answers?
       reference build DOSSIER OUT      write the dossier with new tests to the file OUT
       reference find UNIT BOUND OUT    write a dossier of the unit taken as golden to the file OUT
       reference import TEXT OUT        write the unit of a KISS2 text to the file OUT
";

fn main() -> ExitCode {
    let arguments: Vec<PathBuf> = std::env::args_os().skip(1).map(PathBuf::from).collect();
    let Some((command, paths)) = arguments.split_first() else {
        return wrong_usage();
    };
    match (command.to_str(), paths) {
        (Some("run"), [folder]) => {
            let golden = bytes_of(&folder.join("golden"));
            say(&run_line(&golden, &bytes_of(&folder.join("unit"))))
        }
        (Some("check"), [dossier]) => say_answer(check_line(&bytes_of(dossier))),
        (Some("cost"), [dossier]) => say_answer(cost_line(&bytes_of(dossier))),
        (Some("compare"), [dossier, unit]) => {
            say_answer(compare_line(&bytes_of(dossier), &bytes_of(unit)))
        }
        (Some("judge"), [dossier, sheet]) => {
            say_answer(judge_line(&bytes_of(dossier), &bytes_of(sheet)))
        }
        (Some("build"), [dossier, out]) => {
            write_file("BUILT", built_bytes(&bytes_of(dossier)), out)
        }
        (Some("find"), [unit, bound, out]) => match decimal(bound) {
            Some(bound) => write_file("FOUND", found_bytes(&bytes_of(unit), bound), out),
            None => wrong_usage(),
        },
        (Some("import"), [text, out]) => {
            write_file("IMPORTED", imported_bytes(&bytes_of(text)), out)
        }
        _ => wrong_usage(),
    }
}

fn check_line(dossier: &[u8]) -> Result<String, Refusal> {
    check(dossier).map(|Accepted| "ACCEPTED".to_string())
}

fn cost_line(dossier: &[u8]) -> Result<String, Refusal> {
    let Cost { tests, inputs } = cost(dossier)?;
    Ok(format!("COST tests {tests}, inputs {inputs}"))
}

fn compare_line(dossier: &[u8], unit: &[u8]) -> Result<String, Refusal> {
    Ok(match compared(dossier, unit)? {
        None => "EQUAL".to_string(),
        Some(word) => format!("DIFFERS length {}, word {}", word.len(), digits(&word)),
    })
}

fn judge_line(dossier: &[u8], sheet: &[u8]) -> Result<String, Refusal> {
    Ok(match judge(dossier, sheet)? {
        JudgeAnswer::Agrees => "AGREES".to_string(),
        JudgeAnswer::Deviates { test, step, word } => {
            let word: Vec<Input> = dossier[word].iter().copied().map(Input).collect();
            format!("DEVIATES test {test}, step {step}, word {}", digits(&word))
        }
    })
}

/// Writes a dossier or a unit to a file, which has room for any. A refusal leaves the file as it was.
fn write_file(said: &str, written: Result<Vec<u8>, Refusal>, out: &Path) -> ExitCode {
    let bytes = match written {
        Ok(bytes) => bytes,
        Err(refusal) => return say_answer(Err(refusal)),
    };
    if let Err(fault) = fs::write(out, &bytes) {
        eprintln!("reference: cannot write {}: {fault}", out.display());
        return ExitCode::FAILURE;
    }
    say_answer(Ok(format!("{said} length {}", bytes.len())))
}

/// A number of 0 to 255 in decimal digits.
fn decimal(word: &Path) -> Option<u8> {
    let digits = word.to_str()?;
    let all_digits = digits.bytes().all(|byte| byte.is_ascii_digit());
    all_digits.then(|| digits.parse().ok())?
}

/// A file's bytes. One that cannot be opened counts as empty, and one that cannot be read to its
/// end as ended there. No more is read than shows that any file is TOO LONG.
fn bytes_of(path: &Path) -> Vec<u8> {
    let mut bytes = Vec::new();
    if let Ok(file) = File::open(path) {
        let enough = MOST_SHEET_BYTES as u64 + 1;
        // What was read before a fault stays in `bytes`, and the fault itself changes nothing.
        let _ = file.take(enough).read_to_end(&mut bytes);
    }
    bytes
}

fn say_answer(answer: Result<String, Refusal>) -> ExitCode {
    let line = answer.unwrap_or_else(|refusal| refusal.to_string());
    say(&format!("{line}\n"))
}

fn say(line: &str) -> ExitCode {
    match io::stdout().write_all(line.as_bytes()) {
        Ok(()) => ExitCode::SUCCESS,
        Err(_) => ExitCode::FAILURE,
    }
}

fn wrong_usage() -> ExitCode {
    eprint!("{USAGE}");
    ExitCode::from(2)
}
