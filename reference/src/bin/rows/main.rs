//! Rows to hold the definitions to: prints a module of theorems, each of which says that a
//! definition answers as this program does.

mod choose;
mod module;
mod operation;
mod row;
mod said;

use std::io::{self, Write};
use std::process::ExitCode;

const USAGE: &str = "\
usage: rows SEED COUNT   print rows over small cases of the seed, each kind of answer COUNT times
";

fn main() -> ExitCode {
    let arguments: Vec<String> = std::env::args().skip(1).collect();
    let Some((seed, count)) = seed_and_count(&arguments) else {
        eprint!("{USAGE}");
        return ExitCode::from(2);
    };
    let rows = match choose::chosen(seed, count) {
        Ok(rows) => rows,
        Err(lacking) => {
            eprintln!("rows: {lacking}");
            return ExitCode::FAILURE;
        }
    };
    match io::stdout().write_all(module::module(&rows).as_bytes()) {
        Ok(()) => ExitCode::SUCCESS,
        Err(_) => ExitCode::FAILURE,
    }
}

fn seed_and_count(arguments: &[String]) -> Option<(u64, usize)> {
    match arguments {
        [seed, count] => Some((seed.parse().ok()?, count.parse().ok()?)),
        _ => None,
    }
}
