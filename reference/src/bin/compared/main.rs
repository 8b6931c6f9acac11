//! Holds the static library to this program. A driver that is linked with the library is asked
//! over pipes; the first answer that is another than this program's is told with its files.

mod cases;
mod driver;
mod operations;

use crate::driver::{hold_against, Tally};
use crate::operations::{Operation, OPERATIONS};
use std::path::Path;
use std::process::{Command, ExitCode};

const USAGE: &str = "\
usage: compared SEED COUNT EXAMPLES DRIVER [WORD...]
   hold the library that the command DRIVER asks to the second program: on the worked files, of
   which the folder EXAMPLES has one of each sort, on files at limits, and on COUNT files of a seed
";

fn main() -> ExitCode {
    let arguments: Vec<String> = std::env::args().skip(1).collect();
    let [seed, count, examples, driver, words @ ..] = arguments.as_slice() else {
        return wrong_usage();
    };
    let (Ok(seed), Ok(count)) = (seed.parse(), count.parse()) else {
        return wrong_usage();
    };
    let tried = match cases::all(seed, count, Path::new(examples)) {
        Ok(tried) => tried,
        Err(fault) => {
            eprintln!("compared: an example cannot be read: {fault}");
            return ExitCode::FAILURE;
        }
    };
    let told = hold_against(Command::new(driver).args(words), tried);
    match told.and_then(all_answers) {
        Ok(tally) => {
            print!("{}", shown(&tally));
            let answers: usize = tally.values().sum();
            println!("compared: {answers} answers alike, seed {seed}");
            ExitCode::SUCCESS
        }
        Err(difference) => {
            println!("compared, seed {seed}: {difference}");
            ExitCode::FAILURE
        }
    }
}

/// The tally, if every answer was given: cases that leave one out would show nothing of it.
fn all_answers(tally: Tally) -> Result<Tally, String> {
    for operation in &OPERATIONS {
        let name = operation.name;
        for &(file, codes) in operation.answers {
            for &code in codes {
                if !tally.contains_key(&(name, file, code)) {
                    return Err(format!("no case of {name} is answered {code}, file {file}"));
                }
            }
        }
    }
    Ok(tally)
}

/// A line for each operation: each code with its file, and how often it was given.
fn shown(tally: &Tally) -> String {
    let line = |operation: &Operation| {
        let counts = tally
            .iter()
            .filter(|((name, ..), _)| *name == operation.name);
        let counts = counts.map(|((_, file, code), count)| match file {
            0 => format!("{code}: {count}"),
            _ => format!("{code} of file {file}: {count}"),
        });
        let counts: Vec<String> = counts.collect();
        format!("{}: {}\n", operation.name, counts.join(", "))
    };
    OPERATIONS.iter().map(line).collect()
}

fn wrong_usage() -> ExitCode {
    eprint!("{USAGE}");
    ExitCode::from(2)
}
