//! Writes the dossiers, units, sheets, tables and texts to time the operations on.

use reference::generate::timed;
use std::fs;
use std::io;
use std::path::Path;
use std::process::ExitCode;

const USAGE: &str = "\
usage: timed FOLDER   write each dossier, its unit, its sheet, its table and its text to files of the
                      folder, and print the name of the dossier and the five paths, a line each
";

fn main() -> ExitCode {
    let arguments: Vec<String> = std::env::args().skip(1).collect();
    let [folder] = arguments.as_slice() else {
        eprint!("{USAGE}");
        return ExitCode::from(2);
    };
    match write_all(Path::new(folder)) {
        Ok(()) => ExitCode::SUCCESS,
        Err(fault) => {
            eprintln!("timed: a file cannot be written: {fault}");
            ExitCode::FAILURE
        }
    }
}

fn write_all(folder: &Path) -> io::Result<()> {
    // The files take long to make: whether there is a place for them is asked first.
    fs::read_dir(folder)?;
    for (number, timed) in timed().iter().enumerate() {
        println!("{}", timed.name);
        let files = [
            ("dossier", &timed.dossier),
            ("unit", &timed.unit),
            ("sheet", &timed.sheet),
            ("table", &timed.table),
            ("text", &timed.text),
        ];
        for (sort, bytes) in files {
            let path = folder.join(format!("{sort}-{number}"));
            fs::write(&path, bytes)?;
            println!("{}", path.display());
        }
    }
    Ok(())
}
