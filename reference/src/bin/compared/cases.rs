//! The cases that are tried: worked files and their damage, files at limits, and seeded ones.

use reference::build::built_bytes;
use reference::files::{read_dossier, write_dossier, write_sheet, write_unit};
use reference::find::found_bytes;
use reference::generate::{
    edges, limit_case, plain_case, table_cases, text_case, text_cases, text_limits,
    with_damaged_dossier, with_thrown_dossier, worst, wrong_at_the_end, Case, Dice,
};
use reference::kiss2::imported_bytes;
use reference::sizes::{MOST_DOSSIER_BYTES, MOST_SHEET_BYTES};
use reference::worked;
use std::fmt::{self, Display, Formatter};
use std::io;
use std::iter::once_with;
use std::path::Path;

/// A case and where it comes from, so that it can be made again.
pub struct Tried {
    pub origin: Origin,
    pub case: Case,
}

/// The kind of a case and its number among those of its kind.
#[derive(Clone, Copy)]
pub struct Origin {
    kind: &'static str,
    number: usize,
}

impl Display for Origin {
    fn fmt(&self, text: &mut Formatter) -> fmt::Result {
        write!(text, "{} {}", self.kind, self.number)
    }
}

/// How many seeded cases are made of one draft: as it is, twice damaged, and with any bytes.
const MADE_OF_ONE: u64 = 4;

/// One draft in so many is at a limit; such a file takes a hundred times as long to make.
const DRAFTS_FOR_A_LIMIT: u64 = 100;

/// How many seeded cases there are for each bare table of the seed.
const CASES_FOR_A_TABLE: usize = 10;

/// How many seeded cases there are for each text of the seed, of which four are made.
const CASES_FOR_A_TEXT: usize = 20;

/// All cases, the seeded ones last. Each kind is made when it is asked for: a difference that is
/// found early need not wait for the rest.
pub fn all(seed: u64, count: usize, examples: &Path) -> io::Result<impl Iterator<Item = Tried>> {
    let example = read_example(examples)?;
    let text = std::fs::read(examples.join("text"))?;
    let worked = worked_cases(&example);
    let damaged = worked.clone().into_iter().flat_map(damaged_dossiers);
    let roomy = worked.clone().into_iter().flat_map(rooms);
    let tables = worked_tables(&example);
    let bounds = tables.clone().into_iter().flat_map(all_bounds);
    let roomy_tables = tables.into_iter().flat_map(rooms_to_find);
    let texts = damaged_texts(&text).into_iter().chain(text_limits());
    let texts = texts.enumerate().map(text_with_room_in_turn);
    let fixed = numbered("worked file", worked)
        .chain(numbered("damage to a worked file", damaged))
        .chain(numbered("damage to a unit", damaged_units(&example)))
        .chain(numbered("damage to a sheet", damaged_sheets(&example)))
        .chain(numbered("edge", edges()))
        .chain(numbered("length", lengths(&example)))
        .chain(numbered("output", roomy))
        .chain(numbered("bound", bounds))
        .chain(numbered("output of find", roomy_tables))
        .chain(numbered("output of a text", rooms_to_import(&text)))
        .chain(numbered("text", texts));
    let worst = once_with(move || worst_cases(&example)).flatten();
    let judged = worst.clone().flat_map(large_sheets);
    let worst = worst.flat_map(tight_rooms);
    let seeded = (0..).flat_map(move |draft| made_of_one(seed, draft));
    let tables = 0..(count / CASES_FOR_A_TABLE) as u64;
    let tables = tables.flat_map(move |number| table_cases(seed, number));
    let drafts = 0..(count / CASES_FOR_A_TEXT) as u64;
    let written = drafts.flat_map(move |number| text_cases(seed, number));
    Ok(fixed
        .chain(numbered("worst dossier", worst))
        .chain(numbered("large sheet", judged))
        .chain(numbered("bare table", tables))
        .chain(numbered("seeded text", written))
        .chain(numbered("seeded case", seeded.take(count))))
}

fn numbered(
    kind: &'static str,
    cases: impl IntoIterator<Item = Case>,
) -> impl Iterator<Item = Tried> {
    let cases = cases.into_iter().enumerate();
    cases.map(move |(number, case)| Tried {
        origin: Origin { kind, number },
        case,
    })
}

fn read_example(folder: &Path) -> io::Result<Case> {
    let read = |name: &str| std::fs::read(folder.join(name));
    Ok(Case {
        dossier: read("golden")?,
        unit: read("unit")?,
        sheet: read("sheet")?,
        output_length: MOST_DOSSIER_BYTES,
        ..Case::default()
    })
}

/// The example, and the dossiers of document 01 with the example's unit and sheet.
fn worked_cases(example: &Case) -> Vec<Case> {
    let dossiers = worked::dossiers().into_iter();
    let dossiers = dossiers.map(|dossier| with_dossier(example, write_dossier(&dossier)));
    [example.clone()].into_iter().chain(dossiers).collect()
}

fn with_dossier(case: &Case, dossier: Vec<u8>) -> Case {
    Case {
        dossier,
        ..case.clone()
    }
}

fn with_unit(case: &Case, unit: Vec<u8>) -> Case {
    Case {
        unit,
        ..case.clone()
    }
}

fn with_sheet(case: &Case, sheet: Vec<u8>) -> Case {
    Case {
        sheet,
        ..case.clone()
    }
}

/// The bare tables that find is tried on with each bound and each room.
fn worked_tables(example: &Case) -> Vec<Case> {
    let tables = worked::tables().into_iter();
    let cases = tables.map(|table| with_unit(example, write_unit(&table)));
    cases.collect()
}

/// The case with every number for the bound.
fn all_bounds(case: Case) -> Vec<Case> {
    let cases = (0..=u8::MAX).map(|bound| Case {
        bound,
        ..case.clone()
    });
    cases.collect()
}

/// The case with outputs of all lengths that make a difference to find, and some others.
fn rooms_to_find(case: Case) -> Vec<Case> {
    let fitting = found_bytes(&case.unit, case.bound).map_or(40, |found| found.len());
    let lengths = [0, 1, fitting - 1, fitting, fitting + 1, fitting + 300];
    with_rooms(&case, &lengths)
}

/// Each byte of a file changed to each value, each length cut, and bytes put behind it.
fn all_damage(whole: &[u8]) -> Vec<Vec<u8>> {
    let mut files = Vec::new();
    for place in 0..whole.len() {
        files.push(whole[..place].to_vec());
        for value in 0..=u8::MAX {
            let mut changed = whole.to_vec();
            changed[place] = value;
            files.push(changed);
        }
    }
    for more in 1..=4 {
        files.extend([0, 1, 255].map(|value| [whole, &vec![value; more]].concat()));
    }
    files
}

fn damaged_dossiers(case: Case) -> Vec<Case> {
    let files = all_damage(&case.dossier).into_iter().enumerate();
    let cases = files.map(|(number, file)| with_room_in_turn(number, with_dossier(&case, file)));
    cases.collect()
}

fn damaged_units(case: &Case) -> Vec<Case> {
    let files = all_damage(&case.unit).into_iter();
    files.map(|file| with_unit(case, file)).collect()
}

fn damaged_sheets(case: &Case) -> Vec<Case> {
    let files = all_damage(&case.sheet).into_iter();
    files.map(|file| with_sheet(case, file)).collect()
}

/// The text with each byte changed, and with each line dropped, doubled and exchanged with another.
fn damaged_texts(text: &[u8]) -> Vec<Vec<u8>> {
    let lines: Vec<&[u8]> = text.split_inclusive(|&byte| byte == b'\n').collect();
    let mut texts = all_damage(text);
    for (place, line) in lines.iter().enumerate() {
        texts.push([&lines[..place], &lines[place + 1..]].concat().concat());
        texts.push(
            [&lines[..place], &[line], &lines[place..]]
                .concat()
                .concat(),
        );
        for other in 0..place {
            let mut exchanged = lines.clone();
            exchanged.swap(place, other);
            texts.push(exchanged.concat());
        }
    }
    texts
}

/// The bytes that the unit of a text takes; some others where it has none.
fn imported_length(text: &[u8]) -> usize {
    imported_bytes(text).map_or(20, |unit| unit.len())
}

/// An output that the unit just fits, a longer one, one that is a byte short, and none.
fn text_with_room_in_turn((number, text): (usize, Vec<u8>)) -> Case {
    let fitting = imported_length(&text);
    let lengths = [fitting, fitting + 9, fitting - 1, 0];
    text_case(text, lengths[number % lengths.len()])
}

/// The text with outputs of every length up to some more than its unit takes.
fn rooms_to_import(text: &[u8]) -> Vec<Case> {
    let lengths = 0..imported_length(text) + 4;
    lengths
        .map(|length| text_case(text.to_vec(), length))
        .collect()
}

/// Sheets of the case's dossier with one thing wrong at their end.
fn large_sheets(case: Case) -> Vec<Case> {
    let Ok(dossier) = read_dossier(&case.dossier) else {
        return Vec::new();
    };
    let sheets = wrong_at_the_end(&mut Dice::new(1, 1), &dossier).into_iter();
    let cases = sheets.map(|sheet| with_sheet(&case, write_sheet(&sheet)));
    cases.collect()
}

/// The bytes that the built dossier takes. Where none is built the dossier's own length stands in,
/// so that there is an output to leave alone.
fn built_length(case: &Case) -> usize {
    built_bytes(&case.dossier).map_or(case.dossier.len(), |built| built.len())
}

/// An output that the built dossier just fits, one that is a byte short, a longer one, and none.
fn with_room_in_turn(number: usize, case: Case) -> Case {
    let fitting = built_length(&case);
    let lengths = [fitting, fitting.saturating_sub(1), fitting + 9, 0];
    Case {
        output_length: lengths[number % lengths.len()],
        ..case
    }
}

/// The case with outputs of all lengths that make a difference to a build, and some others.
fn rooms(case: Case) -> Vec<Case> {
    let fitting = built_length(&case);
    let around = |length: usize| [length.saturating_sub(1), length, length + 1];
    let mut lengths = [around(fitting), around(MOST_DOSSIER_BYTES)].concat();
    lengths.extend([0, 1, fitting / 2, fitting + 300, MOST_SHEET_BYTES]);
    with_rooms(&case, &lengths)
}

/// The case with an output for any dossier, with one that the built dossier just fits, and with one
/// that is a byte short.
fn tight_rooms(case: Case) -> Vec<Case> {
    let fitting = built_length(&case);
    with_rooms(&case, &[MOST_DOSSIER_BYTES, fitting, fitting - 1])
}

fn with_rooms(case: &Case, lengths: &[usize]) -> Vec<Case> {
    let cases = lengths.iter().map(|&output_length| Case {
        output_length,
        ..case.clone()
    });
    cases.collect()
}

/// Files whose lengths stand around the most that a dossier, a unit or a sheet may have.
fn lengths(case: &Case) -> Vec<Case> {
    let around = |most: usize| [most - 1, most, most + 1, most + 2];
    let lengths = [around(MOST_DOSSIER_BYTES), around(MOST_SHEET_BYTES)].concat();
    let files = |whole: &[u8]| {
        let files = lengths.iter().flat_map(|&length| {
            let mut grown = whole.to_vec();
            grown.resize(length, 0);
            [vec![0; length], vec![255; length], grown]
        });
        files.collect::<Vec<_>>().into_iter()
    };
    let dossiers = files(&case.dossier).map(|file| with_dossier(case, file));
    let units = files(&case.unit).map(|file| with_unit(case, file));
    let sheets = files(&case.sheet).map(|file| with_sheet(case, file));
    dossiers.chain(units).chain(sheets).collect()
}

/// The dossiers on which an operation has most to do, with units that pass all their tests and
/// sheets that agree with them.
fn worst_cases(case: &Case) -> Vec<Case> {
    let cases = worst().into_iter().map(|timed| Case {
        dossier: timed.dossier,
        unit: timed.unit,
        sheet: timed.sheet,
        text: timed.text,
        ..case.clone()
    });
    cases.collect()
}

fn made_of_one(seed: u64, draft: u64) -> [Case; MADE_OF_ONE as usize] {
    let case = match draft % DRAFTS_FOR_A_LIMIT {
        0 => limit_case(seed, draft),
        _ => plain_case(seed, draft),
    };
    // Other dice than those that the draft was thrown with.
    let mut dice = Dice::new(!seed, draft);
    let once = with_damaged_dossier(&mut dice, &case);
    let again = with_damaged_dossier(&mut dice, &case);
    let thrown = with_thrown_dossier(&mut dice, &case);
    [case, once, again, thrown]
}
