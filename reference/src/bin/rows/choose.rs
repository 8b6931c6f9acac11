//! Which rows stand in the module: those of every edge, and of generated cases so many that each
//! kind of answer is there often enough.

use crate::operation::Operation;
use crate::row::{rows_of, Row};
use crate::said::Kind;
use reference::files::{read_dossier, read_unit, Unit};
use reference::generate::{edges, plain_case, text_cases, Case};
use reference::needed::middles;
use std::collections::{BTreeMap, HashSet};

/// The most generated cases to look through.
const MOST_CASES: u64 = 100_000;

/// The files that the prover can work with in no time, by their lengths. TOO LONG is an answer
/// about much longer files, so no row has it.
const LONGEST_DOSSIER: usize = 90;
const LONGEST_UNIT: usize = 60;
const LONGEST_SHEET: usize = 120;
const LONGEST_TEXT: usize = 64;
const LONGEST_OUTPUT: usize = 120;

/// The most needed words, and the most words among which a telling or an access word is looked for.
const MOST_WORDS: usize = 64;

/// The rows, or what they lack.
pub fn chosen(seed: u64, count: usize) -> Result<Vec<Row>, String> {
    let mut choice = Choice::new(count);
    for (number, edge) in edges().iter().enumerate() {
        choice.take_all(rows_of(&format!("edge-{number}"), edge));
    }
    let mut numbers = 0..MOST_CASES;
    while let Some((operation, kind)) = choice.lacks() {
        let number = numbers
            .next()
            .ok_or_else(|| format!("too few rows of {operation:?} with {kind:?}"))?;
        let case = plain_case(seed, number);
        choice.take_small(&number.to_string(), &case);
        for (place, case) in text_cases(seed, number).iter().enumerate() {
            choice.take_small(&format!("{number}-{place}"), case);
        }
    }
    Ok(choice.rows)
}

struct Choice {
    rows: Vec<Row>,
    /// What the rows say: no row stands there twice.
    statements: HashSet<String>,
    /// How many more rows of generated cases each kind of answer asks for.
    wanted: BTreeMap<(Operation, Kind), usize>,
}

impl Choice {
    fn new(count: usize) -> Choice {
        let mut wanted = BTreeMap::new();
        for operation in Operation::ALL {
            for kind in operation.kinds() {
                wanted.insert((operation, kind), count);
            }
        }
        Choice {
            rows: Vec::new(),
            statements: HashSet::new(),
            wanted,
        }
    }

    fn lacks(&self) -> Option<(Operation, Kind)> {
        let mut wanted = self.wanted.iter();
        wanted.find(|(_, &more)| more > 0).map(|(&kind, _)| kind)
    }

    fn take_all(&mut self, rows: Vec<Row>) {
        for row in rows {
            self.take(row);
        }
    }

    fn take_small(&mut self, name: &str, case: &Case) {
        if is_small(case) {
            self.take_wanted(rows_of(name, case));
        }
    }

    fn take_wanted(&mut self, rows: Vec<Row>) {
        for row in rows {
            let kind = (row.operation, row.kind);
            let more = self.wanted.get(&kind).copied().unwrap_or(0);
            if more > 0 && self.take(row) {
                self.wanted.insert(kind, more - 1);
            }
        }
    }

    /// Whether the row is a new one.
    fn take(&mut self, row: Row) -> bool {
        let new = self.statements.insert(row.statement.clone());
        if new {
            self.rows.push(row);
        }
        new
    }
}

fn is_small(case: &Case) -> bool {
    case.dossier.len() <= LONGEST_DOSSIER
        && case.unit.len() <= LONGEST_UNIT
        && case.sheet.len() <= LONGEST_SHEET
        && case.text.len() <= LONGEST_TEXT
        && case.output_length <= LONGEST_OUTPUT
        && goes_through_few_words(case)
}

/// Whether the definitions of the answers go through few words.
fn goes_through_few_words(case: &Case) -> bool {
    let unit = read_unit(&case.unit).ok();
    let states = unit.as_ref().map_or(1, Unit::states);
    let few_to_find = unit.is_none_or(|unit| words(unit.inputs, states - 1) <= MOST_WORDS);
    let Ok(dossier) = read_dossier(&case.dossier) else {
        return few_to_find;
    };
    let golden = &dossier.golden;
    let middles = words(golden.inputs, dossier.longest_middle());
    let needed = dossier.cover.len() * middles * dossier.separating.len();
    let to_tell = words(golden.inputs, golden.states() + states - 1);
    few_to_find && needed <= MOST_WORDS && to_tell <= MOST_WORDS
}

/// How many words of at most so many inputs there are, or that there are too many.
fn words(inputs: u8, longest: u8) -> usize {
    middles(inputs, longest).take(MOST_WORDS + 1).count()
}
