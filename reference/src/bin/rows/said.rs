//! An answer as the rules have it: a number, the file that it concerns, and values.

use reference::build::Built;
use reference::check::Accepted;
use reference::compare::CompareAnswer;
use reference::cost::Cost;
use reference::find::Found;
use reference::judge::JudgeAnswer;
use reference::kiss2::Imported;
use reference::machine::Input;
use reference::refusal::{File, Refusal};
use reference::run::RunAnswer;

/// The number of a verdict.
const GOOD: u8 = 0;

/// The number of a verdict where something differs.
const DIFFERING: u8 = 31;

/// The inputs that the rules list of a middle, whatever its length.
const MIDDLE_INPUTS: usize = 5;

/// Which answer it is. A verdict concerns file 0, which is none.
#[derive(Clone, Copy, Debug, PartialEq, Eq, PartialOrd, Ord)]
pub struct Kind {
    pub number: u8,
    pub file: u8,
}

/// What an answer says.
pub struct Said {
    pub kind: Kind,
    pub values: Vec<usize>,
}

/// What an operation's answer says, a refusal or not.
pub fn said(answer: Result<impl Into<Said>, Refusal>) -> Said {
    answer.map_or_else(Said::from, Into::into)
}

fn verdict(number: u8, values: &[usize]) -> Said {
    Said {
        kind: Kind { number, file: 0 },
        values: values.to_vec(),
    }
}

impl From<Accepted> for Said {
    fn from(_: Accepted) -> Said {
        verdict(GOOD, &[])
    }
}

impl From<Built> for Said {
    fn from(built: Built) -> Said {
        verdict(GOOD, &[built.length])
    }
}

impl From<RunAnswer> for Said {
    fn from(answer: RunAnswer) -> Said {
        match answer {
            RunAnswer::Passes { tests } => verdict(GOOD, &[tests]),
            RunAnswer::Fails { test, step } => verdict(DIFFERING, &[test, step]),
        }
    }
}

impl From<CompareAnswer> for Said {
    fn from(answer: CompareAnswer) -> Said {
        match answer {
            CompareAnswer::Equal => verdict(GOOD, &[]),
            CompareAnswer::Differs { length } => verdict(DIFFERING, &[length]),
        }
    }
}

impl From<JudgeAnswer> for Said {
    fn from(answer: JudgeAnswer) -> Said {
        match answer {
            JudgeAnswer::Agrees => verdict(GOOD, &[]),
            JudgeAnswer::Deviates { test, step, .. } => verdict(DIFFERING, &[test, step]),
        }
    }
}

impl From<Cost> for Said {
    fn from(cost: Cost) -> Said {
        verdict(GOOD, &[cost.tests, cost.inputs])
    }
}

impl From<Found> for Said {
    fn from(found: Found) -> Said {
        verdict(GOOD, &[found.length])
    }
}

impl From<Imported> for Said {
    fn from(imported: Imported) -> Said {
        verdict(GOOD, &[imported.length])
    }
}

impl From<Refusal> for Said {
    fn from(refusal: Refusal) -> Said {
        let kind = Kind {
            number: refusal.number(),
            file: file_number(refusal.file()),
        };
        let values = values(&refusal);
        Said { kind, values }
    }
}

fn file_number(file: File) -> u8 {
    match file {
        File::Dossier => 1,
        File::Unit => 2,
        File::Sheet => 3,
        File::Output => 4,
        File::Text => 5,
        File::Number => 6,
    }
}

/// What is returned along with a refusal.
fn values(refusal: &Refusal) -> Vec<usize> {
    match refusal {
        Refusal::Unreached { state, .. } => vec![usize::from(state.0)],
        Refusal::NotSeparated { first, second } | Refusal::NotReduced { first, second } => {
            vec![usize::from(first.0), usize::from(second.0)]
        }
        Refusal::Missing {
            cover,
            middle,
            separator,
        } => missing_values(*cover, middle, *separator),
        Refusal::Repeated { record } | Refusal::Foreign { record } => vec![*record],
        Refusal::Absent { test } => vec![*test],
        Refusal::NoRoom { needed } => vec![*needed],
        Refusal::BadLine { line } | Refusal::Contradiction { line } => vec![*line],
        Refusal::Incomplete { state, input } => {
            vec![usize::from(state.0), usize::from(input.0)]
        }
        other => other.place().map(|place| place.byte).into_iter().collect(),
    }
}

/// MISSING: of the middle its length and five inputs, those beyond its length 0.
fn missing_values(cover: usize, middle: &[Input], separator: usize) -> Vec<usize> {
    let mut values = vec![cover, middle.len()];
    values.extend(middle.iter().map(|input| usize::from(input.0)));
    values.resize(2 + MIDDLE_INPUTS, 0);
    values.push(separator);
    values
}
