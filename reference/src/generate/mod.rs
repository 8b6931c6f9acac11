//! Generated cases: the same seed always gives the same files.
//!
//! The files are made to sit where a wrong program goes wrong: accepted dossiers with units that
//! are nearly the golden, dossiers that lack one word, files at their limits, damaged files.

mod damage;
mod dice;
mod dossiers;
mod edges;
mod limits;
mod machines;
mod sheets;
mod tables;
mod text_limits;
mod texts;
mod timed;
mod units;
mod worst;

pub use dice::Dice;
pub use edges::edges;
pub use sheets::wrong_at_the_end;
pub use text_limits::limits as text_limits;
pub use timed::{timed, Timed};
pub use worst::worst;

use crate::build::built_bytes;
use crate::compare::compared;
use crate::files::{write_dossier, write_sheet, write_unit, Dossier};
use crate::find::found_bytes;
use crate::kiss2::imported_bytes;
use crate::sizes::{MOST_DOSSIER_BYTES, MOST_SHEET_BYTES};

/// One file of each sort, the bound that find is passed with the unit, and the length of an output;
/// what each operation is to be tried on.
#[derive(Clone, Debug, Default, PartialEq, Eq)]
pub struct Case {
    pub dossier: Vec<u8>,
    pub unit: Vec<u8>,
    pub sheet: Vec<u8>,
    pub text: Vec<u8>,
    pub bound: u8,
    pub output_length: usize,
}

/// As many cases of a seed as asked for.
pub fn cases(seed: u64, count: u64) -> impl Iterator<Item = Case> {
    (0..count).map(move |number| case(seed, number))
}

/// One case of a seed, without those before it.
pub fn case(seed: u64, number: u64) -> Case {
    let mut dice = Dice::new(seed, number);
    let draft = dossiers::draft(&mut dice);
    case_of(&mut dice, draft)
}

/// One case of a seed whose dossier is not at a limit: in many of these all files are short.
pub fn plain_case(seed: u64, number: u64) -> Case {
    let mut dice = Dice::new(seed, number);
    let draft = dossiers::plain_draft(&mut dice);
    case_of(&mut dice, draft)
}

/// One case of a seed whose dossier is at a limit: many of these take long to make.
pub fn limit_case(seed: u64, number: u64) -> Case {
    let mut dice = Dice::new(seed, number);
    let draft = limits::draft(&mut dice);
    case_of(&mut dice, draft)
}

/// The same case with a damaged dossier.
pub fn with_damaged_dossier(dice: &mut Dice, case: &Case) -> Case {
    let mut spoilt = case.clone();
    spoilt.dossier = damage::damaged(dice, spoilt.dossier, MOST_DOSSIER_BYTES);
    spoilt
}

/// The same case with a dossier that begins as it did and goes on with bytes of any sort.
pub fn with_thrown_dossier(dice: &mut Dice, case: &Case) -> Case {
    let mut thrown = case.clone();
    thrown.dossier = damage::thrown(dice, thrown.dossier);
    thrown
}

/// The cases of one bare table of a seed: find with little room; what it finds, with room to build
/// it; and what is built of it.
pub fn table_cases(seed: u64, number: u64) -> Vec<Case> {
    let mut dice = Dice::new(seed, number);
    let (unit, bound) = tables::table(&mut dice, number);
    let case = |dossier, output_length| Case {
        dossier,
        unit: unit.clone(),
        bound,
        output_length,
        ..Case::default()
    };
    let Ok(found) = found_bytes(&unit, bound) else {
        return vec![case(Vec::new(), dice.below(40))];
    };
    let fitting = found.len();
    let shorter = dice.below(fitting);
    let tight = *dice.pick(&[fitting, fitting - 1, fitting - 1, fitting + 1, shorter]);
    let tight = case(Vec::new(), tight);
    let Ok(built) = built_bytes(&found) else {
        return vec![tight, case(found, MOST_DOSSIER_BYTES)];
    };
    vec![tight, case(found, built.len()), case(built, 0)]
}

/// The cases of one text of a seed: as it was written, and damaged by byte, by field and by line;
/// with an output that the unit just fits, or nearly.
pub fn text_cases(seed: u64, number: u64) -> [Case; 4] {
    let mut dice = Dice::new(seed, number);
    texts::texts(&mut dice).map(|text| {
        let fitting = imported_bytes(&text).map_or(20, |unit| unit.len());
        let shorter = dice.below(fitting);
        let lengths = [fitting, fitting, fitting + 9, fitting - 1, shorter];
        text_case(text, *dice.pick(&lengths))
    })
}

/// The case of a text alone.
pub fn text_case(text: Vec<u8>, output_length: usize) -> Case {
    Case {
        text,
        output_length,
        ..Case::default()
    }
}

fn case_of(dice: &mut Dice, draft: Dossier) -> Case {
    let drafted = units::unit_for(dice, &draft);
    let unit = write_unit(&drafted);
    let sheet = write_sheet(&sheets::sheet_for(dice, &draft));
    let dossier = write_dossier(&draft);
    let dossier = sometimes_damaged(dice, 6, dossier, MOST_DOSSIER_BYTES);
    let unit = sometimes_damaged(dice, 5, unit, MOST_DOSSIER_BYTES);
    let sheet = sometimes_damaged(dice, 5, sheet, MOST_SHEET_BYTES);
    let bound = tables::bound_of(dice, drafted.inputs, drafted.states());
    let output_length = output_length(dice, &dossier, &unit, bound);
    Case {
        dossier,
        unit,
        sheet,
        bound,
        output_length,
        ..Case::default()
    }
}

fn sometimes_damaged(dice: &mut Dice, one_in: usize, bytes: Vec<u8>, most: usize) -> Vec<u8> {
    if dice.one_in(one_in) {
        damage::damaged(dice, bytes, most)
    } else {
        bytes
    }
}

/// Output lengths that just fit the built dossier, the telling word or the found dossier, that are
/// one byte short of it, and others.
fn output_length(dice: &mut Dice, dossier: &[u8], unit: &[u8], bound: u8) -> usize {
    let built = built_bytes(dossier).map_or(0, |bytes| bytes.len());
    let found = found_bytes(unit, bound).map_or(0, |bytes| bytes.len());
    let telling = match compared(dossier, unit) {
        Ok(Some(word)) => word.len(),
        _ => 0,
    };
    let shorter_by_one = usize::from(dice.one_in(2));
    let any = dice.below(300);
    let full = MOST_DOSSIER_BYTES + dice.below(2);
    let fitting = *dice.pick(&[built, built, telling, telling, found, found, any, full]);
    fitting.saturating_sub(shorter_by_one)
}
