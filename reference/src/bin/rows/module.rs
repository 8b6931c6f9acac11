//! The module of the rows, as the prover reads it.

use crate::row::Row;

/// The rows that one table gathers. The prover takes so many steps for a table and no more.
const ROWS_OF_A_TABLE: usize = 100;

/// What the rows are written with.
const HEAD: &str = "\
-- What the definitions answer on small files, as the second program has it.
use Rattle.std.specs.Prelude.{ℕ, ◌≡◌, refl}
use mathlib.Core.List.{List, [], ◌∷◌, flat_map}
use Rattle.rules.specs.Words.{words_of, shortlex}
use Rattle.rules.specs.Files.{count_bytes, output_bytes, entry_bytes, table_bytes, word_bytes, words_bytes, front_bytes, dossier_bytes, unit_bytes}
use Rattle.rules.specs.Reading.{byte, judged, count, many, word, words, output, entry, table, sheet_record, ending, dossier, unit_table, sheet}
use Rattle.rules.specs.Needed.{middles, needed, unreached, pairs, unseparated, missing, maximal_of, built_tests}
use Rattle.rules.specs.Answers.{Said, check_says, build_says, run_says, compare_says, judge_says, cost_says, find_says, import_says}
use Rattle.rules.specs.Operations.{Part, read_file, sound, enough, check, check_answer, build, build_answer, build_output, run, run_answer, telling, compare, compare_answer, compare_output, repeated, foreign, absent, pair, judge, judge_answer, test_part, judged_part, cost_answer}
use Rattle.rules.specs.Find.{access_word, telling_word, unreachable, untold, found_cover, found_separating, find, find_answer, find_output}
use Rattle.rules.specs.Kiss2.{lines_of, fields_of, line_says, opened, output_value, read_lines, is_whole, state_names, silent, unit_said, read_kiss2, read_kiss2_answer, read_kiss2_output}
use Rattle.rules.specs.Line.{decimal, run_line}

abbrev says : ℕ → ℕ → List ℕ → Said
says number file values = record { number = number; file = file; values = values }

abbrev part_at : ℕ → ℕ → Part
part_at place size = record { place = place; size = size }

abbrev Checks : List ℕ → Said → Type 0
Checks bytes r = check_says (check_answer bytes) ≡ r

-- `left` is what the output holds afterwards
abbrev Builds : List ℕ → List ℕ → Said → List ℕ → Type 0
Builds bytes out r left = (build_says (build_answer bytes out) ≡ r) × (build_output bytes out ≡ left)

abbrev Runs : List ℕ → List ℕ → Said → List ℕ → Type 0
Runs bytes other r line = (run_says (run_answer bytes other) ≡ r) × (run_line bytes other ≡ line)

abbrev Compares : List ℕ → List ℕ → List ℕ → Said → List ℕ → Type 0
Compares bytes other out r left = (compare_says (compare_answer bytes other out) ≡ r) × (compare_output bytes other out ≡ left)

abbrev Judges : List ℕ → List ℕ → Said → Part → Type 0
Judges bytes other r part = (judge_says (judge_answer bytes other) ≡ r) × (judged_part bytes other ≡ part)

abbrev Costs : List ℕ → Said → Type 0
Costs bytes r = cost_says (cost_answer bytes) ≡ r

abbrev Finds : List ℕ → ℕ → List ℕ → Said → List ℕ → Type 0
Finds bytes bound out r left = (find_says (find_answer bytes bound out) ≡ r) × (find_output bytes bound out ≡ left)

abbrev Imports : List ℕ → List ℕ → Said → List ℕ → Type 0
Imports text out r left = (import_says (read_kiss2_answer text out) ≡ r) × (read_kiss2_output text out ≡ left)
";

/// The definitions that the prover computes with, as in the rules' own table of worked pieces.
const UNFOLDING: &str = "unfolding flat_map words_of shortlex count_bytes output_bytes entry_bytes table_bytes word_bytes words_bytes front_bytes dossier_bytes unit_bytes byte judged count many word words output entry table sheet_record ending dossier unit_table sheet middles needed unreached pairs unseparated missing maximal_of built_tests read_file sound enough check build run telling compare access_word telling_word unreachable untold found_cover found_separating find lines_of fields_of line_says opened output_value read_lines is_whole state_names silent unit_said read_kiss2 repeated foreign absent pair judge test_part decimal run_line";

/// The rows in tables, each with its proof.
pub fn module(rows: &[Row]) -> String {
    let tables = rows.chunks(ROWS_OF_A_TABLE).enumerate();
    let tables: String = tables.map(|(number, rows)| table(number, rows)).collect();
    HEAD.to_string() + &tables
}

fn table(number: usize, rows: &[Row]) -> String {
    let statements: String = rows
        .iter()
        .map(|row| format!("  pub {} : {}\n", row.name, row.statement))
        .collect();
    let proofs: String = rows
        .iter()
        .map(|row| format!("      {} = {};\n", row.name, row.proof))
        .collect();
    format!(
        "\npub record Table-{number} : Type 0 where\n{statements}\
         \npub table-{number} : Table-{number}\n{UNFOLDING}\n\
         table-{number} =\n    record {{\n{proofs}    }}\n"
    )
}
