//! Dossiers, tables and texts on which an operation has much to do.

use super::dossiers::{found, with_built_tests};
use super::machines;
use super::sheets;
use super::text_limits;
use super::timed::Timed;
use super::Dice;
use crate::files::{size_of_words, write_dossier, write_sheet, Dossier};
use crate::machine::{GoldenState, Input, Machine, Output, Step, Word};
use crate::needed::middles;
use crate::sizes::{
    LONGEST_COVER_WORD, LONGEST_TEST, MOST_DOSSIER_BYTES, MOST_INPUTS, MOST_STATES,
};

/// All of them.
pub fn worst() -> Vec<Timed> {
    let others = [
        timed("cover words and separators of one input", &overlapping()),
        timed("cover words of seven inputs, 63 middles", &deep_middles()),
        timed("sixteen inputs, 4,369 middles", &wide_middles()),
        timed("sixteen children at every step", &long_chains()),
        timed("tests that share nothing", &large_trie()),
        full_sheet(),
    ];
    let all = [repeats(), latecomers(), others.to_vec(), too_large()];
    [all.concat(), hard_tables(), hard_texts()].concat()
}

fn timed(name: &str, dossier: &Dossier) -> Timed {
    Timed::new(name.to_string(), dossier)
}

/// A sheet of 131,070 bytes, which has a record that is no test behind those of all tests.
fn full_sheet() -> Timed {
    let dossier = large_trie();
    let sheet = sheets::full(&mut Dice::new(1, 1), &dossier);
    Timed {
        sheet: write_sheet(&sheet),
        ..timed("a full sheet", &dossier)
    }
}

/// The longest texts, beside the smallest dossier.
fn hard_texts() -> Vec<Timed> {
    let texts = text_limits::longest().into_iter();
    let timed = texts.map(|(what, text)| Timed {
        text,
        ..timed(
            &format!("hard text, {what}"),
            &with_built_tests(one_state(2)),
        )
    });
    timed.collect()
}

/// Dossiers whose built tests would be far over the size.
fn too_large() -> Vec<Timed> {
    vec![
        timed("over the size, 1,118,481 middles", &most_middles()),
        timed("over the size, long separators", &most_separators()),
        timed("over the size, few nodes", &long_tests()),
        timed("over the size, much put in twice", &much_in_common()),
    ]
}

/// One state, sixteen inputs, and the highest bound.
fn most_middles() -> Dossier {
    let mut dossier = one_state(16);
    dossier.bound_byte = 5;
    dossier
}

/// All words of at most seven inputs in the cover, and separators that share nothing.
fn most_separators() -> Dossier {
    let mut dossier = one_state(2);
    let mut dice = Dice::new(1, 1);
    let longest = usize::from(LONGEST_COVER_WORD);
    dossier.cover = middles(2, 7).collect();
    dossier.separating = (0..600).map(|_| dice.word(2, longest)).collect();
    dossier
}

/// Thousands of middles behind a long cover word: their words share most of their inputs, which
/// the tests would hold again and again.
fn long_tests() -> Dossier {
    let mut dossier = one_state(16);
    dossier.bound_byte = 3;
    dossier.cover.push(zeros(usize::from(LONGEST_COVER_WORD)));
    dossier
}

/// Every separator of one input behind cover words that mostly end in that input: of what is
/// needed behind one, most was already needed behind another.
fn much_in_common() -> Dossier {
    let mut dossier = one_state(2);
    dossier.separating = (0..=usize::from(LONGEST_COVER_WORD)).map(zeros).collect();
    for front in middles(2, 6) {
        let words = (0..=20).map(|length| [front.clone(), zeros(length)].concat());
        dossier.cover.extend(words);
    }
    dossier
}

/// One word again and again, in the cover and among the separators.
fn repeats() -> Vec<Timed> {
    let repeat = |(length, count)| {
        let words = vec![zeros(length); count];
        let mut covered = one_state(1);
        covered.cover.extend(words.clone());
        let mut separated = one_state(1);
        separated.separating.extend(words);
        let name = format!("{count} times one word of {length} inputs");
        [
            timed(&format!("{name} in the cover"), &with_built_tests(covered)),
            timed(&format!("{name} to separate"), &with_built_tests(separated)),
        ]
    };
    let repeats = [(0, 65_000), (1, 30_000), (97, 650)].into_iter();
    repeats.flat_map(repeat).collect()
}

/// 64 states that are told apart by the last separators only.
fn latecomers() -> Vec<Timed> {
    let latecomer = |length: &usize| {
        let name = format!("64 states told apart last, behind words of {length} inputs");
        timed(&name, &late(*length))
    };
    [0, 1, 97].iter().map(latecomer).collect()
}

/// One state, the empty word in the cover and among the separators, and no tests.
fn one_state(inputs: u8) -> Dossier {
    Dossier {
        golden: machines::ring(inputs, 1),
        bound_byte: 1,
        cover: vec![Word::new()],
        separating: vec![Word::new()],
        tests: vec![],
    }
}

/// The input 0 as often as this.
fn zeros(length: usize) -> Word {
    vec![Input(0); length]
}

/// The last input counts down from a state, and tells it at 0. The others tell nothing: `next` says
/// where they lead.
fn countdown(inputs: u8, mut next: impl FnMut(u8) -> u8) -> Machine<GoldenState> {
    let mut steps = Vec::new();
    for state in 0..MOST_STATES {
        steps.extend((1..inputs).map(|_| Step {
            next: GoldenState(next(state)),
            output: Output(0),
        }));
        steps.push(Step {
            next: GoldenState(state.checked_sub(1).unwrap_or(MOST_STATES - 1)),
            output: Output(u8::from(state == 0)),
        });
    }
    Machine { inputs, steps }
}

/// Tables of 64 states and 16 inputs whose telling words have all lengths up to 63: those of one
/// length tell one state from all higher ones, and begin with the input that is tried last. Where
/// the other inputs stay in a state, access words are as long.
fn hard_tables() -> Vec<Timed> {
    let mut dice = Dice::new(1, 1);
    let stay = countdown(MOST_INPUTS, |state| state);
    let rise = countdown(MOST_INPUTS, |state| {
        dice.between(usize::from(state), usize::from(MOST_STATES - 1)) as u8
    });
    vec![
        timed("hard table, other inputs stay", &found(stay, 0)),
        timed("hard table, other inputs rise", &found(rise, 0)),
    ]
}

/// 64 states. As many separators that tell nothing as there is room for, and behind them one for
/// each state, which tells it from the higher ones by its last input.
fn late(length: usize) -> Dossier {
    let telling = (1..MOST_STATES).map(|ones| {
        let front = zeros(usize::from(LONGEST_COVER_WORD - ones));
        [front, vec![Input(1); usize::from(ones)]].concat()
    });
    let telling: Vec<Word> = telling.collect();
    let mut dossier = Dossier {
        golden: countdown(2, |state| state),
        bound_byte: MOST_STATES,
        cover: (0..MOST_STATES)
            .map(|ones| vec![Input(1); usize::from(ones)])
            .collect(),
        separating: telling.clone(),
        tests: vec![zeros(1)],
    };
    let room = MOST_DOSSIER_BYTES - write_dossier(&dossier).len();
    let silent = vec![zeros(length); room / (1 + length)];
    dossier.separating = [silent, telling].concat();
    dossier
}

/// Every separator of one input, behind cover words of that input with another before or after.
fn overlapping() -> Dossier {
    let longest = usize::from(LONGEST_COVER_WORD);
    let mut dossier = one_state(2);
    dossier.separating = (0..=longest).map(zeros).collect();
    for front in [vec![], vec![Input(1)], vec![Input(0), Input(1)]] {
        let behind = longest - front.len();
        let words = (0..=behind).map(|length| [front.clone(), zeros(length)].concat());
        dossier.cover.extend(words);
    }
    with_as_much_cover_as_fits(dossier)
}

/// Drops cover words from the end until the built tests fit.
fn with_as_much_cover_as_fits(mut dossier: Dossier) -> Dossier {
    loop {
        let built = with_built_tests(dossier.clone());
        if !built.tests.is_empty() {
            return built;
        }
        let kept = dossier.cover.len() * 15 / 16;
        dossier.cover.truncate(kept);
    }
}

/// All words of at most seven inputs in the cover, and four states more than one.
fn deep_middles() -> Dossier {
    let mut dossier = one_state(2);
    dossier.bound_byte = 5;
    dossier.cover = middles(2, 7).collect();
    with_built_tests(dossier)
}

/// Middles of up to three of sixteen inputs, behind as many cover words as there is room for.
fn wide_middles() -> Dossier {
    let mut dossier = one_state(16);
    dossier.bound_byte = 3;
    dossier.cover = middles(16, 1).take(4).collect();
    with_as_much_cover_as_fits(dossier)
}

/// Cover words that follow each other, each with sixteen inputs behind it: the one that goes on
/// is found last.
fn long_chains() -> Dossier {
    let mut dossier = one_state(16);
    let longest = usize::from(LONGEST_COVER_WORD);
    dossier.cover = (0..=longest).map(zeros).collect();
    dossier.separating = (0..10).map(zeros).collect();
    with_as_much_cover_as_fits(dossier)
}

/// Tests of 200 inputs, thrown with dice, until the file is full.
fn large_trie() -> Dossier {
    let mut dossier = with_built_tests(one_state(16));
    let mut dice = Dice::new(1, 1);
    let others = write_dossier(&dossier).len() - size_of_words(&dossier.tests);
    while others + size_of_words(&dossier.tests) + usize::from(LONGEST_TEST) < MOST_DOSSIER_BYTES {
        dossier.tests.push(dice.word(16, usize::from(LONGEST_TEST)));
    }
    dossier
}
