//! The driver at the other end of two pipes.
//!
//! A request is the operation, a number, the lengths of two files and the length of the output, four
//! bytes each, and then the two files. An answer is the packed answer and what the call harmed, eight
//! bytes each, and then the output.

use crate::cases::Tried;
use crate::operations::{Lent, Operation, OPERATIONS};
use std::collections::BTreeMap;
use std::fmt::Write as _;
use std::io::{self, BufReader, Read, Write};
use std::process::{Child, ChildStdin, Command, Stdio};
use std::sync::mpsc::{sync_channel, SyncSender};
use std::thread;

/// The bits of a packed answer that hold its code, and those above them that hold its file.
const CODE: u64 = 31;
const FILE: u64 = 7;

/// How many cases are asked at once, and how many such lots may wait for their answers.
const LOT: usize = 64;
const WAITING: usize = 4;

/// What a call came to.
#[derive(PartialEq, Eq)]
struct Outcome {
    packed: u64,
    /// 0, or the number of what was lent and is no longer as it was.
    harmed: u64,
    output: Vec<u8>,
}

/// How often an operation gave an answer that concerns a file and has a code.
pub type Tally = BTreeMap<(&'static str, u64, u64), usize>;

/// Tries each operation on each case. How often each answer was given alike, or what the first
/// difference was.
pub fn hold_against(
    driver: &mut Command,
    tried: impl Iterator<Item = Tried> + Send + 'static,
) -> Result<Tally, String> {
    let driver = driver.stdin(Stdio::piped()).stdout(Stdio::piped());
    let mut child = driver
        .spawn()
        .map_err(|fault| format!("the driver cannot be started: {fault}"))?;
    let told = hold_child(&mut child, tried);
    if told.is_err() {
        // It may still be writing answers that nobody reads.
        let _ = child.kill();
    }
    let status = child.wait().map_err(|fault| fault.to_string())?;
    match told {
        Ok(_) if !status.success() => Err(format!("the driver ended with {status}")),
        told => told,
    }
}

fn hold_child(
    child: &mut Child,
    tried: impl Iterator<Item = Tried> + Send + 'static,
) -> Result<Tally, String> {
    let requests = child.stdin.take().expect("a pipe to the driver");
    let mut answers = BufReader::new(child.stdout.take().expect("a pipe from the driver"));
    let (sender, lots) = sync_channel(WAITING);
    // Another thread asks, so that the driver never waits for both ends of its pipes. It ends by
    // itself when nobody reads.
    thread::spawn(move || ask(requests, tried, sender));
    let mut tally = Tally::new();
    for tried in lots.into_iter().flatten() {
        for operation in &OPERATIONS {
            let packed = hold_answer(operation, &tried, &mut answers)?;
            let (code, file) = (packed & CODE, packed >> CODE.count_ones() & FILE);
            *tally.entry((operation.name, file, code)).or_default() += 1;
        }
    }
    Ok(tally)
}

/// Asks everything, a lot at a time. A lot is handed on first: its answers are then read while it
/// is still being asked.
fn ask(
    mut requests: ChildStdin,
    mut tried: impl Iterator<Item = Tried>,
    sender: SyncSender<Vec<Tried>>,
) {
    loop {
        let lot: Vec<Tried> = tried.by_ref().take(LOT).collect();
        let mut bytes = Vec::new();
        lot.iter().for_each(|tried| put_requests(&mut bytes, tried));
        if lot.is_empty() || sender.send(lot).is_err() {
            return;
        }
        if requests.write_all(&bytes).is_err() {
            return;
        }
    }
}

fn put_requests(bytes: &mut Vec<u8>, tried: &Tried) {
    for (number, operation) in OPERATIONS.iter().enumerate() {
        let lent = (operation.lent)(&tried.case);
        let passed = usize::from(lent.number);
        let lengths = [lent.first.len(), lent.second.len(), lent.output_length];
        for number in [number, passed].into_iter().chain(lengths) {
            bytes.extend((number as u32).to_le_bytes());
        }
        bytes.extend(lent.first);
        bytes.extend(lent.second);
    }
}

/// Reads one answer, which is to be this program's.
fn hold_answer(
    operation: &Operation,
    tried: &Tried,
    answers: &mut impl Read,
) -> Result<u64, String> {
    let lent = (operation.lent)(&tried.case);
    let mut output: Vec<u8> = (0..lent.output_length).map(unwritten).collect();
    let packed = (operation.answer)(&lent, &mut output);
    let right = Outcome {
        packed,
        harmed: 0,
        output,
    };
    let found = match read_outcome(answers, lent.output_length) {
        Ok(outcome) if outcome == right => return Ok(packed),
        Ok(outcome) => shown(&outcome),
        Err(fault) => format!("nothing ({fault})"),
    };
    Err(format!(
        "{} of {}: the library answers {found}, the second program {}\n{}",
        operation.name,
        tried.origin,
        shown(&right),
        files(&lent)
    ))
}

/// What an output holds at a place before the call. Every byte is over 127, as no length and no
/// input is, and differs from those beside it.
fn unwritten(place: usize) -> u8 {
    128 | place as u8
}

fn read_outcome(answers: &mut impl Read, output_length: usize) -> io::Result<Outcome> {
    let mut number = || {
        let mut bytes = [0; 8];
        answers.read_exact(&mut bytes)?;
        Ok::<u64, io::Error>(u64::from_le_bytes(bytes))
    };
    let (packed, harmed) = (number()?, number()?);
    let mut output = vec![0; output_length];
    answers.read_exact(&mut output)?;
    Ok(Outcome {
        packed,
        harmed,
        output,
    })
}

fn shown(outcome: &Outcome) -> String {
    let harmed = match outcome.harmed {
        0 => "",
        1 => " and harms the first file",
        2 => " and harms the second file",
        _ => " and writes beside the output",
    };
    let output = hex(&outcome.output);
    format!("{:#018x}{harmed}, output [{output}]", outcome.packed)
}

fn files(lent: &Lent) -> String {
    let (first, second, number) = (hex(lent.first), hex(lent.second), lent.number);
    format!("first file: [{first}]\nsecond file: [{second}]\nnumber: {number}")
}

fn hex(bytes: &[u8]) -> String {
    bytes.iter().fold(String::new(), |mut text, byte| {
        let _ = write!(text, "{byte:02x}");
        text
    })
}
