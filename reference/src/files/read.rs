//! Reading, front to back. Each count is judged when both its bytes are there, each other byte
//! as it is read, so the first fault met is the one that is given.

use super::{Dossier, Record, Sheet, Unit};
use crate::machine::{Input, Machine, Output, State, Step, Word};
use crate::refusal::{File, Place, Refusal};
use crate::sizes::{
    is_bound, LONGEST_COVER_WORD, LONGEST_TEST, MOST_DOSSIER_BYTES, MOST_INPUTS, MOST_SHEET_BYTES,
    MOST_STATES,
};

/// A dossier from its bytes, or refusal 1 to 6.
pub fn read_dossier(bytes: &[u8]) -> Result<Dossier, Refusal> {
    let mut reader = Reader::open(File::Dossier, bytes, MOST_DOSSIER_BYTES)?;
    reader.fixed_count(3, Refusal::BadNumbers)?;
    let inputs = reader.number(MOST_INPUTS)?;
    let states = reader.number(MOST_STATES)?;
    let bound_byte = reader.bound(states)?;
    let dossier = Dossier {
        golden: reader.table(inputs, states)?,
        bound_byte,
        cover: reader.words(LONGEST_COVER_WORD, inputs)?,
        separating: reader.words(LONGEST_COVER_WORD, inputs)?,
        tests: reader.words(LONGEST_TEST, inputs)?,
    };
    reader.end()?;
    Ok(dossier)
}

/// A unit from its bytes, or refusal 1 to 4 or 6.
pub fn read_unit(bytes: &[u8]) -> Result<Unit, Refusal> {
    let mut reader = Reader::open(File::Unit, bytes, MOST_DOSSIER_BYTES)?;
    reader.fixed_count(2, Refusal::BadNumbers)?;
    let inputs = reader.number(MOST_INPUTS)?;
    let states = reader.number(MOST_STATES)?;
    let unit = reader.table(inputs, states)?;
    reader.end()?;
    Ok(unit)
}

/// A sheet from its bytes, or refusal 1, 2, 5 or 6. Its k is the dossier's.
pub fn read_sheet(bytes: &[u8], inputs: u8) -> Result<Sheet, Refusal> {
    let mut reader = Reader::open(File::Sheet, bytes, MOST_SHEET_BYTES)?;
    let count = reader.count()?;
    let records = (0..count)
        .map(|_| reader.record(inputs))
        .collect::<Result<_, _>>()?;
    reader.end()?;
    Ok(Sheet { records })
}

/// A file and how far it has been read.
struct Reader<'a> {
    file: File,
    bytes: &'a [u8],
    read: usize,
}

impl<'a> Reader<'a> {
    /// TOO LONG comes before any byte of the file is read.
    fn open(file: File, bytes: &'a [u8], most: usize) -> Result<Reader<'a>, Refusal> {
        let reader = Reader {
            file,
            bytes,
            read: 0,
        };
        if bytes.len() > most {
            return Err(Refusal::TooLong(reader.place()));
        }
        Ok(reader)
    }

    /// The place of the next byte. Where that byte is not there, this is the file's length.
    fn place(&self) -> Place {
        Place {
            file: self.file,
            byte: self.read,
        }
    }

    fn byte(&mut self) -> Result<u8, Refusal> {
        let next = self.bytes.get(self.read);
        let byte = *next.ok_or(Refusal::CutShort(self.place()))?;
        self.read += 1;
        Ok(byte)
    }

    /// A byte that is judged as it is read.
    fn judged_byte(
        &mut self,
        fault: fn(Place) -> Refusal,
        good: impl Fn(u8) -> bool,
    ) -> Result<u8, Refusal> {
        let place = self.place();
        let byte = self.byte()?;
        if good(byte) {
            Ok(byte)
        } else {
            Err(fault(place))
        }
    }

    /// A count: two bytes, low byte first.
    fn count(&mut self) -> Result<usize, Refusal> {
        let low = self.byte()?;
        let high = self.byte()?;
        Ok(usize::from(u16::from_le_bytes([low, high])))
    }

    /// A count that can have one value only; its fault is placed at its first byte.
    fn fixed_count(&mut self, right: usize, fault: fn(Place) -> Refusal) -> Result<(), Refusal> {
        let place = self.place();
        if self.count()? == right {
            Ok(())
        } else {
            Err(fault(place))
        }
    }

    /// One of the numbers k, n and u.
    fn number(&mut self, most: u8) -> Result<u8, Refusal> {
        self.judged_byte(Refusal::BadNumbers, |byte| (1..=most).contains(&byte))
    }

    /// The byte for m.
    fn bound(&mut self, states: u8) -> Result<u8, Refusal> {
        self.judged_byte(Refusal::BadNumbers, |byte| is_bound(byte, states))
    }

    /// A table: its count, then the entries by state and by input.
    fn table<S: State>(&mut self, inputs: u8, states: u8) -> Result<Machine<S>, Refusal> {
        let entries = usize::from(states) * usize::from(inputs);
        self.fixed_count(entries, Refusal::BadTable)?;
        let steps = (0..entries)
            .map(|_| self.step(states))
            .collect::<Result<_, _>>()?;
        Ok(Machine { inputs, steps })
    }

    fn step<S: State>(&mut self, states: u8) -> Result<Step<S>, Refusal> {
        let next = self.judged_byte(Refusal::BadTable, |byte| byte < states)?;
        let output = self.byte()?;
        Ok(Step {
            next: S::numbered(next),
            output: Output(output),
        })
    }

    /// A section of words. Its count may be anything: words are read as long as it says.
    fn words(&mut self, longest: u8, inputs: u8) -> Result<Vec<Word>, Refusal> {
        let count = self.count()?;
        (0..count).map(|_| self.word(longest, inputs)).collect()
    }

    /// A word: its length, then its inputs.
    fn word(&mut self, longest: u8, inputs: u8) -> Result<Word, Refusal> {
        let length = self.judged_byte(Refusal::BadWord, |byte| byte <= longest)?;
        (0..length)
            .map(|_| self.judged_byte(Refusal::BadWord, |byte| byte < inputs))
            .map(|byte| byte.map(Input))
            .collect()
    }

    /// A record: a word, then as many outputs as it has inputs.
    fn record(&mut self, inputs: u8) -> Result<Record, Refusal> {
        let word = self.word(LONGEST_TEST, inputs)?;
        let answer = word
            .iter()
            .map(|_| self.byte().map(Output))
            .collect::<Result<_, _>>()?;
        Ok(Record { word, answer })
    }

    /// After the last section nothing may follow.
    fn end(&self) -> Result<(), Refusal> {
        if self.read == self.bytes.len() {
            Ok(())
        } else {
            Err(Refusal::Trailing(self.place()))
        }
    }
}
