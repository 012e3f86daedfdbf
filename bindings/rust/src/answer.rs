//! What a call answers, in numbers and by name.
use std::{error::Error, fmt};

/// What a call answered: code 0 where it is done, else the number of its refusal, the rest 0.
#[derive(Clone, Copy, Debug, PartialEq, Eq)]
pub struct Answer {
    pub code: u8,
    pub reference: u32,
    pub kind: u16,
    pub count: u16,
}

/// A call that was done: the record's code and type, and the count (records deleted; the place in the ring for `key` and `find`).
#[derive(Clone, Copy, Debug, PartialEq, Eq)]
pub struct Done {
    pub reference: u32,
    pub kind: u16,
    pub count: u16,
}

impl Answer {
    /// The same answer for `?` and `match`.
    ///
    /// # Panics
    /// Where the code is above 12, which no call answers.
    pub fn done(self) -> Result<Done, Refusal> {
        match self.code {
            0 => Ok(Done { reference: self.reference, kind: self.kind, count: self.count }),
            code => Err(Refusal::numbered(code).expect("a refusal has a number from 1 to 12")),
        }
    }
}

/// Why a call was refused; it has changed nothing then. They are tried in this order, and named as in `crates/ledger/src/lib.rt`.
#[derive(Clone, Copy, Debug, PartialEq, Eq)]
pub enum Refusal {
    BadTable = 1,
    BadSize,
    Damaged,
    BadCurrency,
    Unknown,
    NoCurrent,
    WrongKind,
    BadLength,
    NoRecord,
    Duplicate,
    NoRoom,
    ShortOutput,
}

use Refusal::*;

const ALL: [(Refusal, &str); 12] = [
    (BadTable, "the definition table breaks a rule"),
    (BadSize, "the file is not 512 bytes for each page of the table"),
    (Damaged, "the file is not sound"),
    (BadCurrency, "the currency breaks its rule"),
    (Unknown, "no such call, type or chain"),
    (NoCurrent, "no current record to start from"),
    (WrongKind, "this type or chain does not take this call"),
    (BadLength, "data or key of another length than defined"),
    (NoRecord, "no such record"),
    (Duplicate, "a forbidden duplicate would stand"),
    (NoRoom, "no page in the type's range has the room and a free line"),
    (ShortOutput, "the output is shorter than the record's data"),
];

impl Refusal {
    /// Document 01's number, 1 to 12.
    pub fn number(self) -> u8 {
        self as u8
    }

    /// The refusal with this number.
    pub fn numbered(number: u8) -> Option<Refusal> {
        ALL.iter().map(|(refusal, _)| *refusal).find(|refusal| refusal.number() == number)
    }

    /// What it means in plain words.
    pub fn words(self) -> &'static str {
        ALL[self as usize - 1].1
    }
}

impl fmt::Display for Refusal {
    fn fmt(&self, out: &mut fmt::Formatter) -> fmt::Result {
        write!(out, "refused {}: {}", self.number(), self.words())
    }
}

impl Error for Refusal {}
