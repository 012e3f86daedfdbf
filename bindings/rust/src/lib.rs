//! The chain store on memory that the caller lends: a definition table, a file, and the currency beside it.
//!
//! Every call answers an [`Answer`]: done, or refused with document 01's number and nothing changed; [`Answer::done`] has it as a
//! `Result` with the refusal by name.

#![deny(unsafe_code)]

mod answer;

pub use answer::{Answer, Done, Refusal};

/// The run's current record, then one of each of 16 types and 16 chains.
pub type Currency = [u32; 33];

mod raw {
    extern "C" {
        pub fn gerunjap_call(
            table: *const u16, table_words: usize, file: *mut u8, file_bytes: usize, currency: *mut u32, currency_words: usize,
            frame: *const u8, frame_bytes: usize, output: *mut u8, output_bytes: usize, answer: *mut u8, answer_bytes: usize,
        ) -> u8;
    }
}

/// Plays a call's bytes; none where they are no well-made call, and then nothing was changed.
#[allow(unsafe_code)]
pub fn call(table: &[u16], file: &mut [u8], currency: &mut Currency, frame: &[u8], output: &mut [u8]) -> Option<Answer> {
    let mut told = [0u8; 8];
    // Each block is a whole slice, and the callee writes only within the lengths it is given.
    let status = unsafe {
        raw::gerunjap_call(
            table.as_ptr(), table.len(), file.as_mut_ptr(), file.len(), currency.as_mut_ptr(), currency.len(),
            frame.as_ptr(), frame.len(), output.as_mut_ptr(), output.len(), told.as_mut_ptr(), told.len(),
        )
    };
    (status == 0).then(|| Answer {
        code: told[0],
        reference: u32::from_be_bytes([0, told[1], told[2], told[3]]),
        kind: u16::from_be_bytes([told[4], told[5]]),
        count: u16::from_be_bytes([told[6], told[7]]),
    })
}

/// A store on lent memory, with the currency beside it.
pub struct Store<'a> {
    table: &'a [u16],
    file: &'a mut [u8],
    pub currency: Currency,
}

impl<'a> Store<'a> {
    pub fn new(table: &'a [u16], file: &'a mut [u8]) -> Self {
        Store { table, file, currency: [0; 33] }
    }

    /// The file's bytes.
    pub fn bytes(&self) -> &[u8] {
        self.file
    }

    fn play(&mut self, number: u8, parts: &[&[u8]], output: &mut [u8]) -> Answer {
        let mut frame = vec![number];
        parts.iter().for_each(|part| frame.extend_from_slice(part));
        call(self.table, self.file, &mut self.currency, &frame, output).expect("every frame made here is well made")
    }

    fn plain(&mut self, number: u8, parts: &[&[u8]]) -> Answer {
        self.play(number, parts, &mut [])
    }

    pub fn format(&mut self) -> Answer {
        self.plain(0, &[])
    }

    pub fn store(&mut self, kind: u16, data: &[u8]) -> Answer {
        self.plain(1, &[&kind.to_be_bytes(), data])
    }

    pub fn direct(&mut self, code: u32) -> Answer {
        self.plain(2, &[&code_bytes(code)])
    }

    pub fn key(&mut self, kind: u16, key: &[u8]) -> Answer {
        self.plain(3, &[&kind.to_be_bytes(), key])
    }

    pub fn next(&mut self, chain: u8) -> Answer {
        self.plain(4, &[&[chain]])
    }

    pub fn prior(&mut self, chain: u8) -> Answer {
        self.plain(5, &[&[chain]])
    }

    pub fn master(&mut self, chain: u8) -> Answer {
        self.plain(6, &[&[chain]])
    }

    pub fn each(&mut self, first: u32, last: u32) -> Answer {
        self.plain(7, &[&code_bytes(first), &code_bytes(last)])
    }

    pub fn modify(&mut self, data: &[u8]) -> Answer {
        self.plain(8, &[data])
    }

    pub fn delete(&mut self) -> Answer {
        self.plain(9, &[])
    }

    /// The run's record to the front of `output`.
    pub fn read(&mut self, output: &mut [u8]) -> Answer {
        self.play(10, &[], output)
    }

    pub fn current(&mut self, kind: u16) -> Answer {
        self.plain(11, &[&kind.to_be_bytes()])
    }

    pub fn find(&mut self, chain: u8, key: &[u8]) -> Answer {
        self.plain(12, &[&[chain], key])
    }

    pub fn relink(&mut self, chain: u8, master: u32) -> Answer {
        self.plain(13, &[&[chain], &code_bytes(master)])
    }
}

/// A code as a frame has it, in 3 bytes; no record has a code that takes more, and the largest stands for it.
fn code_bytes(code: u32) -> [u8; 3] {
    let [_, a, b, c] = code.min(0xFF_FFFF).to_be_bytes();
    [a, b, c]
}
