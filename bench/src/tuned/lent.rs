//! The memory through the loan.

use second::{Ending, Loan, LoanRange};

pub const WORDS: usize = 32_768;
const LAST_ADDRESS: u32 = 32_767;
const LAST_POINTER: u32 = 4_095;
const GREATEST_WORD: u32 = 4_095;

/// The display address that lies `count` words further on.
pub fn address_after(address: u32, count: u32) -> u32 {
    (address + count) & LAST_ADDRESS
}

/// The pushdown pointer that lies `count` words further on, or back where it wraps.
pub fn pointer_after(pointer: u32, count: u32) -> u32 {
    pointer.wrapping_add(count) & LAST_POINTER
}

/// A range is its low end and its length, so that one comparison tests both ends.
type Range = (u32, u32);

fn holds(range: Range, address: u32) -> bool {
    address.wrapping_sub(range.0) < range.1
}

pub struct Lent<'a> {
    words: &'a mut [u16; WORDS],
    file: Range,
    list: Range,
}

/// The same for fetches alone, so that it can be copied.
#[derive(Clone, Copy)]
pub struct Fetches<'a> {
    words: &'a [u16; WORDS],
    file: Range,
    list: Range,
}

impl Fetches<'_> {
    /// The loan first, then the width.
    #[inline(always)]
    pub fn fetch(&self, address: u32) -> Result<u32, Ending> {
        if !holds(self.file, address) && !holds(self.list, address) {
            return Err(Ending::FetchOutsideLoan(address as u16));
        }
        let word = u32::from(self.words[(address & LAST_ADDRESS) as usize]);
        if word > GREATEST_WORD {
            return Err(Ending::WordTooWide);
        }
        Ok(word)
    }
}

impl<'a> Lent<'a> {
    pub fn new(words: &'a mut [u16; WORDS], loan: Loan) -> Lent<'a> {
        let range = |range: LoanRange| (u32::from(range.low), u32::from(range.high - range.low));
        Lent {
            words,
            file: range(loan.file),
            list: range(loan.list),
        }
    }

    /// The same memory through the same loan.
    pub fn again(&mut self) -> Lent<'_> {
        Lent {
            words: self.words,
            ..*self
        }
    }

    pub fn fetches(&self) -> Fetches<'_> {
        Fetches {
            words: self.words,
            file: self.file,
            list: self.list,
        }
    }

    #[inline(always)]
    pub fn fetch(&self, address: u32) -> Result<u32, Ending> {
        self.fetches().fetch(address)
    }

    /// The first word of a command: a held one is not fetched again.
    #[inline(always)]
    pub fn first_word(&self, held: Option<u32>, address: u32) -> Result<u32, Ending> {
        match held {
            Some(word) => Ok(word),
            None => self.fetch(address),
        }
    }

    /// Two words of a push, stored if both may be.
    #[inline(always)]
    pub fn store(&mut self, pointer: u32, words: [u32; 2]) -> Result<(), Ending> {
        let next = pointer_after(pointer, 1);
        if !holds(self.list, pointer) || !holds(self.list, next) {
            return Err(self.barred(pointer, next));
        }
        self.words[pointer as usize & (WORDS - 1)] = words[0] as u16;
        self.words[next as usize] = words[1] as u16;
        Ok(())
    }

    /// The ending at the first of two writes that may not both be made.
    #[cold]
    fn barred(&self, pointer: u32, next: u32) -> Ending {
        let address = if holds(self.list, pointer) {
            next
        } else {
            pointer
        };
        Ending::WriteOutsideLoan(address as u16)
    }
}
