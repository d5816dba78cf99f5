//! Eveglome for Rust: a proved simulator of the DEC 338 display, behind a safe interface.
//!
//! Whatever numbers arrive, a call is refused or done: nothing has to be checked first. A refused
//! call leaves registers, memory, points and text as they were. The exact rules are document
//! 01's, with what the requests of document 02 change in them; docs/MACHINE.md tells them.
//!
//! [`fresh`], [`operate`] and [`run`] are the display's calls; [`list`] writes words as lines with
//! the manual's mnemonics, and [`read`] reads such lines back. Their numbers have names: [`place`]
//! names the registers, [`operation`] the host operations, [`ending`] the refusals and how a run
//! ended. [`Point::of`] takes a lit point apart, and tells which word lit it.
#![deny(missing_docs)]

#[cfg(test)]
mod meaning;
mod numbers;

use std::error::Error;
use std::fmt::{self, Display, Formatter};

use numbers::{answer, listing_answer, loan};
pub use numbers::{ending, operation, place, LONGEST_LISTING, MEMORY};

/// The example of the README, which is tested with the documentation.
#[cfg(doctest)]
#[doc = include_str!("../README.md")]
struct ReadMe;

/// Registers as a row of numbers, by the places of [`place`].
#[derive(Clone, Copy, Debug, PartialEq, Eq)]
pub struct Row(pub [u16; place::ROW]);

/// Two half-open ranges, which may be empty or overlap: the file range may be fetched, the list
/// range fetched and written. A range with low above high, or high above 32,768, is refusal 3.
#[derive(Clone, Copy, Debug, PartialEq, Eq)]
pub struct Loan {
    /// The first word of the file range, up to `file_high`.
    pub file_low: u16,
    /// The word behind the file range, up to 32,768.
    pub file_high: u16,
    /// The first word of the list range, up to `list_high`.
    pub list_low: u16,
    /// The word behind the list range, up to 32,768.
    pub list_high: u16,
}

impl Loan {
    /// All of memory lent.
    pub const ALL: Loan = Loan {
        file_low: 0,
        file_high: MEMORY as u16,
        list_low: 0,
        list_high: MEMORY as u16,
    };

    fn numbers(self) -> [u16; loan::LOAN] {
        let mut numbers = [0; loan::LOAN];
        numbers[loan::FILE_LOW] = self.file_low;
        numbers[loan::FILE_HIGH] = self.file_high;
        numbers[loan::LIST_LOW] = self.list_low;
        numbers[loan::LIST_HIGH] = self.list_high;
        numbers
    }
}

/// What an operation or a run answers. A refusal has word 0, beats 0, points 0 and address 0.
#[derive(Clone, Copy, Debug, PartialEq, Eq)]
pub struct Answer {
    /// One of [`ending`]: a refusal, how a run ended, or 0 for an operation that was done.
    pub ending: u32,
    /// What a read answers, up to 4,095, else 0.
    pub word: u32,
    /// The beats that a run made, up to its budget.
    pub beats: u32,
    /// How many entries of the point list a run filled, from the first.
    pub points: u32,
    /// With [`ending::FETCH_OUTSIDE_LOAN`] and [`ending::WRITE_OUTSIDE_LOAN`] the address of the
    /// word that the fence stopped, up to 32,767, 0 being word 0; with every other ending 0, which
    /// then means nothing.
    pub address: u32,
}

impl Answer {
    fn of(numbers: [u32; answer::ANSWER]) -> Answer {
        Answer {
            ending: numbers[answer::ENDING],
            word: numbers[answer::WORD],
            beats: numbers[answer::BEATS],
            points: numbers[answer::POINTS],
            address: numbers[answer::FENCE_ADDRESS],
        }
    }
}

/// A lit point.
#[derive(Clone, Copy, Debug, PartialEq, Eq)]
pub struct Point {
    /// Up to 1,023.
    pub x: u16,
    /// Up to 1,023.
    pub y: u16,
    /// Up to 7.
    pub intensity: u8,
    /// Whether it blinks.
    pub blink: bool,
    /// The address of the last word of the command that lit it, up to 32,767: of the second word in
    /// modes 0, 2 and 3, which is word 0 where the first is word 32,767; of the only word in modes
    /// 1, 4 and 6. Of a character it is the routine word whose move lit the point. A word that was
    /// held counts as one fetched at the display address.
    pub last_word: u16,
}

impl Point {
    /// Takes an entry of the point list apart: x + 1,024 y + 2^20 intensity + 2^23 blink + 2^24
    /// last word.
    pub fn of(entry: u64) -> Point {
        Point {
            x: (entry & 1_023) as u16,
            y: (entry >> 10 & 1_023) as u16,
            intensity: (entry >> 20 & 7) as u8,
            blink: entry >> 23 & 1 == 1,
            last_word: (entry >> 24 & 32_767) as u16,
        }
    }
}

/// Which words are listed or read, and what the display is in before the first of them. No jump is
/// followed.
#[derive(Clone, Copy, Debug, PartialEq, Eq)]
pub struct Stretch {
    /// The first word, up to `high`; above it is refusal 3.
    pub low: u32,
    /// The word behind the last, up to 32,768; above is refusal 3.
    pub high: u32,
    /// 0 control, 1 data; above is refusal 6.
    pub state: u32,
    /// Up to 7; above is refusal 6.
    pub mode: u32,
}

/// Why words were not listed, or a text not read. Then nothing was written.
#[derive(Clone, Copy, Debug, PartialEq, Eq)]
pub struct Refusal {
    /// One of [`ending`]: 1, 3 or 6; of a listing 24 or 23, of a reading 7.
    pub number: u32,
    /// With [`ending::LINE_NOT_IN_FORM`] the number of the first such line, from 1 up to 32,769;
    /// else 0.
    pub line: u32,
}

impl Display for Refusal {
    fn fmt(&self, out: &mut Formatter) -> fmt::Result {
        write!(out, "refused as {}", self.number)?;
        match self.line {
            0 => Ok(()),
            line => write!(out, ": line {line} is not in form"),
        }
    }
}

impl Error for Refusal {}

/// How many bytes a listing wrote, or why there is none.
fn listing_of(numbers: [u32; listing_answer::LISTING_ANSWER]) -> Result<usize, Refusal> {
    match numbers[listing_answer::LISTING_REFUSAL] {
        ending::DONE => Ok(numbers[listing_answer::LISTING_LENGTH] as usize),
        number => Err(Refusal {
            number,
            line: numbers[listing_answer::LISTING_LINE],
        }),
    }
}

// A slice is handed over as its pointer and its count.
extern "C" {
    fn eveglome_fresh(registers: &mut [u16; place::ROW]);
    fn eveglome_operate(
        registers: &mut [u16; place::ROW],
        operation: u32,
        operand: u32,
        answer: &mut [u32; answer::ANSWER],
    );
    fn eveglome_run(
        registers: &mut [u16; place::ROW],
        loan: &[u16; loan::LOAN],
        memory: *mut u16,
        memory_length: usize,
        points: *mut u64,
        points_length: usize,
        budget: u32,
        answer: &mut [u32; answer::ANSWER],
    );
    fn eveglome_list(
        memory: *const u16,
        memory_length: usize,
        low: u32,
        high: u32,
        state: u32,
        mode: u32,
        text: *mut u8,
        text_length: usize,
        answer: &mut [u32; listing_answer::LISTING_ANSWER],
    );
    fn eveglome_read(
        text: *const u8,
        text_length: usize,
        memory: *mut u16,
        memory_length: usize,
        low: u32,
        high: u32,
        state: u32,
        mode: u32,
        answer: &mut [u32; listing_answer::LISTING_ANSWER],
    );
}

/// Fresh registers: all zero, control state, not running, no word held, no motion.
pub fn fresh() -> Row {
    let mut row = [0; place::ROW];
    // SAFETY: the call is proved to write the row and nothing else.
    unsafe { eveglome_fresh(&mut row) };
    Row(row)
}

/// Makes one of [`operation`] on the registers. Refused as 4, 5 or 6, in this order.
pub fn operate(row: &mut Row, operation: u32, operand: u32) -> Answer {
    let mut numbers = [0; answer::ANSWER];
    // SAFETY: the call takes any numbers, and is proved to write the row and the answer and
    // nothing else.
    unsafe { eveglome_operate(&mut row.0, operation, operand, &mut numbers) };
    Answer::of(numbers)
}

/// Runs the display for at most `budget` beats, up to 65,535. The points that it lights stand in
/// the first entries of `points`, as many as it answers; the rest stays. A memory has [`MEMORY`]
/// words, each up to 4,095. Where a word is held, the next command uses it and does not fetch the
/// word at its address; once that command is made, none is held. Second words, and the table words
/// and routine words of characters, are always fetched. Refused as 1, 2, 3 or 4, in this order.
pub fn run(
    row: &mut Row,
    loan: Loan,
    memory: &mut [u16],
    points: &mut [u64],
    budget: u32,
) -> Answer {
    let mut numbers = [0; answer::ANSWER];
    // SAFETY: each pointer stands with its own slice's length, a slice's pointer is never null,
    // and `&mut` keeps the lists apart. The call takes any numbers, and is proved to stay within
    // the lengths.
    unsafe {
        eveglome_run(
            &mut row.0,
            &loan.numbers(),
            memory.as_mut_ptr(),
            memory.len(),
            points.as_mut_ptr(),
            points.len(),
            budget,
            &mut numbers,
        )
    };
    Answer::of(numbers)
}

/// Lists the words of a stretch, and answers how many bytes of `text` the lines fill, from the
/// first; the rest stays.
///
/// A word is a line: its address in five octal digits and the word in four; then, unless it is a
/// data word or the second word of a jump, the manual's mnemonics, and in octal the bits that none
/// of them covers, unless 0. One space stands between two fields, and a newline behind the last. 43
/// bytes for each word are always enough, and [`LONGEST_LISTING`] for all. Refused as 1, 3, 6, 24
/// or 23, in this order.
pub fn list(memory: &[u16], stretch: Stretch, text: &mut [u8]) -> Result<usize, Refusal> {
    let mut numbers = [0; listing_answer::LISTING_ANSWER];
    // SAFETY: as in `run`; the memory is only read.
    unsafe {
        eveglome_list(
            memory.as_ptr(),
            memory.len(),
            stretch.low,
            stretch.high,
            stretch.state,
            stretch.mode,
            text.as_mut_ptr(),
            text.len(),
            &mut numbers,
        )
    };
    listing_of(numbers)
}

/// Reads a listing back into the words of a stretch, and changes no other word.
///
/// Taken are exactly the texts that [`list`] writes for some words of this stretch: every byte
/// counts, and a line missing or too many is not in form. What the words were before does not
/// matter. Refused as 1, 3, 6 or 7, in this order.
pub fn read(text: &[u8], memory: &mut [u16], stretch: Stretch) -> Result<(), Refusal> {
    let mut numbers = [0; listing_answer::LISTING_ANSWER];
    // SAFETY: as in `run`; the text is only read.
    unsafe {
        eveglome_read(
            text.as_ptr(),
            text.len(),
            memory.as_mut_ptr(),
            memory.len(),
            stretch.low,
            stretch.high,
            stretch.state,
            stretch.mode,
            &mut numbers,
        )
    };
    listing_of(numbers).map(|_| ())
}
