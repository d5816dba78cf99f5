//! The refusals 1 to 6, the endings 10 to 19, and the loan that decides endings 16 and 19.

use crate::registers::Registers;
use crate::words::GREATEST_WORD;

/// 01, refused calls and run endings: the table of refusals and the list of endings, in one
/// enumeration because every call answers one of them. `Done` is an accepted operation's 0. The two
/// endings at the fence hold the address that 02, No. 1 asks for, so that no other ending has one.
#[derive(Clone, Copy, Debug, PartialEq, Eq)]
pub enum Ending {
    Done,
    MemoryLength,
    BudgetTooLarge,
    BadLoan,
    RegistersOutOfRange,
    UnknownOperation,
    OperandOutOfRange,
    NotRunning,
    BudgetSpent,
    InternalStop,
    ExternalStop,
    Edge,
    UnusableMode,
    FetchOutsideLoan(u16),
    WordTooWide,
    PointListFull,
    WriteOutsideLoan(u16),
}

impl Ending {
    /// The number that 01 gives to it, or 02, No. 1: "16 (fetch) and 19 (write)".
    pub fn number(self) -> u32 {
        match self {
            Ending::Done => 0,
            Ending::MemoryLength => 1,
            Ending::BudgetTooLarge => 2,
            Ending::BadLoan => 3,
            Ending::RegistersOutOfRange => 4,
            Ending::UnknownOperation => 5,
            Ending::OperandOutOfRange => 6,
            Ending::NotRunning => 10,
            Ending::BudgetSpent => 11,
            Ending::InternalStop => 12,
            Ending::ExternalStop => 13,
            Ending::Edge => 14,
            Ending::UnusableMode => 15,
            Ending::FetchOutsideLoan(_) => 16,
            Ending::WordTooWide => 17,
            Ending::PointListFull => 18,
            Ending::WriteOutsideLoan(_) => 19,
        }
    }

    /// 02, No. 1: "the 15-bit address of the first such touch"; "the other endings and refused runs
    /// give address 0".
    pub fn address(self) -> u16 {
        match self {
            Ending::FetchOutsideLoan(address) | Ending::WriteOutsideLoan(address) => address,
            _ => 0,
        }
    }
}

/// 01, refused calls and run endings: "A run answers the ending together with its beats and
/// points. Its word is 0." The address of 02, No. 1 is the ending's.
#[derive(Clone, Copy, Debug, PartialEq, Eq)]
pub struct Answer {
    pub ending: Ending,
    pub beats: u32,
    pub points: u32,
}

impl Answer {
    /// A refusal, or an ending before the first beat.
    pub fn without_beats(ending: Ending) -> Answer {
        Answer {
            ending,
            beats: 0,
            points: 0,
        }
    }
}

/// 01, what the simulator covers: "Memory is a lent list of 32,768 sixteen-bit numbers".
pub const MEMORY_LENGTH: usize = 32_768;
/// 01, the table of refusals: "budget above 65,535".
pub const GREATEST_BUDGET: u32 = 65_535;
/// 01, the table of refusals: "high above 32,768".
pub const GREATEST_LOAN_BOUND: u16 = 32_768;

/// A half-open range of addresses. Bounds up to 65,535 can be said, so that they can be refused.
#[derive(Clone, Copy, Debug, PartialEq, Eq)]
pub struct LoanRange {
    pub low: u16,
    pub high: u16,
}

impl LoanRange {
    pub fn contains(self, address: u16) -> bool {
        self.low <= address && address < self.high
    }

    /// 01, the table of refusals, row 3.
    pub fn is_in_form(self) -> bool {
        self.low <= self.high && self.high <= GREATEST_LOAN_BOUND
    }
}

/// 01, refused calls and run endings: "A loan is two half-open ranges, which may be empty or
/// overlap".
#[derive(Clone, Copy, Debug, PartialEq, Eq)]
pub struct Loan {
    pub file: LoanRange,
    pub list: LoanRange,
}

impl Loan {
    /// 01: "All of memory lent means that both ranges are 0 to 32,768".
    pub fn all() -> Loan {
        let whole = LoanRange {
            low: 0,
            high: GREATEST_LOAN_BOUND,
        };
        Loan {
            file: whole,
            list: whole,
        }
    }

    /// 01: "the file range may be fetched, the list range fetched and written".
    pub fn allows_fetch(self, address: u16) -> bool {
        self.file.contains(address) || self.list.contains(address)
    }

    /// 01: "a write outside the list range, is outside the loan".
    pub fn allows_write(self, address: u16) -> bool {
        self.list.contains(address)
    }

    pub fn is_in_form(self) -> bool {
        self.file.is_in_form() && self.list.is_in_form()
    }
}

/// 01: "Runs test 1, 2, 3, 4 ...; the first that applies is given, and none otherwise".
pub fn refuse_run(
    registers: &Registers,
    memory: &[u16],
    loan: Loan,
    budget: u32,
) -> Option<Ending> {
    if memory.len() != MEMORY_LENGTH {
        Some(Ending::MemoryLength)
    } else if budget > GREATEST_BUDGET {
        Some(Ending::BudgetTooLarge)
    } else if !loan.is_in_form() {
        Some(Ending::BadLoan)
    } else if !registers.are_in_range() {
        Some(Ending::RegistersOutOfRange)
    } else {
        None
    }
}

/// Memory seen through the loan: no beat reaches a word except by these touches.
pub struct LentMemory<'a> {
    words: &'a mut [u16],
    loan: Loan,
}

impl<'a> LentMemory<'a> {
    pub fn new(words: &'a mut [u16], loan: Loan) -> LentMemory<'a> {
        LentMemory { words, loan }
    }

    /// 01, one turn of a run, 4: "outside the loan 16, then (fetches) too wide 17". The loan is
    /// asked first, so that the width of a word that isn't lent is never looked at.
    pub fn fetch(&self, address: u16) -> Result<u16, Ending> {
        if !self.loan.allows_fetch(address) {
            return Err(Ending::FetchOutsideLoan(address));
        }
        match self.words.get(usize::from(address)) {
            Some(&word) if word <= GREATEST_WORD => Ok(word),
            Some(_) => Err(Ending::WordTooWide),
            // No accepted loan reaches past the memory; what is not there is not lent.
            None => Err(Ending::FetchOutsideLoan(address)),
        }
    }

    /// The test of a write without the write, because both writes of a push are tested before
    /// either is made. 01, easy ways to get it wrong. 02, No. 1: its ending is 19, "at the same
    /// place in the order".
    pub fn test_write(&self, address: u16) -> Result<(), Ending> {
        if self.loan.allows_write(address) {
            Ok(())
        } else {
            Err(Ending::WriteOutsideLoan(address))
        }
    }

    /// A write that has been tested; one that the loan does not allow changes nothing.
    pub fn write(&mut self, address: u16, word: u16) {
        if !self.loan.allows_write(address) {
            return;
        }
        if let Some(place) = self.words.get_mut(usize::from(address)) {
            *place = word;
        }
    }
}

#[cfg(test)]
mod tests {
    use super::*;
    use crate::turn::run;

    fn loan(file: (u16, u16), list: (u16, u16)) -> Loan {
        Loan {
            file: LoanRange {
                low: file.0,
                high: file.1,
            },
            list: LoanRange {
                low: list.0,
                high: list.1,
            },
        }
    }

    #[test]
    fn refusals_of_a_run_come_in_order() {
        let good = Registers::fresh();
        let bad = Registers { x: 8_192, ..good };
        let memory = vec![0u16; MEMORY_LENGTH];
        let backwards = loan((1, 0), (0, 0));
        assert_eq!(
            refuse_run(&bad, &memory[1..], backwards, 65_536),
            Some(Ending::MemoryLength)
        );
        assert_eq!(
            refuse_run(&bad, &memory, backwards, 65_536),
            Some(Ending::BudgetTooLarge)
        );
        assert_eq!(
            refuse_run(&bad, &memory, backwards, 65_535),
            Some(Ending::BadLoan)
        );
        assert_eq!(
            refuse_run(&bad, &memory, Loan::all(), 0),
            Some(Ending::RegistersOutOfRange)
        );
        assert_eq!(refuse_run(&good, &memory, Loan::all(), 0), None);
        assert_eq!(
            refuse_run(&good, &[0; MEMORY_LENGTH + 1], Loan::all(), 0),
            Some(Ending::MemoryLength)
        );
        assert_eq!(
            refuse_run(&good, &[], Loan::all(), 0),
            Some(Ending::MemoryLength)
        );
    }

    #[test]
    fn each_range_of_a_loan_is_tested() {
        assert!(loan((0, 0), (32_768, 32_768)).is_in_form());
        assert!(!loan((0, 32_769), (0, 0)).is_in_form());
        assert!(!loan((0, 0), (0, 32_769)).is_in_form());
        assert!(!loan((5, 4), (0, 0)).is_in_form());
        assert!(!loan((0, 0), (5, 4)).is_in_form());
        assert!(!loan((32_769, 32_769), (0, 0)).is_in_form());
    }

    #[test]
    fn a_refusal_stores_nothing_and_returns_registers_as_given() {
        let given = Registers {
            scale: 9,
            running: true,
            ..Registers::fresh()
        };
        let mut registers = given;
        let mut memory = vec![7u16; MEMORY_LENGTH];
        let mut points = [5u64; 3];
        let answer = run(&mut registers, &mut memory, Loan::all(), 10, &mut points);
        assert_eq!(
            answer,
            Answer {
                ending: Ending::RegistersOutOfRange,
                beats: 0,
                points: 0
            }
        );
        assert_eq!(registers, given);
        assert!(memory.iter().all(|&word| word == 7));
        assert_eq!(points, [5; 3]);
    }

    #[test]
    fn only_the_two_endings_at_the_fence_have_an_address() {
        let at_the_end = Ending::FetchOutsideLoan(0o77777);
        assert_eq!((at_the_end.number(), at_the_end.address()), (16, 0o77777));
        let on_the_list = Ending::WriteOutsideLoan(0o7777);
        assert_eq!((on_the_list.number(), on_the_list.address()), (19, 0o7777));
        let others = [
            Ending::Done,
            Ending::MemoryLength,
            Ending::BudgetTooLarge,
            Ending::BadLoan,
            Ending::RegistersOutOfRange,
            Ending::UnknownOperation,
            Ending::OperandOutOfRange,
            Ending::NotRunning,
            Ending::BudgetSpent,
            Ending::InternalStop,
            Ending::ExternalStop,
            Ending::Edge,
            Ending::UnusableMode,
            Ending::WordTooWide,
            Ending::PointListFull,
        ];
        let numbers = others.map(Ending::number);
        assert_eq!(
            numbers,
            [0, 1, 2, 3, 4, 5, 6, 10, 11, 12, 13, 14, 15, 17, 18]
        );
        assert!(others.iter().all(|ending| ending.address() == 0));
    }

    #[test]
    fn the_width_of_a_word_that_is_not_lent_is_not_looked_at() {
        let mut words = vec![0o10000u16; MEMORY_LENGTH];
        let memory = LentMemory::new(&mut words, loan((0, 1), (1, 2)));
        assert_eq!(memory.fetch(0), Err(Ending::WordTooWide));
        assert_eq!(memory.fetch(1), Err(Ending::WordTooWide));
        assert_eq!(memory.fetch(2), Err(Ending::FetchOutsideLoan(2)));
        assert_eq!(memory.test_write(0), Err(Ending::WriteOutsideLoan(0)));
        // A write looks at no width.
        assert_eq!(memory.test_write(1), Ok(()));
    }
}
