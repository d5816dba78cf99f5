//! The sides that are compared, and the lists that a run is given and leaves.

use second::replay::{write_case, Case};
use second::Registers;

use crate::lessons::{Lesson, BEATS, ROOM};
use crate::tuned;

#[derive(Clone, Copy, PartialEq)]
pub enum Side {
    #[cfg(feature = "proved")]
    Proved,
    Second,
    Tuned,
}

pub const SIDES: &[Side] = &[
    #[cfg(feature = "proved")]
    Side::Proved,
    Side::Second,
    Side::Tuned,
];

impl Side {
    pub fn name(self) -> &'static str {
        match self {
            #[cfg(feature = "proved")]
            Side::Proved => "proved",
            Side::Second => "second",
            Side::Tuned => "tuned",
        }
    }
}

/// The numbers of the registers in the order of the replay format, and some zeros behind them.
fn numbers_of(registers: &Registers) -> Vec<u16> {
    let case = Case::Operation {
        registers: *registers,
        operation: 0,
        operand: 0,
    };
    let line = write_case(&case);
    line.split(|byte| *byte == b' ')
        .filter_map(|number| std::str::from_utf8(number).ok()?.parse().ok())
        .collect()
}

/// The row of the registers, as the proved side takes it.
#[cfg(feature = "proved")]
fn row_of(registers: &Registers) -> eveglome::Row {
    let mut row = [0; eveglome::place::ROW];
    for (place, number) in row.iter_mut().zip(numbers_of(registers)) {
        *place = number;
    }
    eveglome::Row(row)
}

/// What a run of one side is given, and then what it left.
pub struct Desk {
    pub side: Side,
    registers: Registers,
    #[cfg(feature = "proved")]
    row: eveglome::Row,
    memory: Vec<u16>,
    points: Vec<u64>,
    /// Ending, beats, points and the address that the ending tells.
    pub answer: [u32; 4],
}

impl Desk {
    pub fn new(side: Side, lesson: &Lesson) -> Desk {
        Desk {
            side,
            registers: lesson.registers,
            #[cfg(feature = "proved")]
            row: row_of(&lesson.registers),
            memory: lesson.memory.clone(),
            points: vec![0; ROOM],
            answer: [0; 4],
        }
    }

    /// A fresh copy in the same place.
    pub fn lay(&mut self, lesson: &Lesson) {
        self.registers = lesson.registers;
        #[cfg(feature = "proved")]
        {
            self.row = row_of(&lesson.registers);
        }
        self.memory.copy_from_slice(&lesson.memory);
        self.points.fill(0);
        self.answer = [0; 4];
    }

    /// The run: no more than the call of the side.
    pub fn run(&mut self, lesson: &Lesson) {
        let loan = lesson.loan;
        let (memory, points) = (&mut self.memory, &mut self.points);
        let answer = match self.side {
            #[cfg(feature = "proved")]
            Side::Proved => {
                let loan = eveglome::Loan {
                    file_low: loan.file.low,
                    file_high: loan.file.high,
                    list_low: loan.list.low,
                    list_high: loan.list.high,
                };
                let answer = eveglome::run(&mut self.row, loan, memory, points, BEATS);
                self.answer = [answer.ending, answer.beats, answer.points, answer.address];
                return;
            }
            Side::Second => second::run(&mut self.registers, memory, loan, BEATS, points),
            Side::Tuned => tuned::run(&mut self.registers, memory, loan, BEATS, points),
        };
        self.answer = [
            answer.ending.number(),
            answer.beats,
            answer.points,
            u32::from(answer.ending.address()),
        ];
    }

    /// The numbers of the registers that the run left, up to the last that is not 0: how many
    /// zeros stand behind it differs from side to side.
    fn registers_left(&self) -> Vec<u16> {
        let mut numbers = match self.side {
            #[cfg(feature = "proved")]
            Side::Proved => self.row.0.to_vec(),
            _ => numbers_of(&self.registers),
        };
        while numbers.last() == Some(&0) {
            numbers.pop();
        }
        numbers
    }

    /// Panics where another side left anything else.
    pub fn assert_same(&self, other: &Desk) {
        let names = format!("{} and {}", self.side.name(), other.side.name());
        assert_eq!(self.answer, other.answer, "answers of {names}");
        let (one, two) = (self.registers_left(), other.registers_left());
        assert_eq!(one, two, "registers of {names}");
        assert!(self.memory == other.memory, "memory of {names}");
        assert!(self.points == other.points, "points of {names}");
    }
}
