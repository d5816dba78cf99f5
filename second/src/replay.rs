//! The replay format: a case read from a line, its call made, and the answer as a line.

use std::fmt::Write as _;
use std::io::{self, BufRead, Write};

use crate::host_operations::operate;
use crate::listing::{list_words, read_listing, ListingRefusal};
use crate::refusals_and_endings::{Answer, Loan, LoanRange};
use crate::registers::{Bytes, Character, Line, Motion, Registers, Routine, Side, Stage, State};
use crate::turn::run;

// The widths, which decide between `error N` (it does not fit) and a refusal (it fits but is out
// of range). The format leaves them to the call's types; these are the types of this library:
//   16 bits: addr ptr x y buttons cond heldword, the line's magnitudes, n and k, the bytes' word and
//            moves left, from, the character's word and next, FLO FHI LLO LHI, LO HI, DEFAULT, the
//            pairs' addresses and words;
//    8 bits: mode scale intensity sar, STATE and MODE of a listing;
//   32 bits: OP, OPERAND, BUDGET;
//    1 bit:  state, every flag, held, case, size, signs, lit, escape, side, kind;
//   MOTION is 0, 1, 2 or 3, and 3 has STAGE 0, 1, 2 or 3; MEMLEN is at most 32,769; ROOM at most 65,536, or 1,500,000 bytes of text;
//   a pair's address is below MEMLEN; COUNT is the number of pairs that follow.
// A number is one or more of the digits 0 to 9. Leading zeros are accepted, as many as there are.
const BIT: u64 = 1;
const EIGHT_BITS: u64 = 255;
const SIXTEEN_BITS: u64 = 65_535;
const THIRTY_TWO_BITS: u64 = 4_294_967_295;
const GREATEST_MEMORY_LENGTH: u64 = 32_769;
const GREATEST_ROOM: u64 = 65_536;
/// More than the 32,768 longest lines of a listing have, 43 bytes each.
const GREATEST_TEXT_ROOM: u64 = 1_500_000;

/// One call with all that it is given.
#[derive(Clone, Debug, PartialEq, Eq)]
pub enum Case {
    Operation {
        registers: Registers,
        operation: u32,
        operand: u32,
    },
    Run(RunCase),
    List(ListCase),
    Read(ReadCase),
}

/// The memory of a case: `default` in each of its words but for the pairs.
#[derive(Clone, Debug, PartialEq, Eq)]
pub struct GivenMemory {
    pub length: usize,
    pub default: u16,
    pub pairs: Vec<(u16, u16)>,
}

impl GivenMemory {
    /// The words before the call, "a later pair winning".
    pub fn words(&self) -> Vec<u16> {
        let mut words = vec![self.default; self.length];
        for &(address, word) in &self.pairs {
            if let Some(place) = words.get_mut(usize::from(address)) {
                *place = word;
            }
        }
        words
    }
}

/// The lister's call. `room` is the length of the text list in bytes.
#[derive(Clone, Debug, PartialEq, Eq)]
pub struct ListCase {
    pub range: LoanRange,
    pub state: u8,
    pub mode: u8,
    pub room: usize,
    pub given: GivenMemory,
}

impl ListCase {
    /// The text that the lister writes, or its refusal.
    pub fn outcome(&self) -> Result<Vec<u8>, ListingRefusal> {
        let mut text = vec![0; self.room];
        let words = self.given.words();
        let length = list_words(&words, self.range, self.state, self.mode, &mut text)?;
        text.truncate(length);
        Ok(text)
    }
}

/// The reader's call. The format can say every text but one with the byte `|` in it, which stands
/// for a newline, and the text `-`, which stands for none.
#[derive(Clone, Debug, PartialEq, Eq)]
pub struct ReadCase {
    pub range: LoanRange,
    pub state: u8,
    pub mode: u8,
    pub given: GivenMemory,
    pub text: Vec<u8>,
}

impl ReadCase {
    /// The reader's answer, and the memory that it leaves.
    pub fn outcome(&self) -> (Result<(), ListingRefusal>, Vec<u16>) {
        let mut words = self.given.words();
        let answer = read_listing(&mut words, self.range, self.state, self.mode, &self.text);
        (answer, words)
    }
}

/// A run's call.
#[derive(Clone, Debug, PartialEq, Eq)]
pub struct RunCase {
    pub registers: Registers,
    pub budget: u32,
    pub loan: Loan,
    pub room: usize,
    pub given: GivenMemory,
}

impl RunCase {
    pub fn memory(&self) -> Vec<u16> {
        self.given.words()
    }

    /// What a run of the case leaves, made on lists of its own.
    pub fn outcome(
        &self,
        run: impl FnOnce(&mut Registers, &mut [u16], &mut [u64]) -> Answer,
    ) -> Outcome {
        self.outcome_on(self.memory(), run)
    }

    /// The same on another memory.
    pub fn outcome_on(
        &self,
        mut memory: Vec<u16>,
        run: impl FnOnce(&mut Registers, &mut [u16], &mut [u64]) -> Answer,
    ) -> Outcome {
        let mut registers = self.registers;
        let mut points = vec![0; self.room];
        let answer = run(&mut registers, &mut memory, &mut points);
        Outcome {
            answer,
            registers,
            memory,
            points,
        }
    }
}

/// The answer of a run, and the registers and lists that it left.
#[derive(Clone, Debug, PartialEq, Eq)]
pub struct Outcome {
    pub answer: Answer,
    pub registers: Registers,
    pub memory: Vec<u16>,
    pub points: Vec<u64>,
}

/// The numbers of a line, taken one by one. `None` means that the line is no case.
struct Numbers<'a> {
    texts: std::slice::Split<'a, u8, fn(&u8) -> bool>,
}

impl<'a> Numbers<'a> {
    fn of(line: &'a [u8]) -> Numbers<'a> {
        Numbers {
            texts: line.split(|&byte| byte == b' '),
        }
    }

    /// Two spaces, or one at either end, leave an empty text, which is no number.
    fn next(&mut self, greatest: u64) -> Option<u64> {
        let text = self.texts.next()?;
        if text.is_empty() {
            return None;
        }
        let mut value = 0;
        for &byte in text {
            value = value * 10 + u64::from(char::from(byte).to_digit(10)?);
            // Tested at each digit, so that no number of digits can overflow.
            if value > greatest {
                return None;
            }
        }
        Some(value)
    }

    fn flag(&mut self) -> Option<bool> {
        Some(self.next(BIT)? == 1)
    }

    fn eight_bits(&mut self) -> Option<u8> {
        Some(self.next(EIGHT_BITS)? as u8)
    }

    fn sixteen_bits(&mut self) -> Option<u16> {
        Some(self.next(SIXTEEN_BITS)? as u16)
    }

    fn thirty_two_bits(&mut self) -> Option<u32> {
        Some(self.next(THIRTY_TWO_BITS)? as u32)
    }

    fn end(&mut self) -> Option<()> {
        match self.texts.next() {
            None => Some(()),
            Some(_) => None,
        }
    }

    /// The format's registers: 30 numbers in this order, then the motion.
    fn registers(&mut self) -> Option<Registers> {
        Some(Registers {
            display_address: self.sixteen_bits()?,
            pushdown_pointer: self.sixteen_bits()?,
            x: self.sixteen_bits()?,
            y: self.sixteen_bits()?,
            state: if self.flag()? {
                State::Data
            } else {
                State::Control
            },
            mode: self.eight_bits()?,
            scale: self.eight_bits()?,
            intensity: self.eight_bits()?,
            pen_enable: self.flag()?,
            pen_hold: self.flag()?,
            pen_sense: self.flag()?,
            blink: self.flag()?,
            idle: self.flag()?,
            buttons: self.sixteen_bits()?,
            hit_bank_1: self.flag()?,
            hit_bank_2: self.flag()?,
            internal_stop_flag: self.flag()?,
            external_stop_flag: self.flag()?,
            vertical_edge_flag: self.flag()?,
            horizontal_edge_flag: self.flag()?,
            pen_flag: self.flag()?,
            manual_interrupt_flag: self.flag()?,
            conditions: self.sixteen_bits()?,
            running: self.flag()?,
            stop_request: self.flag()?,
            word_is_held: self.flag()?,
            held_word: self.sixteen_bits()?,
            upper_case: self.flag()?,
            seven_bit_codes: self.flag()?,
            starting_address: self.eight_bits()?,
            motion: self.motion()?,
        })
    }

    fn motion(&mut self) -> Option<Motion> {
        match self.next(3)? {
            0 => Some(Motion::Nothing),
            1 => Some(Motion::Line(self.line()?)),
            2 => Some(Motion::Bytes(self.bytes()?)),
            _ => Some(Motion::Character(self.character()?)),
        }
    }

    /// The format calls the address of a motion's last word `from`.
    fn line(&mut self) -> Option<Line> {
        Some(Line {
            y_minus: self.flag()?,
            x_minus: self.flag()?,
            y_magnitude: self.sixteen_bits()?,
            x_magnitude: self.sixteen_bits()?,
            moves: self.sixteen_bits()?,
            done: self.sixteen_bits()?,
            lit: self.flag()?,
            escape: self.flag()?,
            last_word: self.sixteen_bits()?,
        })
    }

    fn bytes(&mut self) -> Option<Bytes> {
        Some(Bytes {
            word: self.sixteen_bits()?,
            side: self.side()?,
            moves_left: self.sixteen_bits()?,
            last_word: self.sixteen_bits()?,
        })
    }

    fn side(&mut self) -> Option<Side> {
        Some(if self.flag()? {
            Side::Right
        } else {
            Side::Left
        })
    }

    fn character(&mut self) -> Option<Character> {
        Some(Character {
            word: self.sixteen_bits()?,
            seven_bits: self.flag()?,
            side: self.side()?,
            stage: self.stage()?,
        })
    }

    fn stage(&mut self) -> Option<Stage> {
        match self.next(3)? {
            0 => Some(Stage::TableWord),
            1 => Some(Stage::RoutineWord(Routine {
                short_vectors: self.flag()?,
                next: self.sixteen_bits()?,
            })),
            2 => Some(Stage::Bytes(self.bytes()?)),
            _ => Some(Stage::Line(self.line()?)),
        }
    }

    fn loan_range(&mut self) -> Option<LoanRange> {
        Some(LoanRange {
            low: self.sixteen_bits()?,
            high: self.sixteen_bits()?,
        })
    }

    fn run_case(&mut self) -> Option<RunCase> {
        let registers = self.registers()?;
        let budget = self.thirty_two_bits()?;
        let loan = Loan {
            file: self.loan_range()?,
            list: self.loan_range()?,
        };
        let room = self.next(GREATEST_ROOM)? as usize;
        let given = self.given_memory()?;
        self.end()?;
        Some(RunCase {
            registers,
            budget,
            loan,
            room,
            given,
        })
    }

    fn given_memory(&mut self) -> Option<GivenMemory> {
        let length = self.next(GREATEST_MEMORY_LENGTH)? as usize;
        let default = self.sixteen_bits()?;
        let count = self.thirty_two_bits()?;
        let mut pairs = Vec::new();
        for _ in 0..count {
            let address = self.sixteen_bits()?;
            if usize::from(address) >= length {
                return None;
            }
            pairs.push((address, self.sixteen_bits()?));
        }
        Some(GivenMemory {
            length,
            default,
            pairs,
        })
    }

    fn list_case(&mut self) -> Option<ListCase> {
        let case = ListCase {
            range: self.loan_range()?,
            state: self.eight_bits()?,
            mode: self.eight_bits()?,
            room: self.next(GREATEST_TEXT_ROOM)? as usize,
            given: self.given_memory()?,
        };
        self.end()?;
        Some(case)
    }

    /// The numbers of a reading, with the text that stands behind them.
    fn read_case(&mut self, text: Vec<u8>) -> Option<ReadCase> {
        let case = ReadCase {
            range: self.loan_range()?,
            state: self.eight_bits()?,
            mode: self.eight_bits()?,
            given: self.given_memory()?,
            text,
        };
        self.end()?;
        Some(case)
    }

    fn operation_case(&mut self) -> Option<Case> {
        let case = Case::Operation {
            registers: self.registers()?,
            operation: self.thirty_two_bits()?,
            operand: self.thirty_two_bits()?,
        };
        self.end()?;
        Some(case)
    }
}

/// The case that a line (without its newline) says, or `None` if it is no case.
pub fn read_case(line: &(impl AsRef<[u8]> + ?Sized)) -> Option<Case> {
    let line = line.as_ref();
    let mut numbers = Numbers::of(line);
    match numbers.texts.next()? {
        b"op" => numbers.operation_case(),
        b"run" => Some(Case::Run(numbers.run_case()?)),
        b"list" => Some(Case::List(numbers.list_case()?)),
        b"read" => {
            let (before, text) = split_text(line)?;
            let mut numbers = Numbers::of(before);
            numbers.texts.next()?;
            Some(Case::Read(numbers.read_case(text)?))
        }
        _ => None,
    }
}

/// The numbers of a reading's line, and its text: "the rest of the line behind `; `, with `|` for
/// each newline; `-` alone, or nothing, is the empty text". No number has a `;`, so the first one
/// is the one before the text.
fn split_text(line: &[u8]) -> Option<(&[u8], Vec<u8>)> {
    let mark = line.iter().position(|&byte| byte == b';')?;
    let before = line[..mark].strip_suffix(b" ")?;
    let text = match &line[mark + 1..] {
        [] | [b' ', b'-'] => Vec::new(),
        [b' ', text @ ..] => text
            .iter()
            .map(|&byte| if byte == b'|' { b'\n' } else { byte })
            .collect(),
        _ => return None,
    };
    Some((before, text))
}

/// A text as the format writes it.
fn write_text(text: &[u8]) -> Vec<u8> {
    if text.is_empty() {
        return b"-".to_vec();
    }
    text.iter()
        .map(|&byte| if byte == b'\n' { b'|' } else { byte })
        .collect()
}

/// The line of a case, without its newline. A listing that is read may have any byte, so the line
/// is bytes.
pub fn write_case(case: &Case) -> Vec<u8> {
    let mut line = String::new();
    match case {
        Case::Operation {
            registers,
            operation,
            operand,
        } => {
            line.push_str("op");
            write_registers(&mut line, registers);
            number(&mut line, *operation);
            number(&mut line, *operand);
        }
        Case::Run(case) => {
            line.push_str("run");
            write_registers(&mut line, &case.registers);
            number(&mut line, case.budget);
            for range in [case.loan.file, case.loan.list] {
                number(&mut line, range.low);
                number(&mut line, range.high);
            }
            number(&mut line, case.room as u32);
            write_given_memory(&mut line, &case.given);
        }
        Case::List(case) => {
            line.push_str("list");
            write_start(&mut line, case.range, case.state, case.mode);
            number(&mut line, case.room as u32);
            write_given_memory(&mut line, &case.given);
        }
        Case::Read(case) => {
            line.push_str("read");
            write_start(&mut line, case.range, case.state, case.mode);
            write_given_memory(&mut line, &case.given);
            line.push_str(" ; ");
            return [line.into_bytes(), write_text(&case.text)].concat();
        }
    }
    line.into_bytes()
}

/// The range, the starting state and the mode of a listing.
fn write_start(line: &mut String, range: LoanRange, state: u8, mode: u8) {
    number(line, range.low);
    number(line, range.high);
    number(line, state);
    number(line, mode);
}

fn write_given_memory(line: &mut String, given: &GivenMemory) {
    number(line, given.length as u32);
    number(line, given.default);
    number(line, given.pairs.len() as u32);
    for &(address, word) in &given.pairs {
        number(line, address);
        number(line, word);
    }
}

/// The answer to a case, without its newline.
pub fn answer_case(case: &Case) -> String {
    match case {
        Case::Operation {
            registers,
            operation,
            operand,
        } => {
            let (after, ending, word) = operate(*registers, *operation, *operand);
            let mut line = String::from("op");
            number(&mut line, ending.number());
            number(&mut line, word);
            write_registers(&mut line, &after);
            line
        }
        Case::Run(case) => answer_run(case),
        Case::List(case) => answer_list(case),
        Case::Read(case) => answer_read(case),
    }
}

fn answer_list(case: &ListCase) -> String {
    let (refusal, text) = match case.outcome() {
        Ok(text) => (None, text),
        Err(refusal) => (Some(refusal), Vec::new()),
    };
    let mut line = String::from("list");
    write_refusal(&mut line, refusal);
    line.push(' ');
    // The bytes of a listing are all of the ASCII code.
    line.extend(write_text(&text).into_iter().map(char::from));
    line
}

fn answer_read(case: &ReadCase) -> String {
    let (answer, memory) = case.outcome();
    let mut line = String::from("read");
    write_refusal(&mut line, answer.err());
    write_changes(&mut line, &case.given.words(), &memory);
    line
}

/// The refusal's number, 0 for none, and its line, 0 for none.
fn write_refusal(line: &mut String, refusal: Option<ListingRefusal>) {
    number(line, refusal.map_or(0, ListingRefusal::number));
    number(line, refusal.map_or(0, ListingRefusal::line));
}

fn answer_run(case: &RunCase) -> String {
    let Outcome {
        answer,
        registers,
        memory,
        points,
    } = case.outcome(|registers, memory, points| {
        run(registers, memory, case.loan, case.budget, points)
    });
    let mut line = String::from("run");
    number(&mut line, answer.ending.number());
    number(&mut line, answer.beats);
    number(&mut line, answer.points);
    number(&mut line, answer.ending.address());
    write_registers(&mut line, &registers);
    line.push_str(" P");
    for &point in points.iter().take(answer.points as usize) {
        number(&mut line, point);
    }
    write_changes(&mut line, &case.memory(), &memory);
    line
}

/// "after `M` each memory word that differs from what it was, by rising address, with its new
/// value".
fn write_changes(line: &mut String, before: &[u16], after: &[u16]) {
    line.push_str(" M");
    for (address, (old, new)) in before.iter().zip(after).enumerate() {
        if old != new {
            number(line, address as u32);
            number(line, *new);
        }
    }
}

fn number(line: &mut String, value: impl Into<u64>) {
    // Writing to a string cannot fail.
    let _ = write!(line, " {}", value.into());
}

fn write_registers(line: &mut String, registers: &Registers) {
    number(line, registers.display_address);
    number(line, registers.pushdown_pointer);
    number(line, registers.x);
    number(line, registers.y);
    number(line, registers.state == State::Data);
    number(line, registers.mode);
    number(line, registers.scale);
    number(line, registers.intensity);
    number(line, registers.pen_enable);
    number(line, registers.pen_hold);
    number(line, registers.pen_sense);
    number(line, registers.blink);
    number(line, registers.idle);
    number(line, registers.buttons);
    number(line, registers.hit_bank_1);
    number(line, registers.hit_bank_2);
    number(line, registers.internal_stop_flag);
    number(line, registers.external_stop_flag);
    number(line, registers.vertical_edge_flag);
    number(line, registers.horizontal_edge_flag);
    number(line, registers.pen_flag);
    number(line, registers.manual_interrupt_flag);
    number(line, registers.conditions);
    number(line, registers.running);
    number(line, registers.stop_request);
    number(line, registers.word_is_held);
    number(line, registers.held_word);
    number(line, registers.upper_case);
    number(line, registers.seven_bit_codes);
    number(line, registers.starting_address);
    write_motion(line, &registers.motion);
}

fn write_motion(line: &mut String, motion: &Motion) {
    match motion {
        Motion::Nothing => number(line, 0u32),
        Motion::Line(motion) => {
            number(line, 1u32);
            write_line(line, motion);
        }
        Motion::Bytes(motion) => {
            number(line, 2u32);
            write_bytes(line, motion);
        }
        Motion::Character(motion) => {
            number(line, 3u32);
            number(line, motion.word);
            number(line, motion.seven_bits);
            number(line, motion.side == Side::Right);
            write_stage(line, &motion.stage);
        }
    }
}

fn write_line(line: &mut String, motion: &Line) {
    number(line, motion.y_minus);
    number(line, motion.x_minus);
    number(line, motion.y_magnitude);
    number(line, motion.x_magnitude);
    number(line, motion.moves);
    number(line, motion.done);
    number(line, motion.lit);
    number(line, motion.escape);
    number(line, motion.last_word);
}

fn write_bytes(line: &mut String, motion: &Bytes) {
    number(line, motion.word);
    number(line, motion.side == Side::Right);
    number(line, motion.moves_left);
    number(line, motion.last_word);
}

fn write_stage(line: &mut String, stage: &Stage) {
    match stage {
        Stage::TableWord => number(line, 0u32),
        Stage::RoutineWord(routine) => {
            number(line, 1u32);
            number(line, routine.short_vectors);
            number(line, routine.next);
        }
        Stage::Bytes(motion) => {
            number(line, 2u32);
            write_bytes(line, motion);
        }
        Stage::Line(motion) => {
            number(line, 3u32);
            write_line(line, motion);
        }
    }
}

/// The program: every line of the input answered, in order. The format says that a line ends with
/// a newline, so a last stretch without one is no line of it and is answered as an error.
pub fn replay(mut input: impl BufRead, mut output: impl Write) -> io::Result<()> {
    let mut line = Vec::new();
    let mut line_number: u64 = 0;
    loop {
        line.clear();
        if input.read_until(b'\n', &mut line)? == 0 {
            return output.flush();
        }
        line_number += 1;
        let case = line.strip_suffix(b"\n").and_then(read_case);
        match case {
            Some(case) => writeln!(output, "{}", answer_case(&case))?,
            None => writeln!(output, "error {line_number}")?,
        }
    }
}

#[cfg(test)]
mod tests {
    use super::*;

    const FRESH: &str = "0 0 0 0 0 0 0 0 0 0 0 0 0 0 0 0 0 0 0 0 0 0 0 0 0 0 0 0 0 0 0";

    fn replayed(input: &str) -> String {
        let mut output = Vec::new();
        replay(input.as_bytes(), &mut output).unwrap();
        String::from_utf8(output).unwrap()
    }

    #[test]
    fn the_formats_own_examples() {
        assert_eq!(
            replayed("op 0 0 0 0 0 0 0 0 0 0 0 0 0 0 0 0 0 0 0 0 0 0 0 0 0 0 0 0 0 0 0 1 128\n"),
            "op 0 0 128 0 0 0 0 0 0 0 0 0 0 0 0 0 0 0 0 0 0 0 0 0 0 1 0 0 0 0 0 0 0\n"
        );
        // A word where none is held.
        assert_eq!(
            replayed("op 0 0 0 0 0 0 0 0 0 0 0 0 0 0 0 0 0 0 0 0 0 0 0 0 0 0 5 0 0 0 0 20 0\n"),
            "op 4 0 0 0 0 0 0 0 0 0 0 0 0 0 0 0 0 0 0 0 0 0 0 0 0 0 0 0 5 0 0 0 0\n"
        );
    }

    #[test]
    fn empty_input_writes_nothing() {
        assert_eq!(replayed(""), "");
    }

    #[test]
    fn a_run_answers_points_and_changed_words() {
        // The practice example, and a push jump before it: words at 128 to 131 and 64, 65.
        let case = "run 64 4095 0 0 0 0 0 0 0 0 0 0 0 0 0 0 0 0 0 0 0 0 0 1 0 0 0 0 0 0 0 \
                    100 0 32768 0 32768 8 32768 0 6 64 1032 65 128 128 577 129 2148 130 2248 131 768\n";
        assert_eq!(
            replayed(case),
            "run 12 4 1 0 132 1 200 100 0 0 0 0 0 0 0 0 0 0 0 0 1 0 0 0 0 0 0 0 0 0 0 0 0 0 0 P 2181140680 M 0 66\n"
        );
    }

    #[test]
    fn a_run_that_ends_at_the_fence_answers_the_address() {
        // The same push jump at 64, and the registers that it leaves as they are.
        let registers = "64 4095 0 0 0 0 0 0 0 0 0 0 0 0 0 0 0 0 0 0 0 0 0 1 0 0 0 0 0 0 0";
        for (loan, answer) in [
            ("0 0 0 0", "run 16 0 0 64"),
            ("0 65 0 0", "run 16 0 0 65"),
            ("0 32768 0 4095", "run 19 0 0 4095"),
            ("0 32768 4095 4096", "run 19 0 0 0"),
        ] {
            assert_eq!(
                replayed(&format!(
                    "run {registers} 100 {loan} 8 32768 0 2 64 1032 65 128\n"
                )),
                format!("{answer} {registers} P M\n")
            );
        }
    }

    /// Fresh registers but for the address, the external stop flag, running, request, held and
    /// heldword.
    fn stopping(flag: u32, running: u32, request: u32, held: &str) -> String {
        let before_flag = "64 0 0 0 0 0 0 0 0 0 0 0 0 0 0 0 0";
        format!("{before_flag} {flag} 0 0 0 0 0 {running} {request} {held} 0 0 0 0")
    }

    #[test]
    fn a_stop_answers_the_held_word_and_a_run_uses_it() {
        let answer = |registers: &str, rest: &str| replayed(&format!("run {registers} {rest}\n"));
        // The stop code 1400o is held at 64.
        let asked = stopping(0, 1, 1, "0 0");
        let stopped = stopping(1, 0, 0, "1 768");
        assert_eq!(
            answer(&asked, "9 64 65 0 0 8 32768 0 1 64 768"),
            format!("run 13 0 0 0 {stopped} P M\n")
        );
        // It is 16 and 17 where it can't be fetched, and 11 before that.
        for (rest, numbers) in [
            ("9 65 32768 0 0 8 32768 0 1 64 768", "16 0 0 64"),
            ("9 64 65 0 0 8 32768 0 1 64 4096", "17 0 0 0"),
            ("0 65 32768 0 0 8 32768 0 1 64 768", "11 0 0 0"),
        ] {
            assert_eq!(answer(&asked, rest), format!("run {numbers} {asked} P M\n"));
        }
        // Resumed, it stops the display again from inside, with no word lent and 0 at 64 by now.
        let resumed = stopping(0, 1, 0, "1 768");
        assert_eq!(
            replayed(&format!("op {stopped} 4 0\n")),
            format!("op 0 0 {resumed}\n")
        );
        assert_eq!(
            answer(&resumed, "9 0 0 0 0 8 32768 0 0"),
            "run 12 1 0 0 65 0 0 0 0 0 0 0 0 0 0 0 0 0 0 0 1 0 0 0 0 0 0 0 0 0 0 0 0 0 0 P M\n"
        );
    }

    #[test]
    fn registers_with_an_unfit_held_word_are_refused_in_their_turn() {
        for held in ["0 1", "0 4095", "0 4096", "0 65535", "1 4096", "1 65535"] {
            let registers = stopping(0, 1, 0, held);
            for (rest, refusal) in [
                ("65536 1 0 0 0 8 32767 0 0", 1),
                ("65536 1 0 0 0 8 32768 0 0", 2),
                ("0 1 0 0 0 8 32768 0 0", 3),
                ("0 0 0 0 0 8 32768 0 0", 4),
            ] {
                assert_eq!(
                    replayed(&format!("run {registers} {rest}\n")),
                    format!("run {refusal} 0 0 0 {registers} P M\n")
                );
            }
            for operation in ["1 0", "5 0", "20 0", "99 99"] {
                assert_eq!(
                    replayed(&format!("op {registers} {operation}\n")),
                    format!("op 4 0 {registers}\n")
                );
            }
        }
        for held in ["2 0", "0 65536", "1 65536"] {
            let registers = stopping(0, 1, 0, held);
            assert_eq!(replayed(&format!("op {registers} 1 0\n")), "error 1\n");
        }
    }

    /// Running registers in data state, all else 0 but for the place (the display address, x and
    /// y), the mode, held and heldword, and the motion.
    fn drawing(place: [u32; 3], mode: u32, held: &str, motion: &str) -> String {
        let [address, x, y] = place;
        format!(
            "{address} 0 {x} {y} 1 {mode} 0 0 0 0 0 0 0 0 0 0 0 0 0 0 0 0 0 1 0 {held} 0 0 0 {motion}"
        )
    }

    #[test]
    fn points_and_motions_tell_the_last_word() {
        let lent = "0 32768 0 0 8 32768 0";
        for (given, rest, numbers, left, points) in [
            // A point at 128, 129: 200 + 1,024 times 100 + 2^24 times 129.
            (
                drawing([128, 0, 0], 0, "0 0", "0"),
                format!("1 {lent} 2 128 2148 129 2248"),
                "11 1 1 0",
                "130 0 200 100 0 0 0 0 0 0 0 0 0 0 0 0 0 0 0 0 0 0 0 1 0 0 0 0 0 0 0".into(),
                " 2164363464",
            ),
            // The same at 77777o, whose last word is word 0.
            (
                drawing([32_767, 0, 0], 0, "0 0", "0"),
                format!("1 {lent} 2 32767 2148 0 2248"),
                "11 1 1 0",
                "1 0 200 100 0 0 0 0 0 0 0 0 0 0 0 0 0 0 0 0 0 0 0 1 0 0 0 0 0 0 0".into(),
                " 102600",
            ),
            // A vector there, before its first move and after it.
            (
                drawing([32_767, 0, 0], 2, "0 0", "0"),
                format!("1 {lent} 2 32767 2049 0 2050"),
                "11 1 0 0",
                drawing([1, 0, 0], 2, "0 0", "1 0 0 1 2 2 0 1 1 0"),
                "",
            ),
            (
                drawing([5, 0, 0], 2, "0 0", "1 0 0 1 2 2 0 1 1 32766"),
                format!("1 {lent} 0"),
                "11 1 1 0",
                drawing([5, 1, 1], 2, "0 0", "1 0 0 1 2 2 1 1 1 32766"),
                " 549722260481",
            ),
            // Both bytes of an increment word, and the motion between them.
            (
                drawing([128, 0, 0], 1, "0 0", "0"),
                format!("3 {lent} 1 128 2601"),
                "11 3 2 0",
                drawing([129, 2, 1], 1, "0 0", "0"),
                " 2147483649 2147484674",
            ),
            (
                drawing([128, 0, 0], 1, "0 0", "0"),
                format!("2 {lent} 1 128 2601"),
                "11 2 1 0",
                drawing([129, 1, 0], 1, "0 0", "2 2601 1 1 128"),
                " 2147483649",
            ),
            // A held graphplot word, whatever lies at its address by now.
            (
                drawing([128, 0, 0], 6, "1 7", "0"),
                "1 0 0 0 0 8 32768 0 1 128 5".into(),
                "11 1 1 0",
                drawing([129, 1, 7], 6, "0 0", "0"),
                " 2147490817",
            ),
        ] {
            assert_eq!(
                replayed(&format!("run {given} {rest}\n")),
                format!("run {numbers} {left} P{points} M\n")
            );
        }
    }

    #[test]
    fn the_greatest_entry_is_2_to_the_39_less_1() {
        // Intensity 7 and blink, one move right to the far corner, word 77777o.
        let given = "5 0 1022 1023 1 4 0 7 0 0 0 1 0 0 0 0 0 0 0 0 0 0 0 1 0 0 0 0 0 0 \
                     1 0 0 0 1 1 0 1 0 32767";
        let left = "5 0 1023 1023 1 4 0 7 0 0 0 1 0 0 0 0 0 0 0 0 0 0 0 1 0 0 0 0 0 0 0";
        assert_eq!(
            replayed(&format!("run {given} 1 0 0 0 0 1 32768 0 0\n")),
            format!("run 11 1 1 0 {left} P 549755813887 M\n")
        );
    }

    #[test]
    fn a_motion_with_an_unfit_last_word_is_refused_in_its_turn() {
        for last_word in [32_768, 32_769, 65_535] {
            for (mode, motion) in [(2, "1 0 0 0 1 1 0 1 1"), (1, "2 512 0 1")] {
                let given = drawing([128, 0, 0], mode, "0 0", &format!("{motion} {last_word}"));
                assert_eq!(
                    replayed(&format!("op {given} 99 99\n")),
                    format!("op 4 0 {given}\n")
                );
                for (rest, refusal) in [
                    ("65536 1 0 0 0 8 32767 0 0", 1),
                    ("65536 1 0 0 0 8 32768 0 0", 2),
                    ("0 1 0 0 0 8 32768 0 0", 3),
                    ("0 0 0 0 0 8 32768 0 0", 4),
                ] {
                    assert_eq!(
                        replayed(&format!("run {given} {rest}\n")),
                        format!("run {refusal} 0 0 0 {given} P M\n")
                    );
                }
            }
        }
    }

    /// Registers in data state and mode 5 at 192, the beam at (100,200), the table at 06000o, but for
    /// running and the motion.
    fn writing(running: u32, motion: &str) -> String {
        let before = "192 0 100 200 1 5 0 3 0 0 0 0 0 0 0 0 0 0 0 0 0 0 0";
        format!("{before} {running} 0 0 0 0 0 6 {motion}")
    }

    #[test]
    fn characters_are_read_and_written_in_every_stage() {
        for motion in [
            "3 4095 1 1 0",
            "3 0 0 0 1 0 0",
            "3 581 0 1 1 1 32767",
            "3 581 1 0 2 2592 0 1 3208",
            "3 581 0 0 2 24 1 3 32767",
            "3 581 0 1 3 1 0 1023 16 1023 1022 1 0 4",
        ] {
            let given = writing(1, motion);
            assert_eq!(
                replayed(&format!("op {given} 20 0\n")),
                format!("op 0 0 {given}\n")
            );
        }
    }

    #[test]
    fn characters_out_of_range_are_refused_in_their_turn() {
        for motion in [
            "3 4096 0 0 0",
            "3 65535 1 1 0",
            "3 581 0 0 1 0 32768",
            "3 581 0 0 1 1 65535",
            "3 581 0 0 2 4096 0 1 4",
            "3 581 0 0 2 2592 0 0 4",
            "3 581 0 0 2 2592 0 2 4",
            "3 581 0 0 2 2592 0 1 32768",
            "3 581 0 0 3 0 0 1024 0 1024 0 1 0 4",
            "3 581 0 0 3 0 0 0 1024 1024 0 1 0 4",
            "3 581 0 0 3 0 0 1 2 3 0 1 0 4",
            "3 581 0 0 3 0 0 1 2 1 0 1 0 4",
            "3 581 0 0 3 0 0 1 2 2 2 1 0 4",
            "3 581 0 0 3 0 0 0 0 0 0 1 0 4",
            "3 581 0 0 3 0 0 1 2 2 1 1 0 32768",
        ] {
            let given = writing(1, motion);
            for operation in ["20 0", "30 448", "31 1", "99 99"] {
                assert_eq!(
                    replayed(&format!("op {given} {operation}\n")),
                    format!("op 4 0 {given}\n")
                );
            }
            for (rest, refusal) in [
                ("65536 1 0 0 0 8 32767 0 0", 1),
                ("65536 1 0 0 0 8 32768 0 0", 2),
                ("0 1 0 0 0 8 32768 0 0", 3),
                ("0 0 0 0 0 8 32768 0 0", 4),
            ] {
                assert_eq!(
                    replayed(&format!("run {given} {rest}\n")),
                    format!("run {refusal} 0 0 0 {given} P M\n")
                );
            }
        }
        for (sar, answer) in [(63, "op 0 0"), (64, "op 4 0"), (255, "op 4 0")] {
            let given = with_number(29, &sar.to_string()).replace(" 10 0", "");
            let given = given.strip_prefix("op ").unwrap();
            assert_eq!(
                replayed(&format!("op {given} 20 0\n")),
                format!("{answer} {given}\n")
            );
        }
    }

    #[test]
    fn a_character_is_written_and_answered() {
        // The word 0101o: its table word 0210o leads to 06210o, where 5040o is two moves right.
        let memory = "32768 0 3 192 65 3073 136 3208 2592";
        let points = "53824659557 53824659558 53824659559 53824659560";
        let after = "193 0 104 200 1 5 0 3 0 0 0 0 0 0 0 0 0 0 0 0 0 0 0 1 0 0 0 0 0 6 0";
        assert_eq!(
            replayed(&format!(
                "run {} 9 0 32768 0 0 8 {memory}\n",
                writing(1, "0")
            )),
            format!("run 11 9 4 0 {after} P {points} M\n")
        );
        // The table word and the routine word are not lent.
        let character = writing(1, "3 65 0 1 0").replacen("192", "193", 1);
        assert_eq!(
            replayed(&format!("run {character} 9 0 3073 3074 3075 8 {memory}\n")),
            format!("run 16 0 0 3073 {character} P M\n")
        );
        let routine = writing(1, "3 65 0 1 1 0 3208").replacen("192", "193", 1);
        assert_eq!(
            replayed(&format!("run {character} 9 0 3208 0 0 8 {memory}\n")),
            format!("run 16 1 0 3208 {routine} P M\n")
        );
    }

    #[test]
    fn refused_runs_write_nothing_after_p_and_m() {
        let line = |registers: &str, rest: &str| replayed(&format!("run {registers} {rest}\n"));
        let answer = |number: u32| format!("run {number} 0 0 0 {FRESH} P M\n");
        assert_eq!(line(FRESH, "0 0 0 0 0 0 32767 0 0"), answer(1));
        assert_eq!(line(FRESH, "0 0 0 0 0 0 32769 0 1 32768 5"), answer(1));
        assert_eq!(line(FRESH, "0 0 0 0 0 0 0 0 0"), answer(1));
        assert_eq!(line(FRESH, "65536 0 0 0 0 0 32768 0 0"), answer(2));
        assert_eq!(line(FRESH, "4294967295 0 0 0 0 0 32768 0 0"), answer(2));
        assert_eq!(line(FRESH, "0 1 0 0 0 0 32768 0 0"), answer(3));
        assert_eq!(line(FRESH, "0 0 0 0 65535 0 32768 0 0"), answer(3));
        assert_eq!(line(FRESH, "0 0 0 0 0 0 32768 0 0"), answer(10));
        let bad = FRESH.replacen('0', "32768", 1);
        assert_eq!(
            line(&bad, "0 0 0 0 0 0 32768 0 0"),
            format!("run 4 0 0 0 {bad} P M\n")
        );
    }

    #[test]
    fn lines_that_are_no_case() {
        let good_run = format!("run {FRESH} 0 0 0 0 0 0 32768 0 1 5 6");
        let good_op = format!("op {FRESH} 10 0");
        assert!(read_case(&good_run).is_some());
        assert!(read_case(&good_op).is_some());
        let bad = [
            String::new(),
            " ".into(),
            "op".into(),
            "run".into(),
            "OP".into(),
            format!(" {good_op}"),
            format!("{good_op} "),
            format!("{good_op} 0"),
            format!("{good_op}\r"),
            good_op.replace(" 10 0", " 10"),
            good_op.replace(" 10 0", " 10  0"),
            good_op.replace(" 10 0", " +10 0"),
            good_op.replace(" 10 0", " -1 0"),
            good_op.replace(" 10 0", " 0x1 0"),
            good_op.replace(" 10 0", " 1\t0"),
            good_op.replace(" 10 0", " 4294967296 0"),
            good_op.replace(" 10 0", " 10 4294967296"),
            good_op.replace(" 10 0", " 10 99999999999999999999999999"),
            good_op.replace(" 10 0", " 10 \u{0661}"),
            good_op.replace("op ", "run "),
            good_run.replace("run ", "op "),
            good_run.replace(" 1 5 6", " 2 5 6"),
            good_run.replace(" 1 5 6", " 0 5 6"),
            good_run.replace(" 1 5 6", " 1 5"),
            good_run.replace(" 1 5 6", " 1 5 65536"),
            good_run.replace(" 1 5 6", " 1 32768 6"),
            good_run.replace(" 1 5 6", " 99999999999 5 6"),
            good_run.replace(" 0 32768 0 1", " 65537 32768 0 1"),
            good_run.replace(" 0 32768 0 1", " 0 32770 0 1"),
            good_run.replace(" 0 32768 0 1", " 0 32768 65536 1"),
        ];
        for line in &bad {
            assert_eq!(read_case(line), None, "{line:?}");
        }
    }

    /// The fresh registers with one of the 31 texts replaced.
    fn with_number(place: usize, text: &str) -> String {
        let mut numbers: Vec<&str> = FRESH.split(' ').collect();
        numbers[place] = text;
        format!("op {} 10 0", numbers.join(" "))
    }

    #[test]
    fn each_register_has_its_width() {
        let sixteen = [0, 1, 2, 3, 13, 22, 26];
        let eight = [5, 6, 7, 29];
        for place in 0..30 {
            let greatest = if sixteen.contains(&place) {
                65_535
            } else if eight.contains(&place) {
                255
            } else {
                1
            };
            assert!(
                read_case(&with_number(place, &greatest.to_string())).is_some(),
                "{place}"
            );
            assert!(
                read_case(&with_number(place, &(greatest + 1).to_string())).is_none(),
                "{place}"
            );
        }
        for (motion, is_case) in [
            ("3", false),
            ("4", false),
            ("0 0", false),
            ("1 0 0 0 0 0 0 0 0", false),
            ("1 0 0 0 0 0 0 0 0 0 0", false),
            ("1 1 1 65535 65535 65535 65535 1 1 65535", true),
            ("1 2 1 65535 65535 65535 65535 1 1 65535", false),
            ("1 1 2 65535 65535 65535 65535 1 1 65535", false),
            ("1 1 1 65536 65535 65535 65535 1 1 65535", false),
            ("1 1 1 65535 65536 65535 65535 1 1 65535", false),
            ("1 1 1 65535 65535 65536 65535 1 1 65535", false),
            ("1 1 1 65535 65535 65535 65536 1 1 65535", false),
            ("1 1 1 65535 65535 65535 65535 2 1 65535", false),
            ("1 1 1 65535 65535 65535 65535 1 2 65535", false),
            ("1 1 1 65535 65535 65535 65535 1 1 65536", false),
            ("2 65535 1 65535 65535", true),
            ("2 65536 1 255 65535", false),
            ("2 65535 2 255 65535", false),
            ("2 65535 1 65536 65535", false),
            ("2 65535 1 255 65536", false),
            ("2 0 0 0", false),
            ("2 0 0 0 0 0", false),
            ("3 65535 1 1 0", true),
            ("3 65536 1 1 0", false),
            ("3 65535 2 1 0", false),
            ("3 65535 1 2 0", false),
            ("3 65535 1 1 4", false),
            ("3 0 0 0", false),
            ("3 0 0 0 0 0", false),
            ("3 65535 1 1 1 1 65535", true),
            ("3 0 0 0 1 2 65535", false),
            ("3 0 0 0 1 1 65536", false),
            ("3 0 0 0 1 0", false),
            ("3 0 0 0 1 0 0 0", false),
            ("3 0 0 0 2 65535 1 65535 65535", true),
            ("3 0 0 0 2 65536 1 65535 65535", false),
            ("3 0 0 0 2 65535 2 65535 65535", false),
            ("3 0 0 0 2 65535 1 65536 65535", false),
            ("3 0 0 0 2 65535 1 65535 65536", false),
            ("3 0 0 0 2 0 0 0", false),
            ("3 0 0 0 2 0 0 0 0 0", false),
            ("3 0 0 0 3 1 1 65535 65535 65535 65535 1 1 65535", true),
            ("3 0 0 0 3 2 1 65535 65535 65535 65535 1 1 65535", false),
            ("3 0 0 0 3 1 2 65535 65535 65535 65535 1 1 65535", false),
            ("3 0 0 0 3 1 1 65536 65535 65535 65535 1 1 65535", false),
            ("3 0 0 0 3 1 1 65535 65536 65535 65535 1 1 65535", false),
            ("3 0 0 0 3 1 1 65535 65535 65536 65535 1 1 65535", false),
            ("3 0 0 0 3 1 1 65535 65535 65535 65536 1 1 65535", false),
            ("3 0 0 0 3 1 1 65535 65535 65535 65535 2 1 65535", false),
            ("3 0 0 0 3 1 1 65535 65535 65535 65535 1 2 65535", false),
            ("3 0 0 0 3 1 1 65535 65535 65535 65535 1 1 65536", false),
            ("3 0 0 0 3 0 0 0 0 0 0 0 0", false),
            ("3 0 0 0 3 0 0 0 0 0 0 0 0 0 0", false),
        ] {
            assert_eq!(
                read_case(&with_number(30, motion)).is_some(),
                is_case,
                "{motion}"
            );
        }
    }

    #[test]
    fn leading_zeros_are_accepted() {
        let line = format!("op {FRESH} 0000000000000000000000000001 0128\n");
        assert_eq!(replayed(&line), replayed(&format!("op {FRESH} 1 128\n")));
    }

    #[test]
    fn errors_count_lines_and_reading_goes_on() {
        let good = format!("op {FRESH} 20 0");
        let input = format!("nonsense\n{good}\n\n{good}");
        let answer = format!("op 0 0 {FRESH}");
        assert_eq!(
            replayed(&input),
            format!("error 1\n{answer}\nerror 3\nerror 4\n")
        );
        let mut output = Vec::new();
        replay(&b"op \xff\n"[..], &mut output).unwrap();
        assert_eq!(output, b"error 1\n");
    }

    #[test]
    fn a_later_pair_wins() {
        let case = read_case(&format!("run {FRESH} 0 0 0 0 0 0 32768 3 2 5 6 5 7")).unwrap();
        match case {
            Case::Run(case) => {
                let memory = case.memory();
                assert_eq!((memory[4], memory[5], memory.len()), (3, 7, 32_768));
            }
            _ => panic!("a run was expected"),
        }
    }

    /// 01's example as a listing, and back.
    const LISTING: &str = "00200 1101 POINT EDS|00201 4144|00202 4310|00203 1400 STOP|";

    #[test]
    fn words_are_listed() {
        for (case, answer) in [
            (
                "128 132 0 0 100000 32768 0 4 128 577 129 2148 130 2248 131 768",
                format!("0 0 {LISTING}"),
            ),
            // The text just fits, and is one byte too long.
            (
                "128 132 0 0 59 32768 0 4 128 577 129 2148 130 2248 131 768",
                format!("0 0 {LISTING}"),
            ),
            (
                "128 132 0 0 58 32768 0 4 128 577 129 2148 130 2248 131 768",
                "23 0 -".into(),
            ),
            // From data state, and at the end of memory.
            ("32767 32768 1 7 11 32768 768 0", "0 0 77777 1400|".into()),
            // No words, no text.
            ("5 5 0 0 0 32768 65535 0", "0 0 -".into()),
            ("32768 32768 0 0 1500000 32768 0 0", "0 0 -".into()),
            // The refusals in order.
            ("1 0 2 8 0 32767 65535 0", "1 0 -".into()),
            ("0 0 0 0 0 0 0 0", "1 0 -".into()),
            ("1 0 2 8 0 32768 65535 0", "3 0 -".into()),
            ("0 65535 2 8 0 32768 65535 0", "3 0 -".into()),
            ("0 1 255 0 0 32768 65535 0", "6 0 -".into()),
            ("0 1 1 255 0 32768 65535 0", "6 0 -".into()),
            ("0 1 1 7 0 32768 65535 0", "24 0 -".into()),
            ("0 1 1 7 0 32768 0 1 1 65535", "23 0 -".into()),
        ] {
            assert_eq!(
                replayed(&format!("list {case}\n")),
                format!("list {answer}\n"),
                "{case}"
            );
        }
    }

    #[test]
    fn listings_are_read() {
        for (case, answer) in [
            (
                format!("128 132 0 0 32768 0 0 ; {LISTING}"),
                "0 0 M 128 577 129 2148 130 2248 131 768",
            ),
            // A word that was there is no change, and a word that is too wide is not looked at.
            (
                format!("128 132 0 0 32768 65535 2 129 2148 131 0 ; {LISTING}"),
                "0 0 M 128 577 130 2248 131 768",
            ),
            (format!("128 131 0 0 32768 0 0 ; {LISTING}"), "7 4 M"),
            (format!("128 133 0 0 32768 0 0 ; {LISTING}"), "7 5 M"),
            (format!("128 132 0 0 32768 0 0 ; {LISTING}|"), "7 5 M"),
            (format!("128 132 0 0 32768 0 0 ; {LISTING};"), "7 5 M"),
            (format!("128 132 1 0 32768 0 0 ; {LISTING}"), "7 1 M"),
            // The refusals in order.
            (format!("1 0 2 8 32769 0 0 ; {LISTING}"), "1 0 M"),
            (format!("1 0 2 8 32768 0 0 ; {LISTING}"), "3 0 M"),
            (format!("0 32769 2 8 32768 0 0 ; {LISTING}"), "3 0 M"),
            (format!("0 1 2 7 32768 0 0 ; {LISTING}"), "6 0 M"),
            (format!("0 1 1 8 32768 0 0 ; {LISTING}"), "6 0 M"),
            (format!("0 1 1 7 32768 0 0 ; {LISTING}"), "7 1 M"),
            // Three ways to write no text.
            ("0 0 0 0 32768 0 0 ;".into(), "0 0 M"),
            ("0 0 0 0 32768 0 0 ; ".into(), "0 0 M"),
            ("0 0 0 0 32768 0 0 ; -".into(), "0 0 M"),
            ("0 1 0 0 32768 0 0 ; -".into(), "7 1 M"),
            // These are texts.
            ("0 0 0 0 32768 0 0 ;  ".into(), "7 1 M"),
            ("0 0 0 0 32768 0 0 ; - ".into(), "7 1 M"),
            ("0 0 0 0 32768 0 0 ;  -".into(), "7 1 M"),
            ("0 0 0 0 32768 0 0 ; |".into(), "7 1 M"),
            ("0 0 0 0 32768 0 0 ; -|".into(), "7 1 M"),
            ("0 1 0 0 32768 0 0 ; 00000 0000|\r".into(), "7 2 M"),
        ] {
            assert_eq!(
                replayed(&format!("read {case}\n")),
                format!("read {answer}\n"),
                "{case}"
            );
        }
    }

    #[test]
    fn a_text_may_have_any_byte() {
        let mut output = Vec::new();
        let input = b"read 0 1 0 0 32768 0 0 ; 00000 0000|\xff\nread \xff ; 00000 0000|\n";
        replay(&input[..], &mut output).unwrap();
        assert_eq!(output, b"read 7 2 M\nerror 2\n");
    }

    #[test]
    fn a_line_with_the_longest_listing_is_taken() {
        let listing: String = (0..32_768)
            .map(|address| format!("{address:05o} 6277 SKIP SNSZ SPB1 SPB2 SLPSI CLPSI|"))
            .collect();
        assert_eq!(
            replayed("list 0 32768 0 0 1409024 32768 3263 0\n"),
            format!("list 0 0 {listing}\n")
        );
        assert_eq!(
            replayed("list 0 32768 0 0 1409023 32768 3263 0\n"),
            "list 23 0 -\n"
        );
        assert_eq!(
            replayed(&format!("read 0 32768 0 0 32768 3263 1 9 0 ; {listing}\n")),
            "read 0 0 M 9 3263\n"
        );
    }

    #[test]
    fn lines_that_are_no_case_of_a_listing() {
        let good_list = "list 0 1 0 0 11 32768 0 1 5 6";
        let good_read = "read 0 1 0 0 32768 0 1 5 6 ; 00000 0000|";
        assert!(read_case(good_list).is_some());
        assert!(read_case(good_read).is_some());
        let leading_zeros = "list 00 01 00 000 0011 032768 00 01 05 06";
        assert_eq!(read_case(leading_zeros), read_case(good_list));
        let bad = [
            "list".to_owned(),
            "list ".into(),
            "lis 0 1 0 0 11 32768 0 0".into(),
            format!("{good_list} "),
            format!(" {good_list}"),
            format!("{good_list} 7"),
            format!("{good_list}\r"),
            format!("{good_list} ; -"),
            good_list.replace("list ", "list  "),
            good_list.replace("list ", "read "),
            good_list.replace("0 1 0 0", "65536 1 0 0"),
            good_list.replace("0 1 0 0", "0 65536 0 0"),
            good_list.replace("0 1 0 0", "0 1 256 0"),
            good_list.replace("0 1 0 0", "0 1 0 256"),
            good_list.replace(" 11 ", " 1500001 "),
            good_list.replace(" 32768 ", " 32770 "),
            good_list.replace(" 32768 ", " 5 "),
            good_list.replace(" 32768 0 ", " 32768 65536 "),
            good_list.replace(" 1 5 6", " 2 5 6"),
            good_list.replace(" 1 5 6", " 0 5 6"),
            good_list.replace(" 1 5 6", " 1 5 65536"),
            good_list.replace(" 1 5 6", " 1 32768 6"),
            good_list.replace(" 1 5 6", ""),
            "read".into(),
            "read ".into(),
            "read ;".into(),
            "read ; -".into(),
            "reads 0 1 0 0 32768 0 0 ; -".into(),
            "run 0 1 0 0 32768 0 0 ; -".into(),
            "read 0 1 0 0 32768 0 0".into(),
            "read 0 1 0 0 32768 0 0 ".into(),
            "read 0 1 0 0 32768 0 0;".into(),
            "read 0 1 0 0 32768 0 0; -".into(),
            "read 0 1 0 0 32768 0 0  ; -".into(),
            "read 0 1 0 0 32768 0 0 ;-".into(),
            "read 0 1 0 0 32768 0 0 ;\t-".into(),
            "read 0 1 0 0 32768 0 ; 0 ; -".into(),
            format!(" {good_read}"),
            good_read.replace("read ", "list "),
            good_read.replace("read 0 1 0 0", "read 65536 1 0 0"),
            good_read.replace("read 0 1 0 0", "read 0 65536 0 0"),
            good_read.replace("read 0 1 0 0", "read 0 1 256 0"),
            good_read.replace("read 0 1 0 0", "read 0 1 0 256"),
            good_read.replace("read 0 1 0 0", "read 0 1 0 0 11"),
            good_read.replace(" 32768 ", " 32770 "),
            good_read.replace(" 32768 0 ", " 32768 65536 "),
            good_read.replace(" 1 5 6 ;", " 2 5 6 ;"),
            good_read.replace(" 1 5 6 ;", " 0 5 6 ;"),
            good_read.replace(" 1 5 6 ;", " 1 5 65536 ;"),
            good_read.replace(" 1 5 6 ;", " 1 32768 6 ;"),
        ];
        for line in &bad {
            assert_eq!(read_case(line), None, "{line:?}");
        }
        // The greatest numbers that a line may have.
        for good in [
            "list 65535 65535 255 255 1500000 32769 65535 1 32768 65535",
            "read 65535 65535 255 255 32769 65535 1 32768 65535 ; -",
        ] {
            assert!(read_case(good).is_some(), "{good}");
        }
    }
}
