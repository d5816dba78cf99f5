//! The proved calls against the second simulator's, on generated cases, and on every word listed
//! and read. A row has its numbers in the order of the replay format, so both are compared as lines
//! of that format.

use std::fmt::Display;

use eveglome::{list, operate, place, read, run, Loan, Refusal, Row, Stretch};
use second::generate::{cases_of_all_memory, cases_of_every_word, next_case, Chance};
use second::replay::{answer_case, write_case, Case, ListCase, ReadCase, RunCase};
use second::LoanRange;

const CASES: usize = 5_000;

/// How many numbers of a row the format writes: up to the last place of the kind of motion, of a
/// character that of its stage.
fn written(row: &Row) -> usize {
    let last = match (row.0[place::MOTION], row.0[place::CHARACTER_STAGE]) {
        (0, _) => place::MOTION,
        (1, _) => place::LINE_LAST_WORD,
        (2, _) => place::BYTES_LAST_WORD,
        (_, 0) => place::CHARACTER_STAGE,
        (_, 1) => place::ROUTINE_NEXT,
        (_, 2) => place::ROUTINE_BYTES_LAST_WORD,
        _ => place::ROUTINE_LINE_LAST_WORD,
    };
    last + 1
}

/// The line of a case. A listing that is read may have any byte.
fn written_case(case: &Case) -> String {
    String::from_utf8_lossy(&write_case(case)).into_owned()
}

/// The row of the registers that a case begins with.
fn row_of(case: &Case) -> Row {
    let line = written_case(case);
    let numbers = line.split(' ').skip(1);
    let mut row = Row([0; place::ROW]);
    for (place, number) in row.0.iter_mut().zip(numbers) {
        *place = number.parse().unwrap_or(0);
    }
    // Behind the registers stand other numbers of the case.
    let count = written(&row);
    row.0[count..].fill(0);
    row
}

/// A line of the format: a name, and each number after a space.
fn line<N: Display>(name: &str, numbers: impl IntoIterator<Item = N>) -> String {
    let mut text = name.to_string();
    for number in numbers {
        text.push_str(&format!(" {number}"));
    }
    text
}

fn registers(row: &Row) -> impl Iterator<Item = u32> + '_ {
    let count = written(row);
    row.0[..count].iter().map(|&number| u32::from(number))
}

fn answer_operation(row: &mut Row, operation: u32, operand: u32) -> String {
    let answer = operate(row, operation, operand);
    assert_eq!((answer.beats, answer.points, answer.address), (0, 0, 0));
    line(
        "op",
        [answer.ending, answer.word]
            .into_iter()
            .chain(registers(row)),
    )
}

fn answer_run(row: &mut Row, case: &RunCase) -> String {
    let loan = Loan {
        file_low: case.loan.file.low,
        file_high: case.loan.file.high,
        list_low: case.loan.list.low,
        list_high: case.loan.list.high,
    };
    let before = case.memory();
    let mut memory = before.clone();
    let mut points = vec![0; case.room];
    let answer = run(row, loan, &mut memory, &mut points, case.budget);
    assert_eq!(answer.word, 0);
    let (lit, dark) = points.split_at(answer.points as usize);
    assert!(dark.iter().all(|&point| point == 0));
    let ended = [answer.ending, answer.beats, answer.points, answer.address];
    line("run", ended.into_iter().chain(registers(row)))
        + &line(" P", lit.iter().copied())
        + &changes(&before, &memory)
}

/// The words that differ, each with its address.
fn changes(before: &[u16], after: &[u16]) -> String {
    let changed = (0..)
        .zip(before.iter().zip(after))
        .filter(|(_, (old, new))| old != new)
        .flat_map(|(address, (_, &new))| [address, u32::from(new)]);
    line(" M", changed)
}

fn stretch(range: LoanRange, state: u8, mode: u8) -> Stretch {
    Stretch {
        low: range.low.into(),
        high: range.high.into(),
        state: state.into(),
        mode: mode.into(),
    }
}

/// The refusal and its line, 0 and 0 where there is none.
fn refusal<T>(answer: Result<T, Refusal>) -> [u32; 2] {
    answer.map_or_else(|refusal| [refusal.number, refusal.line], |_| [0, 0])
}

/// The format has `|` for a newline, and `-` for no text.
fn answer_list(case: &ListCase) -> String {
    let mut text = vec![u8::MAX; case.room];
    let stretch = stretch(case.range, case.state, case.mode);
    let answer = list(&case.given.words(), stretch, &mut text);
    let (lines, rest) = text.split_at(answer.unwrap_or(0));
    assert!(rest.iter().all(|&byte| byte == u8::MAX));
    let lines = match lines {
        [] => "-".to_string(),
        _ => String::from_utf8_lossy(lines).replace('\n', "|"),
    };
    line("list", refusal(answer)) + " " + &lines
}

fn answer_read(case: &ReadCase) -> String {
    let before = case.given.words();
    let mut memory = before.clone();
    let stretch = stretch(case.range, case.state, case.mode);
    let answer = read(&case.text, &mut memory, stretch);
    line("read", refusal(answer)) + &changes(&before, &memory)
}

fn check(case: &Case) {
    let answer = match case {
        Case::Operation {
            operation, operand, ..
        } => answer_operation(&mut row_of(case), *operation, *operand),
        Case::Run(run) => answer_run(&mut row_of(case), run),
        Case::List(list) => answer_list(list),
        Case::Read(read) => answer_read(read),
    };
    assert_eq!(answer, answer_case(case), "case: {}", written_case(case));
}

#[test]
fn the_second_simulator_answers_alike() {
    let mut chance = Chance::new(338);
    for _ in 0..CASES {
        check(&next_case(&mut chance));
    }
}

#[test]
fn the_second_simulator_lists_and_reads_every_word_alike() {
    cases_of_every_word().iter().for_each(check);
    cases_of_all_memory().iter().for_each(check);
}
