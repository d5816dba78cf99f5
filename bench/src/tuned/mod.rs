//! A simulator of runs tuned for speed: the yardstick of the proved run.
//!
//! It takes and answers what `second::run` does, by the same rules of documents 01 and 02, with all
//! of a run's state in a few machine words:
//!
//! - the beam is one number, so that a move is one addition and an edge one test (`beam.rs`);
//! - pen, scale, mode and intensity are one number, laid out as a push stores them (`display.rs`);
//! - what no beat changes (stop request, pen hold, conditions) is looked at once, not in each turn;
//! - a held word is used before the loop of commands, which only fetches;
//! - a line or a byte makes its moves in a loop of its own, with no division in it;
//! - text goes on from word to word in a loop of its own, and so does each routine (`characters.rs`);
//! - what all points of a command have in common, its last word too, is put together once.

mod beam;
mod characters;
mod control;
mod data;
mod display;
mod lent;

use std::convert::Infallible;
use std::mem;

use beam::Paper;
use display::Display;
use lent::{Lent, WORDS};
use second::{Answer, Ending, Loan, Motion, Registers};

const GREATEST_BUDGET: u32 = 65_535;

/// A run, refused or made: what `second::run` does.
pub fn run(
    registers: &mut Registers,
    memory: &mut [u16],
    loan: Loan,
    budget: u32,
    points: &mut [u64],
) -> Answer {
    let Ok(words) = <&mut [u16; WORDS]>::try_from(memory) else {
        return Answer::without_beats(Ending::MemoryLength);
    };
    if budget > GREATEST_BUDGET {
        return Answer::without_beats(Ending::BudgetTooLarge);
    }
    if !loan.is_in_form() {
        return Answer::without_beats(Ending::BadLoan);
    }
    if !registers.are_in_range() {
        return Answer::without_beats(Ending::RegistersOutOfRange);
    }
    if !registers.running {
        return Answer::without_beats(Ending::NotRunning);
    }
    let mut now = Display::new(registers, budget);
    let Err(ending) = turns(&mut now, registers, &mut Lent::new(words, loan), points);
    now.leave(registers);
    Answer {
        ending,
        beats: budget - now.progress.left,
        points: now.progress.lit as u32,
    }
}

/// The turns of an accepted run on a running display, to the ending.
#[inline(always)]
fn turns(
    now: &mut Display,
    registers: &mut Registers,
    lent: &mut Lent,
    points: &mut [u64],
) -> Result<Infallible, Ending> {
    let paper = Paper::new(registers);
    match mem::replace(&mut registers.motion, Motion::Nothing) {
        Motion::Nothing => {}
        Motion::Line(line) => data::trace(now, registers, paper, points, line)?,
        Motion::Bytes(bytes) => data::increments(now, registers, paper, points, bytes)?,
        Motion::Character(character) => {
            let text = characters::Text {
                now: *now,
                registers,
                fetches: lent.fetches(),
                paper,
                points,
            };
            let made;
            (*now, made) = characters::rest_of_word(text, character);
            made?
        }
    }
    if now.progress.left == 0 {
        return Err(Ending::BudgetSpent);
    }
    if registers.stop_request {
        // A second stop keeps the held word, and a first one that cannot fetch it is not made.
        if !registers.word_is_held {
            registers.hold(lent.fetch(now.address)? as u16);
        }
        registers.stop_request = false;
        registers.external_stop_flag = true;
        registers.running = false;
        return Err(Ending::ExternalStop);
    }
    // The first command beat ends hold and uses a held word, and nothing in the rest of a run brings
    // either back. Where no command beat is made, hold, pen and held word stay as they are.
    let held = now.hold_to_end(registers);
    let Err(ending) = commands(now, registers, lent, paper, points);
    if now.end_hold(registers, held) {
        registers.drop_held_word();
    }
    Err(ending)
}

/// Command beats, each with the moves that it begins, to the ending.
#[inline(always)]
fn commands(
    now: &mut Display,
    registers: &mut Registers,
    lent: &mut Lent,
    paper: Paper,
    points: &mut [u64],
) -> Result<Infallible, Ending> {
    if let Some(word) = registers.held() {
        let made;
        (*now, made) = held_command(*now, registers, lent.again(), paper, points, word);
        made?;
    }
    while now.progress.left > 0 {
        if now.data {
            data::beats(now, registers, lent, paper, points, None)?;
        } else {
            control::beat(now, registers, lent, None)?;
        }
    }
    Err(Ending::BudgetSpent)
}

/// A command with a held first word. It stands apart and takes copies, so that what the loop changes
/// need not be in memory.
#[cold]
#[inline(never)]
fn held_command(
    now: Display,
    registers: &mut Registers,
    lent: Lent,
    paper: Paper,
    points: &mut [u64],
    word: u16,
) -> (Display, Result<(), Ending>) {
    let (mut now, mut lent) = (now, lent);
    let held = Some(u32::from(word));
    let made = if now.data {
        data::beats(&mut now, registers, &lent, paper, points, held)
    } else {
        control::beat(&mut now, registers, &mut lent, held)
    };
    (now, made)
}

#[cfg(test)]
mod tests {
    use super::*;
    use second::generate::{next_case, Chance};
    use second::replay::{Case, GivenMemory, Outcome, RunCase};
    use second::{Character, LoanRange, Routine, Side, Stage, State};

    type Run = fn(&mut Registers, &mut [u16], Loan, u32, &mut [u64]) -> Answer;

    fn outcome(case: &RunCase, run: Run) -> Outcome {
        case.outcome(|registers, memory, points| {
            run(registers, memory, case.loan, case.budget, points)
        })
    }

    /// What the tuned simulator leaves, which is what the second one leaves.
    fn same_outcome(case: &RunCase) -> Outcome {
        let left = outcome(case, run);
        assert_eq!(left, outcome(case, second::run), "{case:?}");
        left
    }

    #[test]
    fn it_answers_as_the_second_simulator() {
        let mut chance = Chance::new(7);
        let (mut runs, mut stops, mut held, mut unfinished) = (0, 0, 0, 0);
        let (mut given, mut left_over) = (0, 0);
        while runs < 50_000 {
            if let Case::Run(case) = next_case(&mut chance) {
                let left = same_outcome(&case);
                runs += 1;
                stops += u32::from(left.answer.ending == Ending::ExternalStop);
                held += u32::from(case.registers.word_is_held);
                unfinished += u32::from(left.registers.motion != Motion::Nothing);
                given += u32::from(matches!(case.registers.motion, Motion::Character(_)));
                left_over += u32::from(matches!(left.registers.motion, Motion::Character(_)));
            }
        }
        assert!(stops > 2_000 && held > 10_000, "{stops} {held}");
        assert!(unfinished > 5_000, "{unfinished}");
        assert!(given > 5_000 && left_over > 5_000, "{given} {left_over}");
    }

    /// Each word in each mode at the end of memory, where a second word is word 0, with a budget
    /// that ends most commands in mid motion.
    #[test]
    fn it_tells_every_last_word_as_the_second_simulator() {
        for mode in 0..=6 {
            for word in 0..=0o7777 {
                same_outcome(&RunCase {
                    registers: Registers {
                        display_address: 0o77777,
                        x: 500,
                        y: 500,
                        state: State::Data,
                        mode,
                        running: true,
                        ..Registers::fresh()
                    },
                    budget: 4,
                    loan: Loan::all(),
                    room: 4,
                    given: GivenMemory {
                        length: WORDS,
                        default: 0o4321,
                        pairs: vec![(0o77777, word)],
                    },
                });
            }
        }
    }

    /// Each word held in control state and in each mode, over a word that is not lent.
    #[test]
    fn it_uses_every_held_word_as_the_second_simulator() {
        let data = (0..=7).map(|mode| (State::Data, mode));
        for (state, mode) in data.chain([(State::Control, 0)]) {
            for word in 0..=0o7777 {
                let mut registers = Registers {
                    display_address: 0o200,
                    pushdown_pointer: 0o402,
                    x: 500,
                    y: 500,
                    state,
                    mode,
                    pen_hold: true,
                    running: true,
                    ..Registers::fresh()
                };
                registers.hold(word);
                same_outcome(&RunCase {
                    registers,
                    budget: 20,
                    loan: Loan {
                        file: LoanRange {
                            low: 0o201,
                            high: 0o210,
                        },
                        list: LoanRange {
                            low: 0o400,
                            high: 0o404,
                        },
                    },
                    room: 20,
                    given: GivenMemory {
                        length: WORDS,
                        default: 0o4321,
                        pairs: vec![(0o400, 0o0123), (0o401, 0o0202)],
                    },
                });
            }
        }
    }

    /// A display in mode 5 that writes the word 0102o, its table at 77000o, from this stage of its
    /// left character on.
    fn writing(seven_bits: bool, stage: Stage) -> Registers {
        Registers {
            display_address: 0o200,
            x: 500,
            y: 1_020,
            state: State::Data,
            mode: 5,
            scale: 1,
            intensity: 4,
            pen_hold: true,
            running: true,
            upper_case: true,
            starting_address: 0o77,
            motion: Motion::Character(Character {
                word: 0o0102,
                seven_bits,
                side: Side::Left,
                stage,
            }),
            ..Registers::fresh()
        }
    }

    fn same_text(registers: Registers, budget: u32, pairs: Vec<(u16, u16)>) {
        same_outcome(&RunCase {
            registers,
            budget,
            loan: Loan::all(),
            room: 20,
            given: GivenMemory {
                length: WORDS,
                default: 0o5432,
                pairs,
            },
        });
    }

    /// Each word as a table word, of six bits and of seven.
    #[test]
    fn it_takes_every_table_word_as_the_second_simulator() {
        for seven_bits in [false, true] {
            for word in 0..=0o7777 {
                let registers = writing(seven_bits, Stage::TableWord);
                let pairs = vec![(0o77101, word), (0o77102, word ^ 0o7777)];
                same_text(registers, 20, pairs);
            }
        }
    }

    /// Each word as a routine word of both kinds at the end of memory, with budgets that end in it
    /// and behind it.
    #[test]
    fn it_takes_every_routine_word_as_the_second_simulator() {
        for short_vectors in [false, true] {
            let routine = Routine {
                short_vectors,
                next: 0o77777,
            };
            for word in 0..=0o7777 {
                for budget in [1, 2, 3, 4, 7, 20] {
                    let registers = writing(false, Stage::RoutineWord(routine));
                    let pairs = vec![(0o77777, word), (0, word ^ 0o5252)];
                    same_text(registers, budget, pairs);
                }
            }
        }
    }
}
