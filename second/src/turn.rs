//! One turn of a run: the tests before each beat, in their order, and the run that repeats them.

use crate::characters::character_beat;
use crate::control_words::control_command_beat;
use crate::data_words::{byte_move_beat, data_command_beat, line_move_beat};
use crate::refusals_and_endings::{refuse_run, Answer, Ending, LentMemory, Loan};
use crate::registers::{Motion, Registers, State};

/// What a beat gives besides the registers it leaves. 01: "A beat lights at most one point".
#[derive(Clone, Copy, Debug, PartialEq, Eq)]
pub struct Beat {
    pub point: Option<u64>,
    /// 01: "a beat that stops the display ends the run with 12 or 14". 02, No. 6: or with 15, at a
    /// table word of the unused form.
    pub stop: Option<Ending>,
}

impl Beat {
    /// A beat that lights nothing and lets the display go on.
    pub fn quiet() -> Beat {
        Beat {
            point: None,
            stop: None,
        }
    }
}

/// 01, one turn of a run: the whole run. A refusal leaves registers, memory and points as given.
pub fn run(
    registers: &mut Registers,
    memory: &mut [u16],
    loan: Loan,
    budget: u32,
    points: &mut [u64],
) -> Answer {
    if let Some(refusal) = refuse_run(registers, memory, loan, budget) {
        return Answer::without_beats(refusal);
    }
    // 01: "If not running at entry: 10".
    if !registers.running {
        return Answer::without_beats(Ending::NotRunning);
    }
    let mut memory = LentMemory::new(memory, loan);
    let mut beats = 0;
    let mut lit = 0;
    let ending = loop {
        // 01, 1: "budget used up: 11". It stands before all else, so that budget 0 makes nothing.
        if beats >= budget {
            break Ending::BudgetSpent;
        }
        let place = points.get_mut(lit as usize);
        match turn(registers, &mut memory, place.is_some()) {
            Ok(beat) => {
                beats += 1;
                if let (Some(point), Some(place)) = (beat.point, place) {
                    *place = point;
                    lit += 1;
                }
                if let Some(stop) = beat.stop {
                    break stop;
                }
            }
            Err(ending) => break ending,
        }
    };
    Answer {
        ending,
        beats,
        points: lit,
    }
}

/// 01, one turn of a run, tests 2 to 5 and then the beat. Endings 16 to 19 "change nothing", so the
/// beat is made on a copy that replaces the registers only once every test is passed.
fn turn(registers: &mut Registers, memory: &mut LentMemory, room: bool) -> Result<Beat, Ending> {
    external_stop(registers, memory)?;
    unusable_mode(registers)?;
    let mut after = *registers;
    let beat = match after.motion {
        Motion::Nothing => command_beat(&mut after, memory)?,
        Motion::Line(line) => line_move_beat(&mut after, line),
        Motion::Bytes(bytes) => byte_move_beat(&mut after, bytes),
        Motion::Character(character) => character_beat(&mut after, memory, character)?,
    };
    // 01, 5: "the beat would light a point and the list is full: 18". The only beat that writes
    // memory is a push, which lights nothing, so no word was stored when this test fails.
    if beat.point.is_some() && !room {
        return Err(Ending::PointListFull);
    }
    *registers = after;
    Ok(beat)
}

/// 01, 2: "no motion and a stop request: request off, external flag on, running off, 13, no beat".
/// 02, No. 4: "if it can't be made, the run ends with 16 or 17, the stop is not made, and the
/// request stays", so the fetch comes before any change. It stands here, before the unusable mode:
/// "In mode 5 or 7 the word is held too". 02, No. 6: "A stop request waits until the character word
/// is finished", for until then there is motion.
fn external_stop(registers: &mut Registers, memory: &LentMemory) -> Result<(), Ending> {
    if registers.motion == Motion::Nothing && registers.stop_request {
        hold_the_next_word(registers, memory)?;
        registers.stop_request = false;
        registers.external_stop_flag = true;
        registers.running = false;
        return Err(Ending::ExternalStop);
    }
    Ok(())
}

/// 02, No. 4: "at an external stop the word at the display address is fetched and held, the address
/// ... stays on it"; "A second stop keeps the held word and fetches nothing".
fn hold_the_next_word(registers: &mut Registers, memory: &LentMemory) -> Result<(), Ending> {
    if !registers.word_is_held {
        let word = memory.fetch(registers.display_address)?;
        registers.hold(word);
    }
    Ok(())
}

/// 01, 3: "no motion, data state, mode 5 or 7: running off, 15, no beat, no flag". 02, No. 6:
/// "Ending 15 is then for mode 7".
fn unusable_mode(registers: &mut Registers) -> Result<(), Ending> {
    if registers.motion == Motion::Nothing && registers.state == State::Data && registers.mode == 7
    {
        registers.running = false;
        return Err(Ending::UnusableMode);
    }
    Ok(())
}

/// 01: "one command beat executes or fetches one command".
fn command_beat(registers: &mut Registers, memory: &mut LentMemory) -> Result<Beat, Ending> {
    end_hold(registers);
    let word = first_word(registers, memory)?;
    match registers.state {
        State::Control => control_command_beat(registers, memory, word),
        State::Data => data_command_beat(registers, memory, word),
    }
}

/// The word at the display address. 02, No. 4: "resume uses the held word without fetching it
/// again", so neither the loan nor the width is asked of a held word. A beat that is not made
/// changes nothing and with that keeps it.
fn first_word(registers: &mut Registers, memory: &LentMemory) -> Result<u16, Ending> {
    match registers.held() {
        Some(word) => {
            registers.drop_held_word();
            Ok(word)
        }
        None => memory.fetch(registers.display_address),
    }
}

/// 01: "A command beat first ends pen hold if it is on (pen enable on, hold off)". First, so that
/// a push jump stores the pen on and LPOF has the last word. 02, No. 6: so do the fetches of a table
/// word and of a routine word.
pub fn end_hold(registers: &mut Registers) {
    if registers.pen_hold {
        registers.pen_enable = true;
        registers.pen_hold = false;
    }
}

#[cfg(test)]
pub mod tests {
    use super::*;
    use crate::host_operations::operate;
    use crate::refusals_and_endings::{LoanRange, MEMORY_LENGTH};
    use crate::registers::{Bytes, Line, Side};

    /// A display, its memory and its points, as the examples of 01's sheet set them up.
    pub struct Bench {
        pub registers: Registers,
        pub memory: Vec<u16>,
        pub points: Vec<u64>,
        pub loan: Loan,
    }

    impl Bench {
        /// A running display in control state at this address, all of memory lent.
        pub fn at(address: u16, words: &[u16]) -> Bench {
            let registers = Registers {
                display_address: address,
                running: true,
                ..Registers::fresh()
            };
            let mut bench = Bench {
                registers,
                memory: vec![0; MEMORY_LENGTH],
                points: vec![0; 1_024],
                loan: Loan::all(),
            };
            bench.put(address, words);
            bench
        }

        /// The same in data state and this mode.
        pub fn data(mode: u8, words: &[u16]) -> Bench {
            let mut bench = Bench::at(0o200, words);
            bench.registers.state = State::Data;
            bench.registers.mode = mode;
            bench
        }

        pub fn put(&mut self, address: u16, words: &[u16]) {
            for (place, &word) in words.iter().enumerate() {
                self.memory[(usize::from(address) + place) % MEMORY_LENGTH] = word;
            }
        }

        pub fn run(&mut self, budget: u32) -> Answer {
            run(
                &mut self.registers,
                &mut self.memory,
                self.loan,
                budget,
                &mut self.points,
            )
        }
    }

    pub fn range(low: u16, high: u16) -> LoanRange {
        LoanRange { low, high }
    }

    pub fn ended(ending: Ending, beats: u32, points: u32) -> Answer {
        Answer {
            ending,
            beats,
            points,
        }
    }

    #[test]
    fn p10_budget_0_on_a_running_display() {
        let mut bench = Bench::at(0, &[]);
        let before = bench.registers;
        assert_eq!(bench.run(0), ended(Ending::BudgetSpent, 0, 0));
        assert_eq!(bench.registers, before);
    }

    #[test]
    fn not_running_comes_before_the_budget_and_the_request() {
        let mut bench = Bench::at(0, &[]);
        bench.registers.running = false;
        bench.registers.stop_request = true;
        assert_eq!(bench.run(0), ended(Ending::NotRunning, 0, 0));
        assert!(bench.registers.stop_request);
    }

    #[test]
    fn the_budget_comes_before_the_request_and_the_mode() {
        let mut bench = Bench::data(7, &[]);
        bench.registers.stop_request = true;
        assert_eq!(bench.run(0), ended(Ending::BudgetSpent, 0, 0));
        assert_eq!(bench.run(1), ended(Ending::ExternalStop, 0, 0));
        assert!(!bench.registers.stop_request);
        assert!(bench.registers.external_stop_flag);
        assert!(!bench.registers.running);
        bench.registers.running = true;
        let flags = bench.registers.external_stop_flag;
        assert_eq!(bench.run(1), ended(Ending::UnusableMode, 0, 0));
        assert!(!bench.registers.running);
        assert_eq!(bench.registers.external_stop_flag, flags);
    }

    #[test]
    fn a_request_waits_for_the_motion() {
        // Increment word: left one move right, right one move and escape.
        let mut bench = Bench::data(1, &[0o1000]);
        assert_eq!(bench.run(1), ended(Ending::BudgetSpent, 1, 0));
        bench.registers.stop_request = true;
        assert_eq!(bench.run(10), ended(Ending::ExternalStop, 2, 0));
        assert_eq!(bench.registers.x, 2);
        assert_eq!(bench.registers.state, State::Control);
    }

    #[test]
    fn a_stop_on_the_last_beat_of_the_budget_is_a_stop() {
        let mut bench = Bench::at(0o100, &[0o1400]);
        assert_eq!(bench.run(1), ended(Ending::InternalStop, 1, 0));
        let mut bench = Bench::data(6, &[0]);
        bench.registers.x = 1_023;
        assert_eq!(bench.run(1), ended(Ending::Edge, 1, 0));
    }

    #[test]
    fn mode_word_1171_is_an_ordinary_beat() {
        let mut bench = Bench::at(0o100, &[0o1171]);
        assert_eq!(bench.run(1), ended(Ending::BudgetSpent, 1, 0));
        assert_eq!(bench.run(1), ended(Ending::UnusableMode, 0, 0));
        assert_eq!(bench.registers.display_address, 0o101);
    }

    #[test]
    fn mode_7_in_control_state_is_no_ending() {
        let mut bench = Bench::at(0o100, &[0o1170]);
        assert_eq!(bench.run(4), ended(Ending::BudgetSpent, 4, 0));
    }

    #[test]
    fn fence_and_width_leave_running_on_and_change_nothing() {
        let mut bench = Bench::at(0o100, &[0o10000]);
        bench.registers.pen_hold = true;
        let before = bench.registers;
        assert_eq!(bench.run(5), ended(Ending::WordTooWide, 0, 0));
        assert_eq!(bench.registers, before);
        bench.loan = Loan {
            file: range(0, 0o100),
            list: range(0o101, 0o200),
        };
        assert_eq!(bench.run(5), ended(Ending::FetchOutsideLoan(0o100), 0, 0));
        assert_eq!(bench.registers, before);
    }

    #[test]
    fn touches_are_tested_one_by_one() {
        // The first word is too wide and the second not lent: the first decides.
        let mut bench = Bench::data(0, &[0o10000, 0]);
        bench.loan = Loan {
            file: range(0o200, 0o201),
            list: range(0, 0),
        };
        assert_eq!(bench.run(5), ended(Ending::WordTooWide, 0, 0));
        // A good first word, a second that is too wide but not lent: the fence decides.
        let mut bench = Bench::data(0, &[0, 0o10000]);
        bench.loan = Loan {
            file: range(0o200, 0o201),
            list: range(0, 0),
        };
        assert_eq!(bench.run(5), ended(Ending::FetchOutsideLoan(0o201), 0, 0));
        bench.loan = Loan {
            file: range(0o200, 0o201),
            list: range(0o201, 0o202),
        };
        assert_eq!(bench.run(5), ended(Ending::WordTooWide, 0, 0));
    }

    #[test]
    fn a_move_beat_touches_nothing() {
        let mut bench = Bench::data(1, &[0o3636]);
        assert_eq!(bench.run(1), ended(Ending::BudgetSpent, 1, 0));
        bench.loan = Loan {
            file: range(0, 0),
            list: range(0, 0),
        };
        bench.registers.y = 100;
        assert_eq!(bench.run(100), ended(Ending::FetchOutsideLoan(0o201), 6, 0));
    }

    #[test]
    fn the_address_told_wraps_as_the_display_address_does() {
        // Words 0 do nothing: the run goes on over the end of memory to what is not lent.
        let mut bench = Bench::at(0o77776, &[]);
        bench.loan = Loan {
            file: range(0o77776, 0o77777),
            list: range(0, 0),
        };
        assert_eq!(bench.run(5), ended(Ending::FetchOutsideLoan(0o77777), 1, 0));
        bench.loan.list = range(0o77777, 0o100000);
        assert_eq!(bench.run(5), ended(Ending::FetchOutsideLoan(0), 1, 0));
        // The second word of a point at 77777o is word 0.
        let mut bench = Bench::at(0o77777, &[]);
        bench.registers.state = State::Data;
        bench.loan = Loan {
            file: range(1, 0o100000),
            list: range(0, 0),
        };
        assert_eq!(bench.run(5), ended(Ending::FetchOutsideLoan(0), 0, 0));
    }

    #[test]
    fn room_is_asked_only_by_a_beat_that_lights() {
        let mut bench = Bench::data(0, &[0o4001, 0o0001, 0o0002, 0o0002]);
        bench.points = vec![];
        let before = bench.registers;
        assert_eq!(bench.run(5), ended(Ending::PointListFull, 0, 0));
        assert_eq!(bench.registers, before);
        // Outside sector 0 the same words light nothing and need no room.
        bench.registers.x = 1_024;
        assert_eq!(bench.run(2), ended(Ending::BudgetSpent, 2, 0));
        // The violating graphplot lights nothing either.
        let mut bench = Bench::data(6, &[0]);
        bench.points = vec![];
        bench.registers.x = 1_023;
        assert_eq!(bench.run(5), ended(Ending::Edge, 1, 0));
        // A fetch that is not lent comes before the full list.
        let mut bench = Bench::data(0, &[0o4001, 0o0001]);
        bench.points = vec![];
        bench.loan = Loan {
            file: range(0o200, 0o201),
            list: range(0, 0),
        };
        assert_eq!(bench.run(5), ended(Ending::FetchOutsideLoan(0o201), 0, 0));
    }

    #[test]
    fn points_fill_from_the_first_place_and_the_rest_stay() {
        let mut bench = Bench::data(0, &[0o4001, 0o0002, 0o4003, 0o4004]);
        bench.points = vec![9; 4];
        bench.registers.intensity = 5;
        bench.registers.blink = true;
        bench.put(0o204, &[0o1400]);
        assert_eq!(bench.run(5), ended(Ending::InternalStop, 3, 2));
        let level = 5 * 1_048_576 + 8_388_608;
        let [first, second] = [0o201, 0o203].map(|last_word| level + 16_777_216 * last_word);
        assert_eq!(
            bench.points,
            [2 + 1_024 + first, 4 + 3 * 1_024 + second, 9, 9]
        );
    }

    #[test]
    fn every_command_beat_ends_hold_and_no_move_beat_does() {
        // A zero vector, a point, a stop word.
        for (mut bench, name) in [
            (Bench::data(2, &[0, 0]), "zero vector"),
            (Bench::data(0, &[0, 0]), "point"),
            (Bench::data(6, &[0]), "graphplot"),
            (Bench::at(0o200, &[0o1400]), "stop"),
        ] {
            bench.registers.pen_hold = true;
            bench.run(1);
            assert!(!bench.registers.pen_hold, "{name}");
            assert!(bench.registers.pen_enable, "{name}");
        }
        let mut bench = Bench::data(1, &[]);
        bench.registers.pen_hold = true;
        bench.registers.motion = Motion::Bytes(Bytes {
            word: 0o1010,
            side: Side::Left,
            moves_left: 1,
            last_word: 0o177,
        });
        bench.run(2);
        assert_eq!(bench.registers.motion, Motion::Nothing);
        assert!(bench.registers.pen_hold);
        assert!(!bench.registers.pen_enable);
        let mut bench = Bench::data(3, &[]);
        bench.registers.pen_hold = true;
        bench.registers.motion = Motion::Line(Line {
            y_minus: true,
            x_minus: false,
            y_magnitude: 1,
            x_magnitude: 0,
            moves: 1,
            done: 0,
            lit: true,
            escape: true,
            last_word: 0o177,
        });
        assert_eq!(bench.run(1), ended(Ending::BudgetSpent, 1, 0));
        assert_eq!(bench.registers.state, State::Control);
        assert!(bench.registers.pen_hold);
    }

    #[test]
    fn endings_without_a_beat_leave_hold() {
        let mut bench = Bench::data(7, &[]);
        bench.registers.pen_hold = true;
        assert_eq!(bench.run(5), ended(Ending::UnusableMode, 0, 0));
        assert!(bench.registers.pen_hold);
        bench.registers.running = true;
        bench.registers.stop_request = true;
        assert_eq!(bench.run(5), ended(Ending::ExternalStop, 0, 0));
        assert!(bench.registers.pen_hold);
    }

    /// A loan that lends nothing.
    fn nothing_lent() -> Loan {
        Loan {
            file: range(0, 0),
            list: range(0, 0),
        }
    }

    /// These words alone are lent, for fetching.
    fn lent(low: u16, high: u16) -> Loan {
        Loan {
            file: range(low, high),
            list: range(0, 0),
        }
    }

    /// The display asked to stop, and the answer of the run that stops it.
    fn asked_to_stop(bench: &mut Bench) -> Answer {
        bench.registers = operate(bench.registers, 6, 0).0;
        bench.run(9)
    }

    fn resumed(bench: &mut Bench) {
        bench.registers = operate(bench.registers, 4, 0).0;
    }

    #[test]
    fn a_stop_holds_the_word_and_resume_uses_it() {
        // Intensity 3, which a class changes into intensity 5 during the stop.
        let mut bench = Bench::at(0o50123, &[0o0013, 0o1400]);
        let before = bench.registers;
        assert_eq!(asked_to_stop(&mut bench), ended(Ending::ExternalStop, 0, 0));
        let stopped = Registers {
            external_stop_flag: true,
            running: false,
            word_is_held: true,
            held_word: 0o0013,
            ..before
        };
        assert_eq!(bench.registers, stopped);
        // The address as it is read stays on the word.
        assert_eq!(operate(bench.registers, 23, 0).2, 0o0123);
        bench.put(0o50123, &[0o0015]);
        resumed(&mut bench);
        assert_eq!(bench.registers.held(), Some(0o0013));
        assert_eq!(bench.run(1), ended(Ending::BudgetSpent, 1, 0));
        let used = Registers {
            display_address: 0o50124,
            intensity: 3,
            ..before
        };
        assert_eq!(bench.registers, used);
        // It is used once: when the display comes there again it fetches.
        bench.registers.display_address = 0o50123;
        assert_eq!(bench.run(2), ended(Ending::InternalStop, 2, 0));
        assert_eq!(bench.registers.intensity, 5);
    }

    #[test]
    fn a_held_word_of_0_is_a_word() {
        let mut bench = Bench::at(0o200, &[]);
        assert_eq!(asked_to_stop(&mut bench), ended(Ending::ExternalStop, 0, 0));
        assert_eq!(bench.registers.held(), Some(0));
        bench.put(0o200, &[0o1400, 0o1400]);
        resumed(&mut bench);
        assert_eq!(bench.run(9), ended(Ending::InternalStop, 2, 0));
    }

    #[test]
    fn a_stop_that_cannot_fetch_is_not_made() {
        // The width of the word that is not lent is not looked at.
        for (loan, word, ending) in [
            (lent(0, 0o77777), 0o0013, Ending::FetchOutsideLoan(0o77777)),
            (lent(0, 0o77777), 0o10000, Ending::FetchOutsideLoan(0o77777)),
            (Loan::all(), 0o10000, Ending::WordTooWide),
            (Loan::all(), 0o177777, Ending::WordTooWide),
        ] {
            let mut bench = Bench::at(0o77777, &[word]);
            bench.registers.stop_request = true;
            bench.registers.pen_hold = true;
            bench.loan = loan;
            let before = bench.registers;
            assert_eq!(bench.run(9), ended(ending, 0, 0));
            assert_eq!(bench.registers, before);
            // The request stays, and the stop is made once the word can be fetched.
            bench.loan = lent(0o77777, 0o100000);
            bench.put(0o77777, &[0o0013]);
            assert_eq!(bench.run(9), ended(Ending::ExternalStop, 0, 0));
            assert_eq!(bench.registers.held(), Some(0o0013));
        }
    }

    #[test]
    fn a_stop_fetches_through_the_list_range_too() {
        let mut bench = Bench::at(0o200, &[0o0013]);
        bench.loan = Loan {
            file: range(0, 0),
            list: range(0o200, 0o201),
        };
        assert_eq!(asked_to_stop(&mut bench), ended(Ending::ExternalStop, 0, 0));
        assert_eq!(bench.registers.held(), Some(0o0013));
    }

    #[test]
    fn a_stop_fetches_one_word_of_a_command() {
        // The second word of the jump is neither lent nor good; nor are a push's cells lent.
        let mut bench = Bench::at(0o200, &[0o2010, 0o10000]);
        bench.loan = lent(0o200, 0o201);
        assert_eq!(asked_to_stop(&mut bench), ended(Ending::ExternalStop, 0, 0));
        assert_eq!(bench.registers.held(), Some(0o2010));
    }

    #[test]
    fn a_second_stop_keeps_the_held_word_and_fetches_nothing() {
        for (loan, word) in [
            (Loan::all(), 0o0015),
            (Loan::all(), 0o10000),
            (nothing_lent(), 0o0013),
            (nothing_lent(), 0o10000),
        ] {
            let mut bench = Bench::at(0o200, &[0o0013]);
            asked_to_stop(&mut bench);
            let stopped = bench.registers;
            resumed(&mut bench);
            bench.put(0o200, &[word]);
            bench.loan = loan;
            assert_eq!(asked_to_stop(&mut bench), ended(Ending::ExternalStop, 0, 0));
            assert_eq!(bench.registers, stopped);
        }
    }

    #[test]
    fn the_budget_comes_before_the_stops_fetch() {
        let mut bench = Bench::at(0o200, &[0o10000]);
        bench.registers.stop_request = true;
        bench.loan = nothing_lent();
        let before = bench.registers;
        assert_eq!(bench.run(0), ended(Ending::BudgetSpent, 0, 0));
        assert_eq!(bench.registers, before);
        bench.registers.hold(0o0013);
        let before = bench.registers;
        assert_eq!(bench.run(0), ended(Ending::BudgetSpent, 0, 0));
        assert_eq!(bench.registers, before);
        // Not running comes before both.
        bench.registers.running = false;
        assert_eq!(bench.run(0), ended(Ending::NotRunning, 0, 0));
        assert_eq!(bench.registers.held(), Some(0o0013));
    }

    #[test]
    fn the_stops_fetch_comes_before_an_unusable_mode() {
        let asked = || {
            let mut bench = Bench::data(7, &[0o1234]);
            bench.registers.stop_request = true;
            bench
        };
        let mut bench = asked();
        assert_eq!(bench.run(9), ended(Ending::ExternalStop, 0, 0));
        assert_eq!(bench.registers.held(), Some(0o1234));
        // Ending 15 keeps the word, and so does the stop after it.
        resumed(&mut bench);
        bench.loan = nothing_lent();
        assert_eq!(bench.run(9), ended(Ending::UnusableMode, 0, 0));
        assert_eq!(bench.registers.held(), Some(0o1234));
        resumed(&mut bench);
        assert_eq!(asked_to_stop(&mut bench), ended(Ending::ExternalStop, 0, 0));
        assert_eq!(bench.registers.held(), Some(0o1234));

        let mut bench = asked();
        let before = bench.registers;
        bench.loan = nothing_lent();
        assert_eq!(bench.run(9), ended(Ending::FetchOutsideLoan(0o200), 0, 0));
        assert_eq!(bench.registers, before);
        bench.loan = Loan::all();
        bench.put(0o200, &[0o10000]);
        assert_eq!(bench.run(9), ended(Ending::WordTooWide, 0, 0));
        assert_eq!(bench.registers, before);
    }

    #[test]
    fn a_display_that_never_stopped_uses_a_held_word_too() {
        let mut bench = Bench::at(0o200, &[0o0015, 0o1400]);
        bench.registers.hold(0o0013);
        assert_eq!(bench.run(9), ended(Ending::InternalStop, 2, 0));
        assert_eq!(bench.registers.intensity, 3);
        assert_eq!(bench.registers.held(), None);
    }

    #[test]
    fn the_stop_leaves_pen_hold_to_the_beat_that_uses_the_word() {
        let mut bench = Bench::at(0o200, &[0o0013]);
        bench.registers.pen_hold = true;
        asked_to_stop(&mut bench);
        assert!(bench.registers.pen_hold && !bench.registers.pen_enable);
        resumed(&mut bench);
        assert_eq!(bench.run(1), ended(Ending::BudgetSpent, 1, 0));
        assert!(!bench.registers.pen_hold && bench.registers.pen_enable);
    }

    #[test]
    fn a_held_word_is_no_touch_of_its_beat() {
        // Held 2001 at 00200: with only 00201 lent it jumps, whatever stands at 00200 by now.
        for own in [0o2001, 0o0013, 0o10000] {
            let mut bench = Bench::at(0o200, &[own, 0o0300]);
            bench.registers.hold(0o2001);
            bench.loan = lent(0o201, 0o202);
            assert_eq!(bench.run(1), ended(Ending::BudgetSpent, 1, 0));
            assert_eq!(bench.registers.display_address, 0o10300);
            assert_eq!(bench.registers.held(), None);
        }
        // With only 00200 lent it ends at 00201.
        let mut bench = Bench::at(0o200, &[0o2001, 0o0300]);
        bench.registers.hold(0o2001);
        bench.loan = lent(0o200, 0o201);
        let before = bench.registers;
        assert_eq!(bench.run(1), ended(Ending::FetchOutsideLoan(0o201), 0, 0));
        assert_eq!(bench.registers, before);
    }

    #[test]
    fn second_words_of_a_held_command_are_fetched_as_before() {
        // Each with the second word as it stands in memory when the beat is made.
        let mut jump = Bench::at(0o77777, &[0, 0o0300]);
        jump.registers.hold(0o2001);
        let mut point = Bench::at(0o77777, &[0, 0o4006]);
        point.registers.state = State::Data;
        point.registers.hold(0o4005);
        let mut vector = Bench::at(0o77777, &[0, 0o4006]);
        vector.registers.state = State::Data;
        vector.registers.mode = 2;
        vector.registers.hold(0o4005);
        for bench in [&mut jump, &mut point, &mut vector] {
            let before = bench.registers;
            // The second word lies at 0: not lent, then too wide.
            bench.loan = lent(0o77777, 0o100000);
            assert_eq!(bench.run(1), ended(Ending::FetchOutsideLoan(0), 0, 0));
            assert_eq!(bench.registers, before);
            bench.loan = lent(0, 1);
            let second = bench.memory[0];
            bench.put(0, &[0o10000]);
            assert_eq!(bench.run(1), ended(Ending::WordTooWide, 0, 0));
            assert_eq!(bench.registers, before);
            bench.put(0, &[second]);
            assert_eq!(bench.run(1).ending, Ending::BudgetSpent);
            assert_eq!(bench.registers.held(), None);
        }
        assert_eq!(jump.registers.display_address, 0o10300);
        assert_eq!((point.registers.x, point.registers.y), (6, 5));
        assert_eq!(point.registers.display_address, 1);
        assert_eq!(
            vector.registers.motion,
            Motion::Line(Line {
                y_minus: false,
                x_minus: false,
                y_magnitude: 5,
                x_magnitude: 6,
                moves: 6,
                done: 0,
                lit: true,
                escape: true,
                last_word: 0,
            })
        );
    }

    #[test]
    fn a_held_push_jump_stores_its_own_address_and_two() {
        let mut bench = Bench::at(0o37776, &[0o1400, 0o0300]);
        bench.registers.hold(0o2010);
        bench.registers.pushdown_pointer = 0o400;
        assert_eq!(bench.run(1), ended(Ending::BudgetSpent, 1, 0));
        assert_eq!(bench.memory[0o400..0o402], [0o4000, 0]);
        assert_eq!(bench.registers.display_address, 0o300);
    }

    #[test]
    fn a_held_pop_fetches_its_cells_from_memory_at_its_own_address_too() {
        let mut bench = Bench::at(0o200, &[0o1000, 0o0300]);
        bench.registers.hold(0o3000);
        bench.registers.pushdown_pointer = 0o202;
        assert_eq!(bench.run(1), ended(Ending::BudgetSpent, 1, 0));
        assert_eq!(bench.registers.display_address, 0o10300);
    }

    #[test]
    fn a_beat_that_is_not_made_keeps_the_held_word() {
        let mut push = Bench::at(0o200, &[0, 0o0300]);
        push.registers.hold(0o2010);
        push.registers.pushdown_pointer = 0o400;
        push.loan = Loan {
            file: range(0o201, 0o202),
            list: range(0o400, 0o401),
        };
        let mut pop = Bench::at(0o200, &[]);
        pop.registers.hold(0o3000);
        pop.registers.pushdown_pointer = 0o402;
        pop.loan = lent(0o400, 0o401);
        let mut wide_pop = Bench::at(0o200, &[]);
        wide_pop.registers.hold(0o3000);
        wide_pop.registers.pushdown_pointer = 0o402;
        wide_pop.put(0o401, &[0o10000]);
        let mut point = Bench::data(0, &[0, 0o0001]);
        point.registers.hold(0o4001);
        point.points = vec![];
        let mut graphplot = Bench::data(6, &[]);
        graphplot.registers.hold(0o0001);
        graphplot.points = vec![];
        for (mut bench, ending) in [
            (push, Ending::WriteOutsideLoan(0o401)),
            (pop, Ending::FetchOutsideLoan(0o401)),
            (wide_pop, Ending::WordTooWide),
            (point, Ending::PointListFull),
            (graphplot, Ending::PointListFull),
        ] {
            // Hold is not ended either.
            bench.registers.pen_hold = true;
            let before = bench.registers;
            let memory = bench.memory.clone();
            assert_eq!(bench.run(9), ended(ending, 0, 0));
            assert_eq!(bench.registers, before);
            assert_eq!(bench.memory, memory);
            // Nor is it lost when the run is made again with all that it needs.
            bench.loan = Loan::all();
            bench.points = vec![0; 1];
            bench.put(0o401, &[0]);
            assert_eq!(bench.run(1).beats, 1);
            assert_eq!(bench.registers.held(), None);
        }
    }

    #[test]
    fn moves_keep_the_held_word_for_the_next_command() {
        // The right byte of 1000o: one move right, and escape. Then intensity 3, held.
        let mut bench = Bench::data(1, &[]);
        bench.registers.motion = Motion::Bytes(Bytes {
            word: 0o1000,
            side: Side::Right,
            moves_left: 1,
            last_word: 0o177,
        });
        bench.registers.hold(0o0013);
        bench.loan = nothing_lent();
        assert_eq!(bench.run(1), ended(Ending::BudgetSpent, 1, 0));
        assert_eq!(bench.registers.held(), Some(0o0013));
        assert_eq!(bench.registers.state, State::Control);
        assert_eq!(bench.run(9), ended(Ending::FetchOutsideLoan(0o201), 1, 0));
        assert_eq!(bench.registers.intensity, 3);
        assert_eq!(bench.registers.held(), None);
        // A move that stops at an edge keeps it too.
        let mut bench = Bench::data(1, &[]);
        bench.registers.motion = Motion::Bytes(Bytes {
            word: 0o1010,
            side: Side::Right,
            moves_left: 1,
            last_word: 0o177,
        });
        bench.registers.x = 1_023;
        bench.registers.hold(0o0013);
        assert_eq!(bench.run(9), ended(Ending::Edge, 1, 0));
        assert_eq!(bench.registers.held(), Some(0o0013));
    }

    #[test]
    fn a_stop_behind_an_escape_holds_a_control_word() {
        // One move right and escape; behind it intensity 3.
        let mut bench = Bench::data(1, &[0o0000, 0o0013, 0o1400]);
        assert_eq!(bench.run(1), ended(Ending::BudgetSpent, 1, 0));
        assert_eq!(asked_to_stop(&mut bench), ended(Ending::ExternalStop, 1, 0));
        assert_eq!(bench.registers.held(), Some(0o0013));
        assert_eq!(bench.registers.state, State::Control);
        assert_eq!(bench.registers.display_address, 0o201);
        bench.put(0o201, &[0o1400]);
        resumed(&mut bench);
        assert_eq!(bench.run(9), ended(Ending::InternalStop, 2, 0));
        assert_eq!(bench.registers.intensity, 3);
    }

    #[test]
    fn start_and_clear_drop_the_held_word() {
        for operation in [1, 5] {
            let mut bench = Bench::at(0o200, &[0o0013]);
            asked_to_stop(&mut bench);
            bench.registers = operate(bench.registers, operation, 0).0;
            resumed(&mut bench);
            bench.put(0, &[0o0015, 0o1400]);
            assert_eq!(bench.run(9), ended(Ending::InternalStop, 2, 0));
            assert_eq!(bench.registers.intensity, 5);
        }
    }

    #[test]
    fn a_pen_stop_keeps_the_held_word() {
        let mut bench = Bench::at(0o200, &[0o0013, 0o1400]);
        asked_to_stop(&mut bench);
        resumed(&mut bench);
        bench.registers.pen_enable = true;
        bench.registers = operate(bench.registers, 7, 0).0;
        assert!(!bench.registers.running);
        bench.put(0o200, &[0o0015]);
        resumed(&mut bench);
        assert_eq!(bench.run(9), ended(Ending::InternalStop, 2, 0));
        assert_eq!(bench.registers.intensity, 3);
    }

    /// Held or fetched, each word does the same in control state and in each mode.
    #[test]
    fn every_word_does_held_what_it_does_fetched() {
        let states = (0..8)
            .map(|mode| (State::Data, mode))
            .chain([(State::Control, 0)]);
        for (state, mode) in states {
            for word in 0..=0o7777 {
                // The second word or the cells of a pop are 0123o and 0124o.
                let given = |own: u16| {
                    let mut bench = Bench::at(0o200, &[own, 0o0123]);
                    bench.registers.state = state;
                    bench.registers.mode = mode;
                    bench.registers.pushdown_pointer = 0o402;
                    bench.registers.pen_hold = true;
                    bench.put(0o400, &[0o0123, 0o0124]);
                    bench
                };
                let mut fetched = given(word);
                let mut held = given(0o10000);
                held.registers.hold(word);
                held.loan.file = range(0o201, 0o100000);
                held.loan.list = range(0o400, 0o1000);
                let answer = fetched.run(1);
                assert_eq!(held.run(1), answer, "{word:o}");
                if answer.beats == 0 {
                    assert_eq!(held.registers.held(), Some(word));
                    held.registers.drop_held_word();
                }
                assert_eq!(held.registers, fetched.registers, "{word:o}");
                held.put(0o200, &[word]);
                assert_eq!(held.memory, fetched.memory, "{word:o}");
                assert_eq!(held.points, fetched.points, "{word:o}");
            }
        }
    }

    #[test]
    fn the_practice_example_lights_one_point() {
        let mut bench = Bench::at(0o200, &[0o1101, 0o4144, 0o4310, 0o1400]);
        assert_eq!(bench.run(65_535), ended(Ending::InternalStop, 3, 1));
        assert_eq!(bench.points[0], 200 + 1_024 * 100 + 16_777_216 * 0o202);
    }
}
