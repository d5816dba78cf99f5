//! 02, No. 6: the character generator. The words of mode 5 and the manual's appendix 1: character
//! words, the words of the dispatch table, control characters and routines.

use crate::control_words::{count_intensity, count_scale, set_parameters};
use crate::data_words::{
    byte_move, line_move, rest_of_bytes, rest_of_line, start_of_bytes, start_of_short_vector, Rest,
};
use crate::refusals_and_endings::{Ending, LentMemory};
use crate::registers::{
    address_after, byte_of, Character, Motion, Registers, Routine, Side, Stage, State, SECTOR,
};
use crate::turn::{end_hold, Beat};
use crate::words::{bit, field};

/// 02, No. 6: a beat is "one character word fetched". The display goes on behind the word, and its
/// first character is to come, in the code size that holds now.
pub fn character_word(registers: &mut Registers, word: u16) -> Beat {
    registers.display_address = address_after(registers.display_address, 1);
    registers.motion = Motion::Character(Character {
        word,
        seven_bits: registers.seven_bit_codes,
        side: Side::Left,
        stage: Stage::TableWord,
    });
    Beat::quiet()
}

/// 02, No. 6: a beat is "one table word fetched, one routine word fetched or one move". It is the
/// same in every state and mode.
pub fn character_beat(
    registers: &mut Registers,
    memory: &LentMemory,
    character: Character,
) -> Result<Beat, Ending> {
    match character.stage {
        Stage::TableWord => table_word_beat(registers, memory, character),
        Stage::RoutineWord(routine) => routine_word_beat(registers, memory, character, routine),
        Stage::Bytes(bytes) => {
            let rest = rest_of_bytes(bytes).map(Stage::Bytes);
            leave(registers, character, rest, behind(bytes.last_word, false));
            Ok(byte_move(registers, bytes))
        }
        // Never as a vector continue, whatever the mode.
        Stage::Line(line) => {
            let rest = rest_of_line(line).map(Stage::Line);
            leave(registers, character, rest, behind(line.last_word, true));
            Ok(line_move(registers, line))
        }
    }
}

// ---------------------------------------------------------------- the dispatch table

/// Manual, appendix 1: bit 0 of a table word tells a control word from a dispatch word.
fn table_word_beat(
    registers: &mut Registers,
    memory: &LentMemory,
    character: Character,
) -> Result<Beat, Ending> {
    end_hold(registers);
    let word = memory.fetch(table_address(registers, character))?;
    if bit(word, 0) {
        Ok(control_character(registers, character, word))
    } else {
        let routine = dispatched(registers, word);
        go_on_with(registers, character, Stage::RoutineWord(routine));
        Ok(Beat::quiet())
    }
}

/// 02, No. 6: "The table word lies at 512 times that register plus the seven-bit code, or plus 64
/// times the case plus the six-bit code".
pub fn table_address(registers: &Registers, character: Character) -> u16 {
    let code = if character.seven_bits {
        field(character.word, 5, 11)
    } else {
        64 * u16::from(registers.upper_case) + byte_of(character.word, character.side)
    };
    table_start(registers) + code
}

/// Manual, appendix 1: "The SAR is gated to the upper six bits of the CHAC".
fn table_start(registers: &Registers) -> u16 {
    512 * u16::from(registers.starting_address)
}

/// 02, No. 6: "A routine begins at 512 times the register, OR'd bit by bit with the dispatch word's
/// ten low bits". Manual, appendix 1: bit 1 is 0 for increment words, 1 for short vectors.
fn dispatched(registers: &Registers, word: u16) -> Routine {
    Routine {
        short_vectors: bit(word, 1),
        next: table_start(registers) | field(word, 2, 11),
    }
}

// ---------------------------------------------------------------- control characters

/// Manual A1.1: "one of three special formats indicated by bits 1 and 2". 02, No. 6: "A control word
/// of the unused fourth form stops as an unusable mode"; "the beat that fetched it counts and ends
/// that character".
fn control_character(registers: &mut Registers, character: Character, word: u16) -> Beat {
    let mut beat = Beat::quiet();
    match field(word, 1, 2) {
        0 => set_parameters(registers, word),
        1 => table_control(registers, word),
        2 => {
            miscellaneous_control(registers, word);
            if bit(word, 6) {
                escape_to_control_state(registers);
                return beat;
            }
        }
        _ => {
            registers.running = false;
            beat.stop = Some(Ending::UnusableMode);
        }
    }
    end_character(registers, character);
    beat
}

/// Manual A1.1.2: bit 3 is the case; bits 4 and 5 enable the change of the SAR's two digits.
fn table_control(registers: &mut Registers, word: u16) {
    registers.upper_case = bit(word, 3);
    let digits = field(word, 6, 11) as u8;
    let mut changed = 0;
    if bit(word, 4) {
        changed |= 0o70;
    }
    if bit(word, 5) {
        changed |= 0o07;
    }
    registers.starting_address = registers.starting_address & !changed | digits & changed;
}

/// Manual A1.1.3, but for the escape: code size by bits 3 and 4, carriage return by 5, scale counted
/// by 7 and 8, intensity by 9 and 10.
fn miscellaneous_control(registers: &mut Registers, word: u16) {
    if bit(word, 3) {
        registers.seven_bit_codes = bit(word, 4);
    }
    if bit(word, 5) {
        registers.x -= registers.x % SECTOR;
    }
    if bit(word, 7) {
        count_scale(registers, bit(word, 8));
    }
    if bit(word, 9) {
        count_intensity(registers, bit(word, 10));
    }
}

/// Manual A1.1.3, bit 6: "end character string, leave character generator". 02, No. 6: "its escape
/// to control state drops the right one". The mode stays.
fn escape_to_control_state(registers: &mut Registers) {
    registers.motion = Motion::Nothing;
    registers.state = State::Control;
}

// ---------------------------------------------------------------- routines

/// The fetch of a routine word. A zero vector has no moves and is over with it.
fn routine_word_beat(
    registers: &mut Registers,
    memory: &LentMemory,
    character: Character,
    routine: Routine,
) -> Result<Beat, Ending> {
    end_hold(registers);
    let address = routine.next;
    let word = memory.fetch(address)?;
    let rest = if routine.short_vectors {
        start_of_short_vector(word, address).map(Stage::Line)
    } else {
        Rest::Moves(Stage::Bytes(start_of_bytes(word, address)))
    };
    let next = behind(address, routine.short_vectors);
    leave(registers, character, rest, next);
    Ok(Beat::quiet())
}

/// The routine behind its word at an address. 02, No. 6: "routine addresses count modulo 32,768".
fn behind(address: u16, short_vectors: bool) -> Routine {
    Routine {
        short_vectors,
        next: address_after(address, 1),
    }
}

/// What a beat leaves of a routine word: moves, or the routine behind it, or with an escape the end
/// of the character. 02, No. 6: "An escape in a routine ends the character and not the mode".
fn leave(registers: &mut Registers, character: Character, rest: Rest<Stage>, next: Routine) {
    match rest {
        Rest::Moves(stage) => go_on_with(registers, character, stage),
        Rest::Nothing { escape: false } => {
            go_on_with(registers, character, Stage::RoutineWord(next));
        }
        Rest::Nothing { escape: true } => end_character(registers, character),
    }
}

// ---------------------------------------------------------------- what is left of a character word

fn go_on_with(registers: &mut Registers, character: Character, stage: Stage) {
    registers.motion = Motion::Character(Character { stage, ..character });
}

/// The right character of six bits comes behind the left one, without a beat of its own. Any other
/// is the last of its word.
fn end_character(registers: &mut Registers, character: Character) {
    registers.motion = if character.side == Side::Left && !character.seven_bits {
        Motion::Character(Character {
            side: Side::Right,
            stage: Stage::TableWord,
            ..character
        })
    } else {
        Motion::Nothing
    };
}

#[cfg(test)]
mod tests {
    use super::*;
    use crate::host_operations::operate;
    use crate::refusals_and_endings::Loan;
    use crate::registers::{Bytes, Line};
    use crate::turn::tests::{ended, range, Bench};

    /// The manual's table at 06000o, and some more characters behind its five.
    const TABLE: [u16; 11] = [
        0o4555, // 00: scale 2, pen off, intensity 5
        0o0200, // 01: the letter A
        0o6100, // 02: carriage return
        0o2206, // 03: line feed
        0o6040, // 04: escape to control state
        0o5400, // 05: upper case
        0o5107, // 06: register 07o, lower case
        0o6600, // 07: seven bits
        0o7000, // 10: the unused form
        0o0210, // 11: two lit moves to the right
        0o2212, // 12: a zero vector and one lit move to the right
    ];

    /// The routines from 06200o on: A, line feed, the two moves at 06210o and the vectors at 06212o.
    const ROUTINES: [u16; 12] = [
        0o1672, 0o7251, 0o6057, 0o7674, 0o3762, 0o2701, 0o3140, 0, 0o5040, 0, 0, 0o4041,
    ];

    /// A running display in mode 5 at 0200o, the beam at (100,200), its table at 06000o.
    fn writing(words: &[u16]) -> Bench {
        let mut bench = Bench::data(5, words);
        bench.registers.x = 100;
        bench.registers.y = 200;
        bench.registers.starting_address = 0o06;
        bench.put(0o6000, &TABLE);
        bench.put(0o6200, &ROUTINES);
        bench
    }

    /// The same in the middle of the word 1111o, two characters 11, with the left one at a stage.
    fn written(stage: Stage) -> Bench {
        let mut bench = writing(&[]);
        bench.registers.motion = character(0o1111, Side::Left, stage);
        bench
    }

    fn character(word: u16, side: Side, stage: Stage) -> Motion {
        Motion::Character(Character {
            word,
            seven_bits: false,
            side,
            stage,
        })
    }

    fn routine(short_vectors: bool, next: u16) -> Stage {
        Stage::RoutineWord(Routine {
            short_vectors,
            next,
        })
    }

    /// The moves of 5040o at 06210o: one to the right, and one with the escape.
    fn moves(side: Side) -> Stage {
        Stage::Bytes(Bytes {
            word: 0o5040,
            side,
            moves_left: 1,
            last_word: 0o6210,
        })
    }

    /// A lit line of two moves to the right, one of them done.
    fn half_a_line(escape: bool) -> Line {
        Line {
            y_minus: false,
            x_minus: false,
            y_magnitude: 0,
            x_magnitude: 2,
            moves: 2,
            done: 1,
            lit: true,
            escape,
            last_word: 0o6213,
        }
    }

    /// The address and the beam of each lit point.
    fn told(bench: &Bench, count: u32) -> Vec<(u64, u64, u64)> {
        let lit = bench.points[..count as usize].iter();
        lit.map(|point| (point >> 24, point % 1_024, point / 1_024 % 1_024))
            .collect()
    }

    #[test]
    fn the_manuals_program() {
        let mut bench = Bench::at(
            0o200,
            &[
                0o1107, 0o1000, 0o5000, 0o1151, 0o0001, 0o0203, 0o0104, 0o2000, 0o0200,
            ],
        );
        bench.put(0o6000, &TABLE);
        bench.put(0o6200, &ROUTINES);
        bench.registers = operate(Registers::fresh(), 30, 0o0006).0;
        bench.registers = operate(bench.registers, 1, 0o200).0;
        assert_eq!(bench.run(85), ended(Ending::BudgetSpent, 85, 36));
        let after = Registers {
            display_address: 0o200,
            x: 14,
            y: 494,
            mode: 5,
            scale: 1,
            intensity: 5,
            starting_address: 0o06,
            running: true,
            ..Registers::fresh()
        };
        assert_eq!(bench.registers, after);
        let first = [
            (0o6200, 512, 512),
            (0o6200, 512, 514),
            (0o6200, 512, 516),
            (0o6201, 512, 518),
        ];
        assert_eq!(told(&bench, 36)[..4], first);
    }

    #[test]
    fn each_fetch_and_each_move_is_a_beat() {
        // 11 and 12: two moves, and a zero vector with one move behind it.
        let left = |stage| character(0o1112, Side::Left, stage);
        let right = |stage| character(0o1112, Side::Right, stage);
        let line = Line {
            x_magnitude: 1,
            moves: 1,
            done: 0,
            ..half_a_line(true)
        };
        let expected = [
            (left(Stage::TableWord), 100),
            (left(routine(false, 0o6210)), 100),
            (left(moves(Side::Left)), 100),
            (left(moves(Side::Right)), 101),
            (right(Stage::TableWord), 102),
            (right(routine(true, 0o6212)), 102),
            (right(routine(true, 0o6213)), 102),
            (right(Stage::Line(line)), 102),
            (Motion::Nothing, 103),
        ];
        let mut bench = writing(&[0o1112]);
        for (motion, x) in expected {
            assert_eq!(bench.run(1).ending, Ending::BudgetSpent);
            assert_eq!(bench.registers.motion, motion);
            assert_eq!((bench.registers.x, bench.registers.y), (x, 200));
            assert_eq!(bench.registers.display_address, 0o201);
        }
        let mut whole = writing(&[0o1112]);
        assert_eq!(whole.run(9), ended(Ending::BudgetSpent, 9, 3));
        assert_eq!(whole.registers, bench.registers);
        let points = [(0o6210, 101, 200), (0o6210, 102, 200), (0o6213, 103, 200)];
        assert_eq!(told(&whole, 3), points);
    }

    #[test]
    fn the_table_word_by_register_case_and_code() {
        let at = |register: u8, upper_case: bool, word: u16, seven_bits: bool, side: Side| {
            let registers = Registers {
                starting_address: register,
                upper_case,
                ..Registers::fresh()
            };
            let character = Character {
                word,
                seven_bits,
                side,
                stage: Stage::TableWord,
            };
            table_address(&registers, character)
        };
        assert_eq!(at(0o16, false, 0o0000, false, Side::Left), 0o16000);
        assert_eq!(at(0o16, true, 0o0000, false, Side::Left), 0o16100);
        for upper_case in [false, true] {
            // The upper five bits are ignored, and so are the case and the side.
            for word in [0o0116, 0o7716, 0o5316] {
                assert_eq!(at(0o04, upper_case, word, true, Side::Left), 0o4116);
                assert_eq!(at(0o04, upper_case, word, true, Side::Right), 0o4116);
            }
        }
        assert_eq!(at(0o04, true, 0o1642, false, Side::Left), 0o4116);
        assert_eq!(at(0o04, true, 0o4216, false, Side::Right), 0o4116);
        assert_eq!(at(0o77, true, 0o7777, false, Side::Right), 0o77177);
        assert_eq!(at(0o77, false, 0o7777, true, Side::Left), 0o77177);
    }

    #[test]
    fn the_routine_begins_at_the_or_of_register_and_word() {
        for (register, word, start) in [
            (0o05, 0o1000, 0o05000),
            (0o05, 0o1777, 0o05777),
            (0o05, 0o0777, 0o05777),
            (0o04, 0o1000, 0o05000),
            (0o77, 0o1777, 0o77777),
            (0o00, 0o0000, 0),
        ] {
            let registers = Registers {
                starting_address: register,
                ..Registers::fresh()
            };
            for (mode, short_vectors) in [(0, false), (0o2000, true)] {
                let expected = Routine {
                    short_vectors,
                    next: start,
                };
                assert_eq!(dispatched(&registers, word | mode), expected);
            }
        }
    }

    /// The registers after one character of this table word, its own 00, by two beats.
    fn after_one(table_word: u16, set: impl FnOnce(&mut Registers)) -> Registers {
        let mut bench = writing(&[0o0077]);
        bench.put(0o6000, &[table_word]);
        set(&mut bench.registers);
        bench.put(0o6100, &[table_word]);
        assert_eq!(bench.run(2).beats, 2);
        bench.registers
    }

    #[test]
    fn a_parameter_character_obeys_its_enable_bits() {
        let on = |registers: &mut Registers| registers.pen_enable = true;
        assert!(!after_one(0o4040, on).pen_enable);
        assert!(after_one(0o4060, |_| ()).pen_enable);
        // Bit 5 enables nothing.
        assert!(after_one(0o4100, on).pen_enable);
        for word in 0o4000..=0o4777u16 {
            let set = |registers: &mut Registers| {
                registers.scale = 2;
                registers.intensity = 6;
                registers.pen_enable = true;
            };
            let character = after_one(word, set);
            // The control word with the same bits.
            let mut bench = Bench::at(0o200, &[word & 0o777]);
            set(&mut bench.registers);
            bench.run(1);
            let control = bench.registers;
            assert_eq!(
                (character.scale, character.pen_enable, character.intensity),
                (control.scale, control.pen_enable, control.intensity),
                "{word:o}"
            );
        }
    }

    #[test]
    fn a_table_character_sets_case_and_register() {
        for (word, upper_case, register) in [
            (0o5000, false, 0o25),
            (0o5400, true, 0o25),
            (0o5277, false, 0o75),
            (0o5177, false, 0o27),
            (0o5342, false, 0o42),
            (0o5077, false, 0o25),
            (0o5742, true, 0o42),
        ] {
            let mut bench = writing(&[0o0077]);
            bench.registers.starting_address = 0o25;
            bench.registers.upper_case = true;
            bench.put(0o25100, &[word]);
            assert_eq!(bench.run(2), ended(Ending::BudgetSpent, 2, 0));
            let after = bench.registers;
            assert_eq!(
                (after.upper_case, after.starting_address),
                (upper_case, register),
                "{word:o}"
            );
        }
    }

    #[test]
    fn a_left_characters_case_and_register_hold_for_the_right_one() {
        // Upper case, then 01 at 06101o, which leads to 06220o.
        let mut bench = writing(&[0o0501]);
        bench.put(0o6101, &[0o0220]);
        bench.put(0o6220, &[0o4072]);
        assert_eq!(bench.run(5), ended(Ending::BudgetSpent, 5, 1));
        assert_eq!(told(&bench, 1), [(0o6220, 101, 200)]);
        // Register 07o, then 01 at 07001o, which leads to 07000o OR 1034o.
        let mut bench = writing(&[0o0601]);
        bench.put(0o7001, &[0o1034]);
        bench.put(0o7034, &[0o4040]);
        assert_eq!(bench.run(5), ended(Ending::BudgetSpent, 5, 1));
        assert_eq!(told(&bench, 1), [(0o7034, 101, 200)]);
        assert_eq!(bench.registers.motion, Motion::Nothing);
    }

    #[test]
    fn every_miscellaneous_character() {
        for word in 0o6000..=0o6777u16 {
            let after = after_one(word, |registers| {
                registers.x = 0o12345;
                registers.scale = 1;
                registers.intensity = 6;
            });
            let asks = |place: u16| bit(word, place);
            assert_eq!(after.seven_bit_codes, asks(3) && asks(4), "{word:o}");
            let x = if asks(5) { 0o12000 } else { 0o12345 };
            assert_eq!(after.x, x, "{word:o}");
            let escaped = after.state == State::Control;
            assert_eq!(escaped, asks(6), "{word:o}");
            let scale = match (asks(7), asks(8)) {
                (false, _) => 1,
                (true, false) => 2,
                (true, true) => 0,
            };
            assert_eq!(after.scale, scale, "{word:o}");
            let intensity = match (asks(9), asks(10)) {
                (false, _) => 6,
                (true, false) => 7,
                (true, true) => 5,
            };
            assert_eq!(after.intensity, intensity, "{word:o}");
            let motion = if escaped {
                Motion::Nothing
            } else {
                character(0o0077, Side::Right, Stage::TableWord)
            };
            assert_eq!(after.motion, motion, "{word:o}");
            assert_eq!(after.mode, 5, "{word:o}");
        }
        // Six bits again, and counts at both ends.
        let after = after_one(0o6764, |registers| {
            registers.scale = 3;
            registers.intensity = 7;
        });
        assert_eq!((after.scale, after.intensity), (3, 7));
        assert!(after.seven_bit_codes);
        assert_eq!(after.state, State::Control);
        let after = after_one(0o6436, |registers| registers.seven_bit_codes = false);
        assert_eq!((after.scale, after.intensity), (0, 0));
        let mut bench = writing(&[0o0002]);
        bench.put(0o6002, &[0o6400]);
        bench.registers.seven_bit_codes = true;
        assert_eq!(bench.run(2), ended(Ending::BudgetSpent, 2, 0));
        assert!(!bench.registers.seven_bit_codes);
        assert_eq!(bench.registers.motion, Motion::Nothing);
    }

    #[test]
    fn a_new_code_size_holds_from_the_next_word() {
        // Seven bits and 11 of six bits, then 0004o as one character, and a stop.
        let mut bench = writing(&[0o0711, 0o0004, 0o1400]);
        assert_eq!(bench.run(50), ended(Ending::InternalStop, 9, 2));
        assert_eq!(bench.registers.display_address, 0o203);
        assert!(bench.registers.seven_bit_codes);
        // The other way round: 0007o of seven bits, then 0411o of six.
        let mut bench = writing(&[0o0007, 0o0411, 0o1400]);
        bench.put(0o6007, &[0o6400]);
        bench.registers.seven_bit_codes = true;
        assert_eq!(bench.run(50), ended(Ending::InternalStop, 5, 0));
        assert!(!bench.registers.seven_bit_codes);
    }

    #[test]
    fn a_held_word_is_read_in_the_size_of_its_beat() {
        for (operand, code) in [(0o0006, 0o11), (0o0206, 0o104), (0o0606, 0o104)] {
            let mut bench = writing(&[0o1104]);
            bench.registers = operate(bench.registers, 6, 0).0;
            assert_eq!(bench.run(9), ended(Ending::ExternalStop, 0, 0));
            bench.registers = operate(bench.registers, 30, operand).0;
            bench.registers = operate(bench.registers, 4, 0).0;
            bench.put(0o200, &[0o10000]);
            bench.loan.file = range(0o6000 + code, 0o6001 + code);
            bench.loan.list = range(0, 0);
            let answer = bench.run(9);
            assert_eq!(answer.beats, 2, "{operand:o}");
            assert!(!bench.registers.word_is_held);
        }
    }

    #[test]
    fn an_escape_drops_the_right_character() {
        let mut bench = writing(&[0o0411, 0o1400]);
        assert_eq!(bench.run(50), ended(Ending::InternalStop, 3, 0));
        assert_eq!(bench.registers.state, State::Control);
        assert_eq!(bench.registers.mode, 5);
    }

    #[test]
    fn the_unused_form_stops_as_an_unusable_mode() {
        for word in [0o7000, 0o7777, 0o7040] {
            for budget in [1, 8] {
                let mut bench = writing(&[0o1011, 0o1400]);
                bench.put(0o6010, &[word]);
                bench.registers.pen_hold = true;
                bench.registers.stop_request = true;
                bench.registers.motion = character(0o1011, Side::Left, Stage::TableWord);
                let before = bench.registers;
                assert_eq!(bench.run(budget), ended(Ending::UnusableMode, 1, 0));
                let after = Registers {
                    pen_enable: true,
                    pen_hold: false,
                    running: false,
                    motion: character(0o1011, Side::Right, Stage::TableWord),
                    ..before
                };
                assert_eq!(bench.registers, after);
            }
        }
        // Resumed, the right character is drawn.
        let mut bench = writing(&[0o1011, 0o0400, 0o1400]);
        assert_eq!(bench.run(50), ended(Ending::UnusableMode, 2, 0));
        bench.registers = operate(bench.registers, 4, 0).0;
        assert_eq!(bench.run(50), ended(Ending::InternalStop, 7, 2));
        // In a right character, and of seven bits, nothing is left.
        let mut bench = writing(&[0o0010]);
        assert_eq!(bench.run(50), ended(Ending::UnusableMode, 3, 0));
        assert_eq!(bench.registers.motion, Motion::Nothing);
        assert_eq!(bench.registers.state, State::Data);
        let mut bench = writing(&[0o0010]);
        bench.registers.seven_bit_codes = true;
        assert_eq!(bench.run(50), ended(Ending::UnusableMode, 2, 0));
        assert_eq!(bench.registers.motion, Motion::Nothing);
    }

    #[test]
    fn each_fetch_ends_hold_and_no_move_does() {
        for stage in [Stage::TableWord, routine(false, 0o6210)] {
            let mut bench = written(stage);
            bench.registers.pen_hold = true;
            assert_eq!(bench.run(1).beats, 1);
            assert!(!bench.registers.pen_hold && bench.registers.pen_enable);
            // Not where the word is not lent, or too wide.
            let mut bench = written(stage);
            bench.registers.pen_hold = true;
            let before = bench.registers;
            bench.put(0o6011, &[0o10000]);
            bench.put(0o6210, &[0o10000]);
            assert_eq!(bench.run(9), ended(Ending::WordTooWide, 0, 0));
            assert_eq!(bench.registers, before);
            bench.loan.file = range(0, 0);
            bench.loan.list = range(0, 0);
            let address = if stage == Stage::TableWord {
                0o6011
            } else {
                0o6210
            };
            let fenced = Ending::FetchOutsideLoan(address);
            assert_eq!(bench.run(9), ended(fenced, 0, 0));
            assert_eq!(bench.registers, before);
        }
        for stage in [moves(Side::Left), Stage::Line(half_a_line(true))] {
            let mut bench = written(stage);
            bench.registers.pen_hold = true;
            assert_eq!(bench.run(1), ended(Ending::BudgetSpent, 1, 1));
            assert!(bench.registers.pen_hold && !bench.registers.pen_enable);
        }
        let mut bench = writing(&[0o1111]);
        bench.registers.pen_hold = true;
        bench.run(1);
        assert!(!bench.registers.pen_hold && bench.registers.pen_enable);
        // A parameter character's own pen change comes after.
        let after = after_one(0o4040, |registers| registers.pen_hold = true);
        assert!(!after.pen_hold && !after.pen_enable);
    }

    #[test]
    fn the_fetches_are_touches_of_either_range() {
        for (lent, fenced) in [
            (&[][..], 0o200),
            (&[0o200][..], 0o6011),
            (&[0o200, 0o6011], 0o6210),
        ] {
            let mut bench = writing(&[0o1111]);
            bench.loan.file = match lent {
                [] => range(0, 0o200),
                [first, ..] => range(*first, first + 1),
            };
            bench.loan.list = match lent {
                [_, second] => range(*second, second + 1),
                _ => range(0, 0),
            };
            let beats = lent.len() as u32;
            let ending = Ending::FetchOutsideLoan(fenced);
            assert_eq!(bench.run(9), ended(ending, beats, 0));
            assert!(bench.registers.running);
            // All lent, it goes on from there.
            bench.loan = Loan::all();
            assert_eq!(
                bench.run(9 - beats),
                ended(Ending::BudgetSpent, 9 - beats, 4)
            );
            assert_eq!(bench.registers.motion, Motion::Nothing);
        }
    }

    #[test]
    fn a_request_waits_for_both_characters() {
        let mut bench = writing(&[0o1111, 0o0012]);
        assert_eq!(bench.run(1), ended(Ending::BudgetSpent, 1, 0));
        bench.registers = operate(bench.registers, 6, 0).0;
        assert_eq!(bench.run(50), ended(Ending::ExternalStop, 8, 4));
        assert_eq!(bench.registers.held(), Some(0o0012));
        assert_eq!(bench.registers.display_address, 0o201);
        // A left escape to control state finishes the word.
        let mut bench = writing(&[0o0411, 0o0013]);
        assert_eq!(bench.run(1), ended(Ending::BudgetSpent, 1, 0));
        bench.registers = operate(bench.registers, 6, 0).0;
        assert_eq!(bench.run(50), ended(Ending::ExternalStop, 1, 0));
        assert_eq!(bench.registers.held(), Some(0o0013));
        assert_eq!(bench.registers.state, State::Control);
        // Before the word is fetched it is held, and not begun.
        let mut bench = writing(&[0o1111]);
        bench.registers.stop_request = true;
        assert_eq!(bench.run(50), ended(Ending::ExternalStop, 0, 0));
        assert_eq!(bench.registers.held(), Some(0o1111));
        assert_eq!(bench.registers.motion, Motion::Nothing);
    }

    #[test]
    fn a_character_keeps_the_held_word_for_the_next_command() {
        let mut bench = written(Stage::TableWord);
        bench.registers.hold(0o0404);
        bench.put(0o200, &[0o10000]);
        assert_eq!(bench.run(8), ended(Ending::BudgetSpent, 8, 4));
        assert_eq!(bench.registers.held(), Some(0o0404));
        assert_eq!(bench.run(2), ended(Ending::BudgetSpent, 2, 0));
        assert_eq!(bench.registers.held(), None);
        assert_eq!(bench.registers.state, State::Control);
    }

    #[test]
    fn a_routine_goes_on_behind_the_end_of_memory() {
        for (dispatch, first, second) in [(0o0777, 0o5050, 0o4000), (0o2777, 0o4002, 0o4041)] {
            let mut bench = writing(&[0o0101]);
            bench.registers.starting_address = 0o77;
            bench.put(0o77001, &[dispatch]);
            bench.put(0o77777, &[first, second]);
            let motion = character(0o0101, Side::Left, routine(dispatch > 0o2000, 0));
            assert_eq!(bench.run(5), ended(Ending::BudgetSpent, 5, 2));
            assert_eq!(bench.registers.motion, motion);
            assert_eq!(bench.run(2), ended(Ending::BudgetSpent, 2, 1));
            assert_eq!(told(&bench, 1), [(0, 103, 200)]);
            let right = character(0o0101, Side::Right, Stage::TableWord);
            assert_eq!(bench.registers.motion, right);
        }
    }

    #[test]
    fn a_routine_already_found_stays_where_it_is() {
        let mut bench = writing(&[0o1111]);
        assert_eq!(bench.run(2), ended(Ending::BudgetSpent, 2, 0));
        // The register changes for the right character, whose table is all 0 there.
        bench.registers = operate(bench.registers, 30, 0o0677).0;
        assert_eq!(bench.run(3), ended(Ending::BudgetSpent, 3, 2));
        let right = Character {
            word: 0o1111,
            seven_bits: false,
            side: Side::Right,
            stage: Stage::TableWord,
        };
        assert_eq!(bench.registers.motion, Motion::Character(right));
        assert_eq!(bench.run(1), ended(Ending::BudgetSpent, 1, 0));
        let found = character(0o1111, Side::Right, routine(false, 0o77000));
        assert_eq!(bench.registers.motion, found);
    }

    #[test]
    fn a_zero_vector_lights_nothing_and_ends_only_by_its_escape() {
        for (word, escape) in [
            (0o0000, false),
            (0o6020, false),
            (0o0040, true),
            (0o6060, true),
        ] {
            let mut bench = written(routine(true, 0o6212));
            bench.put(0o6212, &[word]);
            bench.registers.conditions = 0o0010;
            assert_eq!(bench.run(1), ended(Ending::BudgetSpent, 1, 0));
            let motion = if escape {
                character(0o1111, Side::Right, Stage::TableWord)
            } else {
                character(0o1111, Side::Left, routine(true, 0o6213))
            };
            assert_eq!(bench.registers.motion, motion, "{word:o}");
        }
    }

    #[test]
    fn a_character_ends_with_an_edge_stop_too() {
        // The escaping move passes the edge.
        let mut bench = writing(&[0o1111]);
        bench.registers.x = 1_022;
        assert_eq!(bench.run(50), ended(Ending::Edge, 5, 1));
        let right = character(0o1111, Side::Right, Stage::TableWord);
        assert_eq!(bench.registers.motion, right);
        assert!(bench.registers.horizontal_edge_flag && !bench.registers.running);
        assert_eq!(bench.registers.state, State::Data);
        // The first move does: the right byte is left, and goes on after a resume.
        let mut bench = writing(&[0o1111]);
        bench.registers.x = 1_023;
        assert_eq!(bench.run(50), ended(Ending::Edge, 4, 0));
        let left = character(0o1111, Side::Left, moves(Side::Right));
        assert_eq!(bench.registers.motion, left);
        bench.registers = operate(bench.registers, 4, 0).0;
        assert_eq!(bench.run(1), ended(Ending::BudgetSpent, 1, 1));
        assert_eq!(told(&bench, 1), [(0o6210, 1, 200)]);
        // With bit 9 it goes on at once.
        let mut bench = writing(&[0o1111]);
        bench.registers.x = 1_023;
        bench.registers.conditions = 0o0004;
        assert_eq!(bench.run(5), ended(Ending::BudgetSpent, 5, 1));
    }

    #[test]
    fn a_full_list_leaves_the_move_to_be_made() {
        let mut bench = writing(&[0o1111]);
        bench.points = vec![0; 1];
        assert_eq!(bench.run(50), ended(Ending::PointListFull, 4, 1));
        let left = character(0o1111, Side::Left, moves(Side::Right));
        assert_eq!(bench.registers.motion, left);
        assert_eq!(bench.registers.x, 101);
    }

    #[test]
    fn carriage_return_is_no_move() {
        let mut bench = writing(&[0o0202]);
        bench.registers.conditions = 0o0010;
        bench.registers.x = 0o12345;
        assert_eq!(bench.run(3), ended(Ending::BudgetSpent, 3, 0));
        assert_eq!(bench.registers.x, 0o12000);
        bench.registers.x = 0o345;
        bench.registers.motion = character(0o0202, Side::Right, Stage::TableWord);
        assert_eq!(bench.run(1), ended(Ending::BudgetSpent, 1, 0));
        assert_eq!(bench.registers.x, 0);
    }

    /// The same character in every state and mode: it leaves the same but for these two.
    #[test]
    fn a_character_goes_on_the_same_in_every_state_and_mode() {
        for stage in [
            Stage::TableWord,
            routine(false, 0o6210),
            routine(true, 0o6212),
            moves(Side::Left),
            moves(Side::Right),
            Stage::Line(half_a_line(false)),
            Stage::Line(half_a_line(true)),
        ] {
            for x in [100, 1_023] {
                for beats in 1..=4 {
                    let mut usual = written(stage);
                    usual.registers.x = x;
                    let answer = usual.run(beats);
                    for (state, mode) in (0..8)
                        .map(|mode| (State::Data, mode))
                        .chain((0..8).map(|mode| (State::Control, mode)))
                    {
                        let mut bench = written(stage);
                        bench.registers.x = x;
                        bench.registers.state = state;
                        bench.registers.mode = mode;
                        assert_eq!(bench.run(beats), answer);
                        assert_eq!(bench.points, usual.points);
                        let expected = Registers {
                            state,
                            mode,
                            ..usual.registers
                        };
                        assert_eq!(bench.registers, expected);
                    }
                }
            }
        }
    }

    #[test]
    fn the_state_and_mode_count_behind_the_character_word() {
        // In control state the next word is a control word.
        let mut bench = writing(&[0o1400]);
        bench.registers.state = State::Control;
        bench.registers.motion = character(0o1111, Side::Right, Stage::TableWord);
        assert_eq!(bench.run(50), ended(Ending::InternalStop, 5, 2));
        // In mode 7 comes ending 15.
        let mut bench = writing(&[]);
        bench.registers.mode = 7;
        bench.registers.motion = character(0o1111, Side::Right, Stage::TableWord);
        assert_eq!(bench.run(50), ended(Ending::UnusableMode, 4, 2));
        // A miscellaneous escape sets control state in any mode, which stays.
        for mode in 0..8 {
            let mut bench = writing(&[]);
            bench.registers.mode = mode;
            bench.registers.motion = character(0o1104, Side::Right, Stage::TableWord);
            assert_eq!(bench.run(1), ended(Ending::BudgetSpent, 1, 0));
            assert_eq!(bench.registers.state, State::Control);
            assert_eq!(bench.registers.mode, mode);
        }
    }

    #[test]
    fn a_right_character_of_seven_bits_is_the_last() {
        let odd = Motion::Character(Character {
            word: 0o7711,
            seven_bits: true,
            side: Side::Right,
            stage: Stage::TableWord,
        });
        let mut bench = writing(&[]);
        bench.put(0o6111, &[0o0210]);
        bench.registers.motion = odd;
        assert_eq!(bench.run(4), ended(Ending::BudgetSpent, 4, 2));
        assert_eq!(bench.registers.motion, Motion::Nothing);
    }

    #[test]
    fn a_right_byte_behind_an_escaping_left_one_goes_on() {
        let bytes = |word| {
            Stage::Bytes(Bytes {
                word,
                side: Side::Right,
                moves_left: 1,
                last_word: 0o54321,
            })
        };
        for (word, left) in [
            (
                0o0050,
                character(0o1111, Side::Left, routine(false, 0o54322)),
            ),
            (0o0040, character(0o1111, Side::Right, Stage::TableWord)),
        ] {
            let mut bench = written(bytes(word));
            assert_eq!(bench.run(1), ended(Ending::BudgetSpent, 1, 1));
            assert_eq!(told(&bench, 1), [(0o54321, 101, 200)]);
            assert_eq!(bench.registers.motion, left);
        }
    }

    #[test]
    fn condition_bit_8_lights_the_moves_of_a_routine() {
        // Line feed: nine dark moves down and an escape.
        let mut bench = writing(&[0o0303]);
        bench.registers.conditions = 0o0010;
        assert_eq!(bench.run(12), ended(Ending::BudgetSpent, 12, 9));
        assert_eq!(told(&bench, 9)[8], (0o6206, 100, 191));
    }
}
