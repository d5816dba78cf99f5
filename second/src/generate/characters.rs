//! Cases of 02, No. 6: text with a table and routines that mean something, unfinished characters of
//! every stage in every state and mode, loans that leave out one of the three fetches, and text
//! among any words.

use super::{
    address, beyond, beyond_eight_bits, budget, bytes, default_word, increment_word, kept_pairs,
    line, memory_length, range, range_beside, range_of, registers_in_range, room, spoil, wild_word,
    word_to_hold, Chance, File, GREATEST_PAIRS,
};
use crate::characters::table_address;
use crate::data_words::{x_dimension, y_dimension};
use crate::refusals_and_endings::{Loan, MEMORY_LENGTH};
use crate::registers::{
    address_after, byte_moves, byte_of, Bytes, Character, Line, Motion, Registers, Routine, Side,
    Stage, State, ADDRESSES, SECTOR,
};
use crate::replay::{Case, GivenMemory, RunCase};

// ---------------------------------------------------------------- unfinished characters

/// An unfinished character that 02, No. 6 allows, in character mode or in any state and mode.
pub fn put_in_character(chance: &mut Chance, registers: &mut Registers) {
    if chance.percent(50) {
        registers.state = State::Data;
        registers.mode = 5;
    } else {
        put_in_any_state(chance, registers);
    }
    let stage = match chance.between(0, 3) {
        0 => Stage::TableWord,
        1 => Stage::RoutineWord(Routine {
            short_vectors: chance.coin(),
            next: address(chance),
        }),
        2 => Stage::Bytes(routine_bytes(chance, registers.display_address)),
        _ => Stage::Line(line(chance, registers.display_address)),
    };
    registers.motion = Motion::Character(Character {
        word: word_to_hold(chance),
        seven_bits: chance.percent(30),
        side: side(chance),
        stage,
    });
}

/// Mode 5 in either state, with an unfinished character or without a motion.
pub fn put_in_mode_5(chance: &mut Chance, registers: &mut Registers) {
    if !matches!(registers.motion, Motion::Character(_)) {
        registers.motion = Motion::Nothing;
    }
    registers.state = if chance.coin() {
        State::Control
    } else {
        State::Data
    };
    registers.mode = 5;
}

fn side(chance: &mut Chance) -> Side {
    if chance.coin() {
        Side::Left
    } else {
        Side::Right
    }
}

/// Bytes that a routine may leave, or a right byte behind a left one that escapes.
fn routine_bytes(chance: &mut Chance, display_address: u16) -> Bytes {
    let bytes = bytes(chance, display_address);
    if bytes.side == Side::Right && chance.percent(30) {
        let word = bytes.word & !0o3000;
        return Bytes { word, ..bytes };
    }
    bytes
}

/// The starting address register or one part of a character put out of range, each in its turn.
pub fn spoil_character(chance: &mut Chance, registers: &mut Registers) {
    if chance.percent(12) {
        registers.starting_address = beyond_eight_bits(chance, 64);
        return;
    }
    put_in_character(chance, registers);
    let Motion::Character(mut character) = registers.motion else {
        return;
    };
    match chance.between(0, 11) {
        0 => character.word = beyond(chance, 4_096),
        1..=2 => {
            character.stage = Stage::RoutineWord(Routine {
                short_vectors: chance.coin(),
                next: beyond(chance, ADDRESSES),
            });
        }
        3..=5 => {
            let bytes = routine_bytes(chance, registers.display_address);
            character.stage = Stage::Bytes(spoiled_bytes(chance, bytes));
        }
        _ => {
            let line = line(chance, registers.display_address);
            character.stage = Stage::Line(spoiled_line(chance, line));
        }
    }
    registers.motion = Motion::Character(character);
}

fn spoiled_bytes(chance: &mut Chance, bytes: Bytes) -> Bytes {
    let mut bytes = bytes;
    match chance.between(0, 3) {
        0 => bytes.word |= 0o10000,
        1 => bytes.moves_left = 0,
        // Up to 255 only: a wider count may not fit the other simulator's type.
        2 => bytes.moves_left = byte_moves(bytes.byte()) + chance.pick(&[1, 1, 1, 2, 200]),
        _ => bytes.last_word = beyond(chance, ADDRESSES),
    }
    bytes
}

fn spoiled_line(chance: &mut Chance, line: Line) -> Line {
    let mut line = line;
    match chance.between(0, 6) {
        0 => {
            line.y_magnitude = beyond(chance, 1_024);
            line.moves = line.y_magnitude;
        }
        1 => {
            line.x_magnitude = beyond(chance, 1_024);
            line.moves = line.x_magnitude;
        }
        2 => line.moves += 1,
        3 => line.moves -= 1,
        4 => line.done = line.moves,
        5 => line.last_word = beyond(chance, ADDRESSES),
        _ => {
            line.y_magnitude = 0;
            line.x_magnitude = 0;
            line.moves = 0;
            line.done = 0;
        }
    }
    line
}

/// Case, code size and register, or with another bit too.
pub fn operand_30(chance: &mut Chance) -> u32 {
    let good = u32::from(chance.good_word()) & 0o0677;
    match chance.between(0, 11) {
        0..=2 => good | chance.pick(&[0o4000, 0o2000, 0o1000, 0o0100]),
        3 => u32::from(chance.good_word()),
        4 => chance.pick(&[0o10000, 0o10677, 65_536, 65_542, u32::MAX]),
        5 => 0o0677,
        6 => 0,
        _ => good,
    }
}

// ---------------------------------------------------------------- tables and routines

/// A routine as it is written, from its first word on.
struct WrittenRoutine {
    short_vectors: bool,
    file: File,
}

impl WrittenRoutine {
    /// The address of one of its words, with the word.
    fn a_word(&self, chance: &mut Chance) -> (u16, u16) {
        let place = chance.between(0, self.file.words.len() as u16 - 1);
        let address = address_after(self.file.first, place);
        (address, self.file.words[usize::from(place)])
    }
}

/// One table with its routines.
struct Font {
    start: u16,
    table: Vec<(u16, u16)>,
    routines: Vec<WrittenRoutine>,
}

impl Font {
    /// The characters of these codes in both cases. `other` is the register of another font.
    fn new(chance: &mut Chance, register: u8, codes: &[u16], other: u8) -> Font {
        let start = 512 * u16::from(register);
        let count = chance.between(1, 3);
        let routines: Vec<WrittenRoutine> = (0..count).map(|_| routine(chance, start)).collect();
        let mut table = Vec::new();
        for &code in codes {
            let word = table_word(chance, &routines, other);
            table.push((start + code, word));
            let upper = if chance.coin() {
                word
            } else {
                table_word(chance, &routines, other)
            };
            table.push((start + 64 + code, upper));
        }
        Font {
            start,
            table,
            routines,
        }
    }

    fn pairs(&self) -> Vec<(u16, u16)> {
        let routines = self
            .routines
            .iter()
            .flat_map(|routine| routine.file.pairs());
        routines.chain(self.table.iter().copied()).collect()
    }
}

/// A routine of one to three words, the last of which usually escapes. It begins where a dispatch
/// word can lead: behind the table, in the part that an even register reaches alone, or at the very
/// end, which for the last registers is the end of memory.
fn routine(chance: &mut Chance, table_start: u16) -> WrittenRoutine {
    let at_the_end = if table_start >= 0o76000 { 7 } else { 1 };
    let low_ten = if chance.between(0, 9) < at_the_end {
        chance.pick(&[0o1775, 0o1776, 0o1777, 0o1777])
    } else {
        match chance.between(0, 9) {
            0..=5 => chance.between(0o200, 0o767),
            6..=8 => chance.between(0o1000, 0o1767),
            _ => chance.between(0, 0o1777),
        }
    };
    let short_vectors = chance.percent(45);
    let mut file = File::new(table_start | low_ten);
    let count = chance.between(1, 3);
    for place in 1..=count {
        let escape = place == count && chance.percent(92);
        file.push(if short_vectors {
            short_vector(chance, escape)
        } else {
            increment_word(chance, escape)
        });
    }
    WrittenRoutine {
        short_vectors,
        file,
    }
}

/// A short vector, mostly of a few moves, or of none.
fn short_vector(chance: &mut Chance, escape: bool) -> u16 {
    let kept = match chance.between(0, 9) {
        0..=2 => 0o2020,
        3..=7 => 0o2323,
        _ => 0o3737,
    };
    let signs_and_magnitudes = chance.good_word() & kept;
    let lit = if chance.percent(65) { 0o4000 } else { 0 };
    let escape = if escape { 0o0040 } else { 0 };
    lit | escape | signs_and_magnitudes
}

/// A word of the table: mostly one that leads to a routine, else a control character of each form.
fn table_word(chance: &mut Chance, routines: &[WrittenRoutine], other: u8) -> u16 {
    match chance.between(0, 99) {
        0..=51 => {
            let routine = &routines[usize::from(chance.between(0, routines.len() as u16 - 1))];
            // Now and then a routine of the other kind.
            let short_vectors = routine.short_vectors ^ chance.percent(6);
            (u16::from(short_vectors) << 10) | (routine.file.first & 0o1777)
        }
        52..=62 => 0o4000 | chance.between(0, 0o777),
        63..=67 => 0o5000 | chance.between(0, 0o777),
        // To the other font, or from one case to the other in this one.
        68..=71 => 0o5300 | (chance.between(0, 1) << 8) | u16::from(other),
        72..=74 => 0o5000 | (chance.between(0, 1) << 8),
        75..=83 => 0o6000 | (chance.between(0, 0o777) & 0o737),
        84..=90 => 0o6040 | chance.between(0, 0o777),
        91..=95 => 0o7000 | chance.between(0, 0o777),
        _ => chance.good_word(),
    }
}

/// A register, those at both ends and odd ones often.
fn register(chance: &mut Chance) -> u8 {
    match chance.between(0, 9) {
        0..=1 => 0o77,
        2 => 0o76,
        3 => 0,
        4 => chance.between(0, 31) as u8 * 2 + 1,
        _ => chance.between(0, 63) as u8,
    }
}

/// A few codes of six bits, the least and the greatest often.
fn codes(chance: &mut Chance) -> Vec<u16> {
    let count = chance.between(2, 4);
    let code = |chance: &mut Chance| match chance.between(0, 9) {
        0 => 0,
        1..=2 => 0o77,
        _ => chance.between(0, 0o77),
    };
    (0..count).map(|_| code(chance)).collect()
}

/// A character word of these codes. In seven bits the right one counts with the bit before it.
fn character_word(chance: &mut Chance, codes: &[u16]) -> u16 {
    (chance.pick(codes) << 6) | chance.pick(codes)
}

// ---------------------------------------------------------------- text

/// A display that writes, or is about to: at a character word, held or not, in the middle of a
/// character, or before the mode word. The budget often ends in mid character.
pub fn text_run(chance: &mut Chance) -> RunCase {
    let mut registers = registers_in_range(chance);
    registers.running = chance.percent(97);
    registers.stop_request = chance.percent(15);
    registers.starting_address = register(chance);
    if chance.percent(80) {
        registers.x %= SECTOR;
        registers.y %= SECTOR;
    }
    if chance.percent(20) {
        put_near_an_edge(chance, &mut registers);
    }
    if chance.percent(15) {
        registers.display_address = chance.pick(&[0o77776, 0o77777, 0]);
    }
    let codes = if chance.percent(12) {
        put_at_an_end_of_tables(chance, &mut registers)
    } else {
        codes(chance)
    };
    let other = register(chance);
    let font = Font::new(chance, registers.starting_address, &codes, other);
    let other_font = Font::new(chance, other, &codes[..1], registers.starting_address);

    registers.motion = Motion::Nothing;
    registers.state = State::Data;
    registers.mode = 5;
    let mut text = File::new(registers.display_address);
    match chance.between(0, 19) {
        0..=7 => {}
        8..=13 => registers.motion = Motion::Character(begun(chance, &registers, &font, &codes)),
        14..=18 => {
            registers.motion = Motion::Character(begun(chance, &registers, &font, &codes));
            put_in_any_state(chance, &mut registers);
            if registers.state == State::Control && chance.percent(40) {
                text.push(0o1400);
            }
        }
        _ => {
            registers.state = State::Control;
            text.push(0o1151 | (chance.between(0, 1) << 2));
        }
    }
    for _ in 0..chance.between(2, 5) {
        text.push(character_word(chance, &codes));
    }
    for _ in 0..chance.between(1, 3) {
        text.push(wild_word(chance));
    }
    registers.drop_held_word();
    if chance.percent(30) {
        registers.hold(match chance.between(0, 9) {
            0..=1 => word_to_hold(chance),
            _ => text.words[0],
        });
    }
    let mut pairs = other_font.pairs();
    pairs.extend(font.pairs());
    pairs.extend(text.pairs());
    pairs.extend(changed_word(chance, &pairs));
    pairs.extend(first_control_character(chance, &registers));
    let loan = loan(chance, &registers, &font, &text);
    let budget = match chance.between(0, 9) {
        0..=4 => u32::from(chance.between(1, 12)),
        5 => u32::from(chance.between(0, 3)),
        _ => budget(chance),
    };
    if chance.percent(5) {
        spoil_character(chance, &mut registers);
    }
    let memory_length = memory_length(chance);
    RunCase {
        registers,
        budget,
        loan,
        room: if chance.percent(12) { 0 } else { room(chance) },
        given: GivenMemory {
            length: memory_length,
            default: default_word(chance),
            pairs: kept_pairs(pairs, memory_length),
        },
    }
}

/// Any state and mode, those where another motion or the turn has rules of its own often.
fn put_in_any_state(chance: &mut Chance, registers: &mut Registers) {
    registers.state = if chance.percent(25) {
        State::Control
    } else {
        State::Data
    };
    registers.mode = chance.pick(&[0, 1, 2, 3, 3, 3, 4, 5, 6, 7, 7]);
}

/// The beam a few steps from an end of the paper, on one axis or on both.
fn put_near_an_edge(chance: &mut Chance, registers: &mut Registers) {
    let dimensions = [
        x_dimension(registers.conditions),
        y_dimension(registers.conditions),
    ];
    let [x, y] = dimensions.map(|dimension| {
        let steps = chance.between(0, 3);
        if chance.coin() {
            steps
        } else {
            (1 << dimension) - 1 - steps
        }
    });
    if chance.percent(65) {
        registers.x = x;
    }
    if chance.percent(65) {
        registers.y = y;
    }
}

/// The first or the last table word there is, whatever code is called.
fn put_at_an_end_of_tables(chance: &mut Chance, registers: &mut Registers) -> Vec<u16> {
    let last = chance.coin();
    registers.upper_case = last;
    registers.starting_address = if last { 0o77 } else { 0 };
    vec![if last { 0o77 } else { 0 }; 2]
}

/// A character of the font at any stage.
fn begun(chance: &mut Chance, registers: &Registers, font: &Font, codes: &[u16]) -> Character {
    let routine = &font.routines[usize::from(chance.between(0, font.routines.len() as u16 - 1))];
    let (address, word) = routine.a_word(chance);
    let stage = match chance.between(0, 9) {
        0..=3 => Stage::TableWord,
        4..=5 => Stage::RoutineWord(Routine {
            short_vectors: routine.short_vectors,
            next: address,
        }),
        6..=7 => {
            let bytes = if routine.short_vectors {
                routine_bytes(chance, registers.display_address)
            } else {
                bytes_of(chance, word)
            };
            Stage::Bytes(Bytes {
                last_word: address,
                ..bytes
            })
        }
        _ => Stage::Line(Line {
            last_word: address,
            ..line(chance, registers.display_address)
        }),
    };
    Character {
        word: character_word(chance, codes),
        seven_bits: registers.seven_bit_codes ^ chance.percent(20),
        side: side(chance),
        stage,
    }
}

/// One of the bytes of a word, with some of its moves left.
fn bytes_of(chance: &mut Chance, word: u16) -> Bytes {
    let side = side(chance);
    Bytes {
        word,
        side,
        moves_left: chance.between(1, byte_moves(byte_of(word, side))),
        last_word: 0,
    }
}

/// Now and then another word, or one that is too wide, in the place of one that is written.
fn changed_word(chance: &mut Chance, pairs: &[(u16, u16)]) -> Option<(u16, u16)> {
    let (place, _) = chance.pick(pairs);
    match chance.between(0, 9) {
        0..=1 => Some((place, chance.wide_word())),
        2 => Some((place, chance.good_word())),
        _ => None,
    }
}

/// Where the next beat fetches a table word: now and then one of each form of control characters.
fn first_control_character(chance: &mut Chance, registers: &Registers) -> Option<(u16, u16)> {
    let Motion::Character(character) = registers.motion else {
        return None;
    };
    if character.stage != Stage::TableWord || chance.percent(40) {
        return None;
    }
    let in_character_mode = registers.state == State::Data && registers.mode == 5;
    let word = match chance.between(0, 9) {
        // Elsewhere mostly an escape.
        2..=9 if !in_character_mode => 0o6040 | chance.between(0, 0o777),
        0 => 0o4000 | chance.between(0, 0o777),
        // The pen turned off.
        1 => 0o4040 | (chance.between(0, 0o777) & 0o757),
        2 => 0o5000 | chance.between(0, 0o777),
        3 => 0o6000 | chance.between(0, 0o777),
        4..=5 => 0o6040 | chance.between(0, 0o777),
        6 => 0o6764 | (chance.between(0, 0o777) & 0o213),
        _ => 0o7000 | chance.between(0, 0o777),
    };
    Some((table_address(registers, character), word))
}

/// All of memory, or all but one word that is fetched; or the text, the table or the routines alone.
fn loan(chance: &mut Chance, registers: &Registers, font: &Font, text: &File) -> Loan {
    let routine = &font.routines[usize::from(chance.between(0, font.routines.len() as u16 - 1))];
    let (routine_word, _) = routine.a_word(chance);
    let (table_word, _) = chance.pick(&font.table);
    let text_word = address_after(text.first, chance.between(0, 3));
    let next = match registers.motion {
        Motion::Character(character) => match character.stage {
            Stage::RoutineWord(routine) => routine.next,
            Stage::Bytes(bytes) => address_after(bytes.last_word, 1),
            Stage::Line(line) => address_after(line.last_word, 1),
            Stage::TableWord => table_word,
        },
        _ => text_word,
    };
    let word = chance.pick(&[
        routine_word,
        routine_word,
        table_word,
        table_word,
        text_word,
        next,
    ]);
    match chance.between(0, 19) {
        0..=9 => Loan::all(),
        10..=15 => Loan {
            file: range(0, word),
            list: range(word + 1, 32_768),
        },
        16 => Loan {
            file: range_of(text.first, text.words.len() as u16),
            list: range_of(font.start, chance.pick(&[128, 512, 1_024])),
        },
        17 => Loan {
            file: range_beside(chance, word),
            list: range_of(font.start, 1_024),
        },
        18 => Loan {
            file: range(0, 0),
            list: range(0, 0),
        },
        _ => super::loan(
            chance,
            text.first,
            text.words.len() as u16,
            font.start & 0o7777,
        ),
    }
}

// ---------------------------------------------------------------- every word

/// Every word as a table word of six bits and of seven, and as a word of both kinds of routine at
/// the end of memory, without a seed.
pub fn cases_of_every_character_word() -> Vec<Case> {
    let mut cases = Vec::new();
    for word in 0..=0o7777 {
        for seven_bits in [false, true] {
            // 01 in the left place and in the right one, or 101 in both cases.
            let pairs = vec![(0o77001, word), (0o77101, word)];
            cases.push(case_of(seven_bits, Stage::TableWord, pairs));
        }
        for short_vectors in [false, true] {
            let stage = Stage::RoutineWord(Routine {
                short_vectors,
                next: 0o77777,
            });
            cases.push(case_of(false, stage, vec![(0o77777, word)]));
        }
    }
    cases
}

/// The word 0101o at this stage of its left character, with a beam, a scale, an intensity and a pen
/// that show what each bit of a control character does. The words that are not given make a dark
/// move to the right and escape.
fn case_of(seven_bits: bool, stage: Stage, pairs: Vec<(u16, u16)>) -> Case {
    let registers = Registers {
        display_address: 0o200,
        x: 1_015,
        y: 500,
        state: State::Data,
        mode: 5,
        scale: 1,
        intensity: 5,
        pen_hold: true,
        conditions: 0o0020,
        running: true,
        upper_case: true,
        starting_address: 0o77,
        motion: Motion::Character(Character {
            word: 0o0101,
            seven_bits,
            side: Side::Left,
            stage,
        }),
        ..Registers::fresh()
    };
    Case::Run(RunCase {
        registers,
        budget: 40,
        loan: Loan::all(),
        room: 40,
        given: GivenMemory {
            length: MEMORY_LENGTH,
            default: 0,
            pairs,
        },
    })
}

// ---------------------------------------------------------------- text among any words

/// Character mode or an unfinished character among words of every kind, most of them where the
/// display may fetch.
pub fn wild_text_run(chance: &mut Chance) -> RunCase {
    let mut registers = registers_in_range(chance);
    registers.running = chance.percent(96);
    registers.stop_request = chance.percent(8);
    if chance.coin() {
        put_in_character(chance, &mut registers);
    } else {
        registers.motion = Motion::Nothing;
        registers.state = State::Data;
        registers.mode = 5;
    }
    if chance.coin() {
        // The table lies where the text is.
        registers.starting_address = (registers.display_address / 512) as u8;
    }
    let start = 512 * u16::from(registers.starting_address);
    let mut pairs = Vec::new();
    for _ in 0..chance.between(8, GREATEST_PAIRS as u16) {
        let place = match chance.between(0, 9) {
            0..=1 => address_after(registers.display_address, chance.between(0, 6)),
            2..=6 => start + chance.between(0, 127),
            7..=8 => start | chance.between(0, 0o1777),
            _ => chance.between(0, 0o77777),
        };
        pairs.push((place, any_word(chance)));
    }
    if chance.percent(3) {
        spoil(chance, &mut registers);
    }
    let memory_length = memory_length(chance);
    RunCase {
        registers,
        budget: budget(chance),
        loan: if chance.percent(70) {
            Loan::all()
        } else {
            super::loan(
                chance,
                registers.display_address,
                32,
                registers.pushdown_pointer,
            )
        },
        room: room(chance),
        given: GivenMemory {
            length: memory_length,
            default: if chance.percent(70) {
                chance.good_word()
            } else {
                default_word(chance)
            },
            pairs: kept_pairs(pairs, memory_length),
        },
    }
}

fn any_word(chance: &mut Chance) -> u16 {
    if chance.percent(2) {
        chance.wide_word()
    } else {
        chance.good_word()
    }
}

#[cfg(test)]
mod tests {
    use super::super::tests::{outcome, runs};
    use super::*;
    use crate::refusals_and_endings::Ending;

    fn in_a_character(registers: &Registers) -> bool {
        matches!(registers.motion, Motion::Character(_))
    }

    /// 02, No. 6: until its word is finished a character goes on the same whatever state and mode
    /// say; only its escape changes the state.
    #[test]
    fn a_character_goes_on_the_same_in_every_state_and_mode() {
        let mut chance = Chance::new(77);
        let (mut beats, mut escapes) = (0, 0);
        for mut case in runs(10, 10_000) {
            if !in_a_character(&case.registers) || !case.registers.are_in_range() {
                continue;
            }
            case.registers.state = State::Data;
            let mut other = case.clone();
            put_in_any_state(&mut chance, &mut other.registers);
            let mut left = case.registers;
            for budget in 1..=20 {
                if !in_a_character(&left) {
                    break;
                }
                let [one, two] =
                    [&case, &other].map(|case| outcome(case, case.memory(), case.loan, budget));
                assert_eq!(one.answer, two.answer);
                assert_eq!(one.points, two.points);
                assert_eq!(one.memory, two.memory);
                let escaped = one.registers.state == State::Control;
                let expected = Registers {
                    state: if escaped {
                        State::Control
                    } else {
                        other.registers.state
                    },
                    mode: other.registers.mode,
                    ..one.registers
                };
                assert_eq!(two.registers, expected);
                if one.answer.ending != Ending::BudgetSpent {
                    break;
                }
                left = one.registers;
                beats += 1;
                escapes += u32::from(escaped);
            }
        }
        assert!(beats > 3_000 && escapes > 100, "{beats} {escapes}");
    }

    /// The starting address register and the parts of a character.
    #[test]
    fn spoiled_characters_are_refused_and_no_others() {
        let mut chance = Chance::new(11);
        for _ in 0..3_000 {
            let mut registers = registers_in_range(&mut chance);
            put_in_character(&mut chance, &mut registers);
            assert!(registers.are_in_range(), "{registers:?}");
            spoil_character(&mut chance, &mut registers);
            assert!(!registers.are_in_range(), "{registers:?}");
        }
    }

    #[test]
    fn every_word_is_a_table_word_and_a_routine_word() {
        let cases = cases_of_every_character_word();
        assert_eq!(cases.len(), 4 * 4_096);
        let mut left = std::collections::HashSet::new();
        for case in cases {
            let Case::Run(case) = case else {
                panic!("a run was expected");
            };
            let after = outcome(&case, case.memory(), case.loan, case.budget);
            assert!(after.answer.ending.number() > 10);
            left.insert(format!("{:?}", (after.registers, after.points)));
        }
        // Words differ in what they do, but for those whose bits do nothing.
        assert!(left.len() > 6_000, "{}", left.len());
    }

    /// Text goes on for a while before it ends.
    #[test]
    fn text_runs_go_deep() {
        let mut chance = Chance::new(12);
        let (mut running, mut deep, mut lit) = (0, 0, 0);
        for _ in 0..2_000 {
            let case = text_run(&mut chance);
            let after = outcome(&case, case.memory(), case.loan, 60);
            if after.answer.ending.number() > 10 {
                running += 1;
                deep += u32::from(after.answer.beats >= 20);
                lit += after.answer.points;
            }
        }
        assert!(running > 1_500 && 4 * deep > running, "{deep} of {running}");
        assert!(lit > 3_000, "{lit}");
    }
}
