//! The host operations 1 to 12 and 30 and the reads 20 to 26 and 31, with the two status words and
//! the layout of the character generator.

use crate::control_words::{in_bank, Bank};
use crate::refusals_and_endings::Ending;
use crate::registers::{Motion, Registers, Side, Stage, State, POINTERS};
use crate::words::{bit, bit_mask, field, GREATEST_WORD};

/// 01, host operations. The registers, the ending (a refusal or 0) and the answered word.
pub fn operate(registers: Registers, operation: u32, operand: u32) -> (Registers, Ending, u16) {
    if let Some(refusal) = refuse_operation(&registers, operation, operand) {
        return (registers, refusal, 0);
    }
    // The operand was tested, so it fits: no operation takes more than 32,767.
    let operand = operand as u16;
    let mut registers = registers;
    let mut word = 0;
    match operation {
        1 => start(&mut registers, operand),
        2 => registers.pushdown_pointer = operand,
        3 => registers.conditions = operand,
        4 => resume(&mut registers),
        5 => clear(&mut registers),
        6 => request_stop(&mut registers),
        7 => pen_light(&mut registers),
        8 => press_button(&mut registers, operand),
        9 => clear_group(&mut registers, operand),
        10 => registers.manual_interrupt_flag = true,
        11 => registers.manual_interrupt_flag = false,
        12 => registers.idle = true,
        20 => word = registers.pushdown_pointer,
        21 => word = low_twelve(registers.x),
        22 => word = low_twelve(registers.y),
        23 => word = low_twelve(registers.display_address),
        24 => word = read_status_1(&mut registers),
        25 => word = status_2(&registers),
        26 => word = registers.buttons,
        30 => set_character_generator(&mut registers, operand),
        31 => word = character_generator(&registers),
        // No other number passes the refusals.
        _ => {}
    }
    (registers, Ending::Done, word)
}

/// 01, refused calls and run endings: "operations 4, 5, 6; the first that applies is given".
fn refuse_operation(registers: &Registers, operation: u32, operand: u32) -> Option<Ending> {
    if !registers.are_in_range() {
        return Some(Ending::RegistersOutOfRange);
    }
    match greatest_operand(operation) {
        None => Some(Ending::UnknownOperation),
        Some(greatest) if operand > greatest => Some(Ending::OperandOutOfRange),
        Some(_) if operation == 30 && operand & !SETTABLE != 0 => Some(Ending::OperandOutOfRange),
        Some(_) => None,
    }
}

/// 01, host operations: the named ranges, and "Operand 0 where none is named". None for a number
/// that is no operation. 02, No. 6: operation 30 takes no other bit than `SETTABLE`.
fn greatest_operand(operation: u32) -> Option<u32> {
    match operation {
        1 => Some(32_767),
        2 | 3 => Some(u32::from(GREATEST_WORD)),
        8 => Some(11),
        9 => Some(1),
        30 => Some(SETTABLE),
        4..=7 | 10..=12 | 20..=26 | 31 => Some(0),
        _ => None,
    }
}

/// Manual 2.3.2.4: case in bit 3, code size in bit 4, SAR in bits 6 to 11.
const SETTABLE: u32 = 0o0677;

/// 01, operation 1: "sets the address to it; clears mode, the flags that stop, request, hold,
/// motion; control state, running". Pen enable is not named and stays.
fn start(registers: &mut Registers, address: u16) {
    registers.display_address = address;
    clear_for_a_beginning(registers);
    registers.running = true;
}

/// What start and clear have in common. 02, No. 4: "Start and clear drop the held word". The
/// character goes with the motion; case, code size and starting address are not named and stay.
fn clear_for_a_beginning(registers: &mut Registers) {
    registers.mode = 0;
    registers.clear_stopping_flags();
    registers.stop_request = false;
    registers.drop_held_word();
    registers.pen_hold = false;
    registers.motion = Motion::Nothing;
    registers.state = State::Control;
}

/// 01, operation 4: "if stopped, clears those flags and runs; if the pen flag was on and condition
/// bit 2 is 1, pen enable goes off, and hold goes on if bit 3 is 0". A waiting stop request is not
/// named and stays. 02, No. 4: a held word stays for the first command beat that is made.
fn resume(registers: &mut Registers) {
    if registers.running {
        return;
    }
    let pen_flag_was_on = registers.pen_flag;
    registers.clear_stopping_flags();
    registers.running = true;
    if pen_flag_was_on && registers.condition(2) {
        registers.pen_enable = false;
        if !registers.condition(3) {
            registers.pen_hold = true;
        }
    }
}

/// 01, operation 5: "those flags, the low 12 address bits, mode, request, hold, motion; control
/// state, stopped". The break field stays.
fn clear(registers: &mut Registers) {
    registers.display_address -= registers.display_address % POINTERS;
    clear_for_a_beginning(registers);
    registers.running = false;
}

/// 01, operation 6: "stop request; none if stopped". An old request stays either way.
fn request_stop(registers: &mut Registers) {
    if registers.running {
        registers.stop_request = true;
    }
}

/// 01, operation 7: "LPSI on; if running and enabled, pen flag on and stopped".
fn pen_light(registers: &mut Registers) {
    registers.pen_sense = true;
    if registers.running && registers.pen_enable {
        registers.pen_flag = true;
        registers.running = false;
    }
}

/// 01, operation 8: "complements it, sets its bank's hit flag".
fn press_button(registers: &mut Registers, button: u16) {
    registers.buttons ^= bit_mask(button);
    if button <= 5 {
        registers.hit_bank_1 = true;
    } else {
        registers.hit_bank_2 = true;
    }
}

/// 01, operation 9: "clear group 0 or 1 (buttons only)".
fn clear_group(registers: &mut Registers, group: u16) {
    let bank = if group == 0 { Bank::One } else { Bank::Two };
    registers.buttons &= !in_bank(0o77, bank);
}

/// 01, reads 21 to 23: "low 12".
fn low_twelve(value: u16) -> u16 {
    value % POINTERS
}

/// A word from its bits, bit 0 first.
fn word_of(bits: [bool; 12]) -> u16 {
    bits.iter()
        .fold(0, |word, &bit| (word << 1) | u16::from(bit))
}

/// 01, read 24: it "clears both hit flags after reading", so the word shows the old ones.
fn read_status_1(registers: &mut Registers) -> u16 {
    let word = status_1(registers);
    registers.hit_bank_1 = false;
    registers.hit_bank_2 = false;
    word
}

/// Manual 2.3.1.5; 01: "status 1 bit 7 is either hit flag".
fn status_1(registers: &Registers) -> u16 {
    let flags = word_of([
        registers.pen_flag,
        registers.vertical_edge_flag,
        registers.horizontal_edge_flag,
        registers.internal_stop_flag,
        registers.in_sector_0(),
        registers.state == State::Control,
        registers.manual_interrupt_flag,
        registers.hit_bank_1 || registers.hit_bank_2,
        display_interrupt(registers),
        false,
        false,
        false,
    ]);
    flags | registers.break_field()
}

/// 01: status 1 "bit 8 is by 1.1.9.6 and condition bits 0, 1, 10, 11". Manual 1.1.9.6: external
/// stop and manual interrupt always interrupt, the other four flags must be gated.
fn display_interrupt(registers: &Registers) -> bool {
    let edge = registers.vertical_edge_flag || registers.horizontal_edge_flag;
    let hit = registers.hit_bank_1 || registers.hit_bank_2;
    registers.external_stop_flag
        || registers.manual_interrupt_flag
        || (edge && registers.condition(0))
        || (registers.pen_flag && registers.condition(1))
        || (hit && registers.condition(10))
        || (registers.internal_stop_flag && registers.condition(11))
}

/// Manual 2.3.1.6; 01: "The byte bit is 1 only in a right byte".
fn status_2(registers: &Registers) -> u16 {
    (u16::from(in_right_byte(&registers.motion)) << 11)
        | (u16::from(registers.pen_enable) << 10)
        | (high_bit(registers.y) << 9)
        | (high_bit(registers.x) << 8)
        | (u16::from(registers.scale) << 6)
        | (u16::from(registers.mode) << 3)
        | u16::from(registers.intensity)
}

/// Of an increment word, in a routine too. Manual 2.3.1.6: "It does not tell whether the right or
/// left hand character is being executed".
fn in_right_byte(motion: &Motion) -> bool {
    let bytes = match motion {
        Motion::Bytes(bytes) => bytes,
        Motion::Character(character) => match &character.stage {
            Stage::Bytes(bytes) => bytes,
            Stage::TableWord | Stage::RoutineWord(_) | Stage::Line(_) => return false,
        },
        Motion::Nothing | Motion::Line(_) => return false,
    };
    bytes.side == Side::Right
}

/// The bit of a 13-bit coordinate that reads 21 and 22 leave out.
fn high_bit(coordinate: u16) -> u16 {
    coordinate / POINTERS
}

/// 02, No. 6: "Operation 30 sets case, code size and starting address by the manual's RCG layout".
fn set_character_generator(registers: &mut Registers, operand: u16) {
    registers.upper_case = bit(operand, 3);
    registers.seven_bit_codes = bit(operand, 4);
    registers.starting_address = field(operand, 6, 11) as u8;
}

/// 02, No. 6: "31 reads that layout, byte bit 1 only in a right character". Manual 2.3.1.10: bit 0
/// tells that "the display is in character mode and data state".
fn character_generator(registers: &Registers) -> u16 {
    let active = registers.state == State::Data && registers.mode == 5;
    let right_character = match registers.motion {
        Motion::Character(character) => character.side == Side::Right,
        Motion::Nothing | Motion::Line(_) | Motion::Bytes(_) => false,
    };
    (u16::from(active) << 11)
        | (u16::from(right_character) << 10)
        | (u16::from(registers.upper_case) << 8)
        | (u16::from(registers.seven_bit_codes) << 7)
        | u16::from(registers.starting_address)
}

#[cfg(test)]
mod tests {
    use super::*;
    use crate::registers::{Bytes, Character, Line, Routine};

    fn done(registers: Registers, operation: u32, operand: u32) -> Registers {
        let (after, ending, word) = operate(registers, operation, operand);
        assert_eq!(ending, Ending::Done);
        assert_eq!(word, 0);
        after
    }

    fn read(registers: Registers, operation: u32) -> u16 {
        let (after, ending, word) = operate(registers, operation, 0);
        assert_eq!(ending, Ending::Done);
        if operation != 24 {
            assert_eq!(after, registers);
        }
        word
    }

    /// Everything on that can be on, a word held, and a line unfinished.
    fn busy() -> Registers {
        Registers {
            display_address: 0o54321,
            pushdown_pointer: 0o1234,
            x: 0o12345,
            y: 0o6543,
            state: State::Data,
            mode: 2,
            scale: 3,
            intensity: 5,
            pen_enable: true,
            pen_hold: true,
            pen_sense: true,
            blink: true,
            idle: true,
            buttons: 0o5252,
            hit_bank_1: true,
            hit_bank_2: true,
            internal_stop_flag: true,
            external_stop_flag: true,
            vertical_edge_flag: true,
            horizontal_edge_flag: true,
            pen_flag: true,
            manual_interrupt_flag: true,
            conditions: 0o7777,
            running: true,
            stop_request: true,
            word_is_held: true,
            held_word: 0o2345,
            upper_case: true,
            seven_bit_codes: true,
            starting_address: 0o52,
            motion: Motion::Line(Line {
                y_minus: false,
                x_minus: false,
                y_magnitude: 2,
                x_magnitude: 1,
                moves: 2,
                done: 1,
                lit: true,
                escape: true,
                last_word: 0o23456,
            }),
        }
    }

    #[test]
    fn refusals_of_an_operation_come_in_order() {
        let bad = Registers {
            mode: 8,
            ..Registers::fresh()
        };
        assert_eq!(operate(bad, 99, 99), (bad, Ending::RegistersOutOfRange, 0));
        let good = busy();
        for operation in [0, 13, 14, 15, 16, 17, 18, 19, 27, 28, 29, 32, 100, u32::MAX] {
            assert_eq!(
                operate(good, operation, 99),
                (good, Ending::UnknownOperation, 0)
            );
        }
        for operation in (1..=12).chain(20..=26).chain(30..=31) {
            let greatest = greatest_operand(operation).unwrap();
            for operand in [greatest + 1, greatest + 65_536, u32::MAX] {
                assert_eq!(
                    operate(good, operation, operand),
                    (good, Ending::OperandOutOfRange, 0)
                );
            }
            assert_eq!(operate(good, operation, greatest).1, Ending::Done);
        }
    }

    #[test]
    fn start_clears_what_01_names() {
        let expected = Registers {
            display_address: 0o77777,
            state: State::Control,
            mode: 0,
            pen_hold: false,
            internal_stop_flag: false,
            external_stop_flag: false,
            vertical_edge_flag: false,
            horizontal_edge_flag: false,
            pen_flag: false,
            running: true,
            stop_request: false,
            word_is_held: false,
            held_word: 0,
            motion: Motion::Nothing,
            ..busy()
        };
        assert_eq!(done(busy(), 1, 0o77777), expected);
        assert_eq!(
            done(
                Registers {
                    running: false,
                    ..busy()
                },
                1,
                0o77777
            ),
            expected
        );
        // Hold goes off and the pen stays off with it.
        let held = Registers {
            pen_enable: false,
            ..busy()
        };
        assert!(!done(held, 1, 0).pen_enable);
    }

    #[test]
    fn clear_keeps_the_break_field_and_stops() {
        let expected = Registers {
            running: false,
            display_address: 0o50000,
            ..done(busy(), 1, 0)
        };
        assert_eq!(done(busy(), 5, 0), expected);
    }

    #[test]
    fn only_start_and_clear_drop_the_held_word() {
        for running in [false, true] {
            for word in [0, 0o2345, 0o7777] {
                let mut given = Registers { running, ..busy() };
                given.hold(word);
                for operation in (1..=12).chain(20..=26).chain(30..=31) {
                    let (after, ending, _) = operate(given, operation, 0);
                    assert_eq!(ending, Ending::Done);
                    let dropped = operation == 1 || operation == 5;
                    let kept = (!dropped).then_some(word);
                    assert_eq!(after.held(), kept, "operation {operation}");
                    assert!(after.are_in_range());
                }
            }
        }
    }

    #[test]
    fn a_held_word_out_of_range_is_refusal_4() {
        let too_wide = Registers {
            held_word: 4_096,
            ..busy()
        };
        let none_held = Registers {
            word_is_held: false,
            held_word: 1,
            ..busy()
        };
        for unfit in [too_wide, none_held] {
            // Start and clear too, which would drop it.
            for operation in [1, 4, 5, 20, 99] {
                assert_eq!(
                    operate(unfit, operation, 0),
                    (unfit, Ending::RegistersOutOfRange, 0)
                );
            }
        }
    }

    #[test]
    fn pointer_and_conditions_are_set() {
        assert_eq!(
            done(busy(), 2, 0o7777),
            Registers {
                pushdown_pointer: 0o7777,
                ..busy()
            }
        );
        assert_eq!(
            done(busy(), 3, 0o0246),
            Registers {
                conditions: 0o0246,
                ..busy()
            }
        );
    }

    #[test]
    fn resume_is_for_a_stopped_display() {
        assert_eq!(done(busy(), 4, 0), busy());
        let stopped = Registers {
            running: false,
            pen_hold: false,
            ..busy()
        };
        let after = done(stopped, 4, 0);
        assert!(after.running && after.stop_request);
        assert!(!after.pen_flag && !after.internal_stop_flag && !after.external_stop_flag);
        assert!(!after.vertical_edge_flag && !after.horizontal_edge_flag);
        assert!(after.manual_interrupt_flag);
        assert_eq!(after.motion, busy().motion);
        // It runs a display that stopped without any flag too.
        assert!(done(Registers::fresh(), 4, 0).running);
    }

    #[test]
    fn resume_after_a_pen_hit() {
        let after = |pen_flag: bool, conditions: u16, pen_hold: bool| {
            let stopped = Registers {
                running: false,
                pen_flag,
                conditions,
                pen_hold,
                ..busy()
            };
            let after = done(stopped, 4, 0);
            (after.pen_enable, after.pen_hold)
        };
        assert_eq!(after(true, 0o1000, false), (false, true));
        assert_eq!(after(true, 0o1400, false), (false, false));
        assert_eq!(after(true, 0o1400, true), (false, true));
        assert_eq!(after(true, 0o0400, false), (true, false));
        assert_eq!(after(true, 0o0000, false), (true, false));
        assert_eq!(after(false, 0o1000, false), (true, false));
    }

    #[test]
    fn a_stop_request_needs_a_running_display() {
        let running = Registers {
            stop_request: false,
            ..busy()
        };
        assert!(done(running, 6, 0).stop_request);
        let stopped = Registers {
            running: false,
            ..running
        };
        assert!(!done(stopped, 6, 0).stop_request);
        // An old request stays.
        assert!(
            done(
                Registers {
                    stop_request: true,
                    ..stopped
                },
                6,
                0
            )
            .stop_request
        );
    }

    #[test]
    fn pen_light_stops_a_running_display_with_the_pen_enabled() {
        let dark = Registers {
            pen_sense: false,
            pen_flag: false,
            ..busy()
        };
        let after = done(dark, 7, 0);
        assert!(after.pen_sense && after.pen_flag && !after.running && after.stop_request);
        let after = done(
            Registers {
                pen_enable: false,
                ..dark
            },
            7,
            0,
        );
        assert!(after.pen_sense && !after.pen_flag && after.running && after.pen_hold);
        let after = done(
            Registers {
                running: false,
                ..dark
            },
            7,
            0,
        );
        assert!(after.pen_sense && !after.pen_flag && !after.running);
    }

    #[test]
    fn buttons_are_pressed_and_cleared() {
        for button in 0..12 {
            let after = done(Registers::fresh(), 8, button);
            assert_eq!(after.buttons, 0o4000 >> button);
            assert_eq!(
                (after.hit_bank_1, after.hit_bank_2),
                (button <= 5, button >= 6)
            );
            let again = done(after, 8, button);
            assert_eq!(again.buttons, 0);
        }
        let all = Registers {
            buttons: 0o7777,
            ..busy()
        };
        assert_eq!(
            done(all, 9, 0),
            Registers {
                buttons: 0o0077,
                ..all
            }
        );
        assert_eq!(
            done(all, 9, 1),
            Registers {
                buttons: 0o7700,
                ..all
            }
        );
    }

    #[test]
    fn manual_interrupt_and_idle() {
        assert!(done(Registers::fresh(), 10, 0).manual_interrupt_flag);
        assert!(!done(busy(), 11, 0).manual_interrupt_flag);
        assert!(done(Registers::fresh(), 12, 0).idle);
    }

    #[test]
    fn plain_reads() {
        assert_eq!(read(busy(), 20), 0o1234);
        assert_eq!(read(busy(), 21), 0o2345);
        assert_eq!(read(busy(), 22), 0o6543);
        assert_eq!(read(busy(), 23), 0o4321);
        assert_eq!(read(busy(), 26), 0o5252);
    }

    #[test]
    fn every_bit_of_status_1() {
        // In control state and sector 0 a fresh display shows bits 4 and 5.
        let fresh = Registers::fresh();
        assert_eq!(read(fresh, 24), 0o0300);
        let bare = Registers {
            x: 1_024,
            state: State::Data,
            ..fresh
        };
        assert_eq!(read(bare, 24), 0);
        assert_eq!(read(Registers { y: 1_024, ..fresh }, 24), 0o0100);
        assert_eq!(
            read(
                Registers {
                    pen_flag: true,
                    ..bare
                },
                24
            ),
            0o4000
        );
        assert_eq!(
            read(
                Registers {
                    vertical_edge_flag: true,
                    ..bare
                },
                24
            ),
            0o2000
        );
        assert_eq!(
            read(
                Registers {
                    horizontal_edge_flag: true,
                    ..bare
                },
                24
            ),
            0o1000
        );
        assert_eq!(
            read(
                Registers {
                    internal_stop_flag: true,
                    ..bare
                },
                24
            ),
            0o0400
        );
        assert_eq!(read(Registers { x: 0, ..bare }, 24), 0o0200);
        assert_eq!(
            read(
                Registers {
                    state: State::Control,
                    ..bare
                },
                24
            ),
            0o0100
        );
        // Manual interrupt and external stop always interrupt.
        assert_eq!(
            read(
                Registers {
                    manual_interrupt_flag: true,
                    ..bare
                },
                24
            ),
            0o0050
        );
        assert_eq!(
            read(
                Registers {
                    external_stop_flag: true,
                    ..bare
                },
                24
            ),
            0o0010
        );
        assert_eq!(
            read(
                Registers {
                    hit_bank_1: true,
                    ..bare
                },
                24
            ),
            0o0020
        );
        assert_eq!(
            read(
                Registers {
                    hit_bank_2: true,
                    ..bare
                },
                24
            ),
            0o0020
        );
        assert_eq!(
            read(
                Registers {
                    display_address: 0o57777,
                    ..bare
                },
                24
            ),
            5
        );
    }

    #[test]
    fn bit_8_of_status_1_is_gated() {
        let bare = Registers {
            x: 1_024,
            state: State::Data,
            ..Registers::fresh()
        };
        type Set = fn(&mut Registers);
        let flags: [(u16, Set); 6] = [
            (0o4000, |registers| registers.vertical_edge_flag = true),
            (0o4000, |registers| registers.horizontal_edge_flag = true),
            (0o2000, |registers| registers.pen_flag = true),
            (0o0002, |registers| registers.hit_bank_1 = true),
            (0o0002, |registers| registers.hit_bank_2 = true),
            (0o0001, |registers| registers.internal_stop_flag = true),
        ];
        for (gate, set) in flags {
            let mut registers = bare;
            set(&mut registers);
            registers.conditions = gate;
            assert_eq!(read(registers, 24) & 0o0010, 0o0010);
            registers.conditions = !gate & 0o7777;
            assert_eq!(read(registers, 24) & 0o0010, 0);
        }
        assert_eq!(
            read(
                Registers {
                    conditions: 0o7777,
                    ..bare
                },
                24
            ),
            0
        );
    }

    #[test]
    fn reading_status_1_clears_the_hit_flags_afterwards() {
        let (after, _, word) = operate(busy(), 24, 0);
        assert_eq!(word & 0o0020, 0o0020);
        let expected = Registers {
            hit_bank_1: false,
            hit_bank_2: false,
            ..busy()
        };
        assert_eq!(after, expected);
    }

    #[test]
    fn every_bit_of_status_2() {
        let fresh = Registers::fresh();
        assert_eq!(read(fresh, 25), 0);
        assert_eq!(
            read(
                Registers {
                    pen_enable: true,
                    ..fresh
                },
                25
            ),
            0o2000
        );
        assert_eq!(read(Registers { y: 4_096, ..fresh }, 25), 0o1000);
        assert_eq!(read(Registers { x: 4_096, ..fresh }, 25), 0o0400);
        assert_eq!(
            read(
                Registers {
                    y: 4_095,
                    x: 4_095,
                    ..fresh
                },
                25
            ),
            0
        );
        assert_eq!(read(Registers { scale: 3, ..fresh }, 25), 0o0300);
        assert_eq!(read(Registers { mode: 7, ..fresh }, 25), 0o0070);
        assert_eq!(
            read(
                Registers {
                    intensity: 7,
                    ..fresh
                },
                25
            ),
            0o0007
        );
        let moving = |side| Registers {
            state: State::Data,
            mode: 1,
            motion: Motion::Bytes(Bytes {
                word: 0o1010,
                side,
                moves_left: 1,
                last_word: 0,
            }),
            ..fresh
        };
        assert_eq!(read(moving(Side::Left), 25), 0o0010);
        assert_eq!(read(moving(Side::Right), 25), 0o4010);
        assert_eq!(read(busy(), 25), 0o2725);
    }

    /// A display in mode 5 with a character of this side and stage.
    fn writing(side: Side, stage: Stage) -> Registers {
        Registers {
            state: State::Data,
            mode: 5,
            motion: Motion::Character(Character {
                word: 0o1105,
                seven_bits: false,
                side,
                stage,
            }),
            ..Registers::fresh()
        }
    }

    /// Each stage of a character, and whether it is in the right byte of a routine word.
    fn stages() -> [(Stage, bool); 5] {
        let bytes = |side| {
            Stage::Bytes(Bytes {
                word: 0o1010,
                side,
                moves_left: 1,
                last_word: 0o6210,
            })
        };
        let line = Stage::Line(Line {
            y_minus: false,
            x_minus: false,
            y_magnitude: 0,
            x_magnitude: 1,
            moves: 1,
            done: 0,
            lit: true,
            escape: true,
            last_word: 0o6211,
        });
        let routine = Stage::RoutineWord(Routine {
            short_vectors: true,
            next: 0o6210,
        });
        [
            (Stage::TableWord, false),
            (routine, false),
            (bytes(Side::Left), false),
            (bytes(Side::Right), true),
            (line, false),
        ]
    }

    #[test]
    fn the_character_generator_is_set_by_its_layout() {
        for operand in (0..=0o7777).filter(|operand| operand & !0o0677 == 0) {
            let expected = Registers {
                upper_case: operand & 0o400 != 0,
                seven_bit_codes: operand & 0o200 != 0,
                starting_address: (operand & 0o77) as u8,
                ..busy()
            };
            assert_eq!(done(busy(), 30, operand), expected);
            assert_eq!(u32::from(read(expected, 31)), operand);
        }
        // In the middle of a character too, which goes on.
        for (stage, _) in stages() {
            let given = writing(Side::Left, stage);
            let after = done(given, 30, 0o0677);
            assert_eq!(after.motion, given.motion);
            assert_eq!(after.starting_address, 0o77);
        }
    }

    #[test]
    fn another_bit_is_refusal_6() {
        let other_bits = (0..=0o7777).filter(|operand| operand & !0o0677 != 0);
        for operand in other_bits.chain([4_096, 0o10006, 65_536, 65_542, u32::MAX]) {
            assert_eq!(
                operate(busy(), 30, operand),
                (busy(), Ending::OperandOutOfRange, 0)
            );
        }
        for operand in [1, 6, 0o0677, 65_536, u32::MAX] {
            assert_eq!(
                operate(busy(), 31, operand),
                (busy(), Ending::OperandOutOfRange, 0)
            );
        }
        // What operation 31 reads in character mode is no operand for operation 30.
        let word = read(writing(Side::Left, Stage::TableWord), 31);
        assert_eq!(
            operate(busy(), 30, u32::from(word)).1,
            Ending::OperandOutOfRange
        );
    }

    #[test]
    fn every_bit_of_the_character_generator() {
        let fresh = Registers::fresh();
        assert_eq!(read(fresh, 31), 0);
        let upper = Registers {
            upper_case: true,
            ..fresh
        };
        assert_eq!(read(upper, 31), 0o0400);
        let seven = Registers {
            seven_bit_codes: true,
            ..fresh
        };
        assert_eq!(read(seven, 31), 0o0200);
        let far = Registers {
            starting_address: 0o77,
            ..fresh
        };
        assert_eq!(read(far, 31), 0o0077);
        // Bit 0 goes by state and mode, running or not, with a character or not.
        for mode in 0..=7 {
            for running in [false, true] {
                let data = Registers {
                    state: State::Data,
                    mode,
                    running,
                    ..fresh
                };
                let active = if mode == 5 { 0o4000 } else { 0 };
                assert_eq!(read(data, 31), active);
                let control = Registers {
                    state: State::Control,
                    ..data
                };
                assert_eq!(read(control, 31), 0);
                // Bit 1 goes by the side of the character, in any state and mode.
                for (stage, _) in stages() {
                    for (side, bit) in [(Side::Left, 0), (Side::Right, 0o2000)] {
                        let motion = writing(side, stage).motion;
                        assert_eq!(read(Registers { motion, ..data }, 31), active | bit);
                        assert_eq!(read(Registers { motion, ..control }, 31), bit);
                    }
                }
            }
        }
        // Neither goes by the side of a byte in increment mode.
        let right_byte = Registers {
            state: State::Data,
            mode: 1,
            motion: Motion::Bytes(Bytes {
                word: 0o1010,
                side: Side::Right,
                moves_left: 1,
                last_word: 0,
            }),
            ..fresh
        };
        assert_eq!(read(right_byte, 31), 0);
    }

    #[test]
    fn status_2_shows_the_right_byte_of_a_routine_word() {
        for (stage, right_byte) in stages() {
            for side in [Side::Left, Side::Right] {
                let word = read(writing(side, stage), 25);
                let byte_bit = if right_byte { 0o4000 } else { 0 };
                assert_eq!(word, 0o0050 | byte_bit, "{stage:?}");
            }
        }
    }

    #[test]
    fn start_and_clear_drop_the_character_and_leave_the_generator() {
        for (stage, _) in stages() {
            let given = Registers {
                upper_case: true,
                seven_bit_codes: true,
                starting_address: 0o77,
                ..writing(Side::Right, stage)
            };
            for operation in (1..=12).chain(20..=26).chain([31]) {
                let (after, ending, _) = operate(given, operation, 0);
                assert_eq!(ending, Ending::Done);
                let dropped = operation == 1 || operation == 5;
                let left = if dropped {
                    Motion::Nothing
                } else {
                    given.motion
                };
                assert_eq!(after.motion, left, "operation {operation}");
                assert!(after.upper_case && after.seven_bit_codes);
                assert_eq!(after.starting_address, 0o77);
            }
        }
    }
}
