//! Cases of 02, No. 4: displays that are asked to stop, that hold a word, or both.

use super::{
    budget, default_word, kept_pairs, memory_length, range, range_beside, range_of,
    registers_in_range, room, spoil, wild_word, word_to_hold, write_command, write_skip, Chance,
    File,
};
use crate::refusals_and_endings::Loan;
use crate::registers::{
    address_after, byte_escapes, byte_moves, byte_of, pointer_after, pointer_before, Motion,
    Registers, Side, State, SECTOR,
};
use crate::replay::{GivenMemory, RunCase};

/// A command at the display address that a stop holds or that is held already, with other words in
/// its places now and then, and a loan that ends next to what it touches.
pub fn stop_run(chance: &mut Chance) -> RunCase {
    let mut registers = registers_in_range(chance);
    registers.running = chance.percent(97);
    registers.stop_request = chance.percent(45);
    if chance.percent(75) {
        put_before_a_command(chance, &mut registers);
    }
    if chance.coin() {
        registers.x %= SECTOR;
        registers.y %= SECTOR;
    }
    match chance.between(0, 9) {
        0..=2 => registers.display_address = 0o77777,
        3 => registers.display_address = chance.pick(&[0o77776, 0]),
        // A push stores over the command, or a pop fetches it.
        4..=6 => {
            let pointer = registers.pushdown_pointer;
            let back = chance.pick(&[0, 0, 1, 2]);
            registers.display_address = pointer_before(pointer, back);
            if registers.motion == Motion::Nothing && chance.coin() {
                registers.state = State::Control;
            }
        }
        _ => {}
    }
    let mut file = File::new(registers.display_address);
    write_any_command(chance, &mut file, &registers);
    // A request meets no held word at a first stop and one at a second; without a request the held
    // word is used.
    registers.drop_held_word();
    if chance.percent(if registers.stop_request { 40 } else { 95 }) {
        registers.hold(match chance.between(0, 9) {
            0 => word_to_hold(chance),
            _ => file.words[0],
        });
    }
    for _ in 0..chance.between(1, 4) {
        file.push(wild_word(chance));
    }
    let mut pairs = cells(chance, registers.pushdown_pointer);
    pairs.extend(file.pairs());
    pairs.extend(changed_words(chance, &file));
    let budget = if registers.motion != Motion::Nothing && chance.percent(30) {
        // The motion spends all of it.
        moves_left(chance, &registers.motion)
    } else if chance.percent(10) {
        0
    } else {
        budget(chance)
    };
    let loan = loan(chance, &file, registers.pushdown_pointer);
    let room = if chance.percent(20) { 0 } else { room(chance) };
    if chance.percent(5) {
        spoil(chance, &mut registers);
    }
    let memory_length = memory_length(chance);
    RunCase {
        registers,
        budget,
        loan,
        room,
        given: GivenMemory {
            length: memory_length,
            default: default_word(chance),
            pairs: kept_pairs(pairs, memory_length),
        },
    }
}

/// No motion, in either state and any mode.
fn put_before_a_command(chance: &mut Chance, registers: &mut Registers) {
    registers.motion = Motion::Nothing;
    registers.state = if chance.percent(45) {
        State::Control
    } else {
        State::Data
    };
    registers.mode = if registers.stop_request {
        chance.between(0, 7) as u8
    } else {
        // Those of two words more often.
        chance.pick(&[0, 0, 0, 1, 2, 2, 2, 3, 3, 3, 4, 5, 6, 6, 7])
    };
}

/// The beats that the motion still takes, if no edge ends it. A vector continue goes on. What a
/// character takes is in memory, so it is tried.
fn moves_left(chance: &mut Chance, motion: &Motion) -> u32 {
    match motion {
        Motion::Nothing => 0,
        Motion::Character(_) => u32::from(chance.between(1, 9)),
        Motion::Line(line) => u32::from(line.moves - line.done),
        Motion::Bytes(bytes) => {
            let ends = bytes.side == Side::Right || byte_escapes(bytes.byte());
            let right = if ends {
                0
            } else {
                byte_moves(byte_of(bytes.word, Side::Right))
            };
            u32::from(bytes.moves_left + right)
        }
    }
}

/// One command of the state and mode.
fn write_any_command(chance: &mut Chance, file: &mut File, registers: &Registers) {
    if registers.state == State::Data {
        let escape = chance.percent(40);
        return write_command(chance, file, u16::from(registers.mode), escape);
    }
    match chance.between(0, 19) {
        0 => file.push(chance.between(0, 0o777)),
        1..=2 => file.push(0o1000 | chance.between(0, 0o777)),
        3..=5 => {
            file.push(0o2000 | (chance.between(0, 0o777) & 0o767));
            file.push(chance.good_word());
        }
        6..=9 => {
            file.push(0o2010 | chance.between(0, 0o777));
            file.push(chance.good_word());
        }
        10..=12 => file.push(0o3000 | chance.between(0, 0o777)),
        13 => file.push(0o6300 | chance.between(0, 0o77)),
        14 => file.push(0o6400 | chance.between(0, 0o377)),
        _ => write_skip(chance, file, registers.buttons),
    }
}

/// The two cells that a pop fetches.
fn cells(chance: &mut Chance, pointer: u16) -> Vec<(u16, u16)> {
    [2, 1]
        .map(|back| {
            let word = if chance.percent(15) {
                chance.wide_word()
            } else {
                chance.good_word()
            };
            (pointer_before(pointer, back), word)
        })
        .to_vec()
}

/// Other words in the places of the command's own, as a class may put them there.
fn changed_words(chance: &mut Chance, file: &File) -> Vec<(u16, u16)> {
    let mut changed = Vec::new();
    match chance.between(0, 9) {
        0..=3 => {}
        4..=6 => changed.push((file.first, word_to_hold(chance))),
        _ => changed.push((file.first, chance.wide_word())),
    }
    if chance.percent(20) {
        changed.push((address_after(file.first, 1), chance.wide_word()));
    }
    changed
}

/// The word at the address is lent or not, and so is what stands behind it, and the list.
fn loan(chance: &mut Chance, file: &File, pointer: u16) -> Loan {
    let words = file.words.len() as u16;
    let next = address_after(file.first, 1);
    let cell = pointer_after(pointer_before(pointer, 2), chance.between(0, 3));
    let beside = chance.pick(&[file.first, next]);
    Loan {
        file: match chance.between(0, 9) {
            0..=1 => range(0, 32_768),
            2..=3 => range_of(file.first, words),
            // All but the first word, and the first word alone.
            4..=6 => range_of(next, words),
            7..=8 => range_of(file.first, 1),
            _ => range_beside(chance, beside),
        },
        list: match chance.between(0, 9) {
            0 => range(0, 4_096),
            1..=3 => range_of(pointer, 2),
            4..=5 => range_of(pointer_before(pointer, 2), 2),
            6..=7 => range_of(cell, 1),
            8 => range_beside(chance, cell),
            _ => range(0, 0),
        },
    }
}
