//! Cases of 02, No. 5: displays about to draw, at both ends of memory, by commands that are fetched
//! or held and by motions that are handed in with a last word of any kind.

use super::{
    beyond, budget, default_word, kept_pairs, put_in_bytes, put_in_line, range, range_of,
    registers_in_range, room, wild_word, write_command, Chance, File,
};
use crate::refusals_and_endings::{Loan, MEMORY_LENGTH};
use crate::registers::{
    address_after, Bytes, Character, Line, Motion, Registers, Stage, State, ADDRESSES, SECTOR,
};
use crate::replay::{GivenMemory, RunCase};

/// The last word that a motion is handed in with: often the word before the display address, as its
/// command leaves it, else one at an end of memory or anywhere.
pub fn last_word(chance: &mut Chance, display_address: u16) -> u16 {
    match chance.between(0, 9) {
        0..=3 => word_before(display_address),
        4 => display_address,
        5 => 0,
        6 => 0o77777,
        _ => chance.between(0, 0o77777),
    }
}

fn word_before(address: u16) -> u16 {
    address_after(address, ADDRESSES - 1)
}

/// The motion with another last word, if there is one.
fn with_last_word(motion: Motion, last_word: u16) -> Motion {
    match motion {
        Motion::Nothing => Motion::Nothing,
        Motion::Line(line) => Motion::Line(Line { last_word, ..line }),
        Motion::Bytes(bytes) => Motion::Bytes(Bytes { last_word, ..bytes }),
        Motion::Character(character) => Motion::Character(Character {
            stage: match character.stage {
                Stage::Line(line) => Stage::Line(Line { last_word, ..line }),
                Stage::Bytes(bytes) => Stage::Bytes(Bytes { last_word, ..bytes }),
                other => other,
            },
            ..character
        }),
    }
}

/// A motion that is handed in, and commands of its mode behind it; or these commands alone, the
/// first of them held now and then. The budget often ends in mid motion.
pub fn point_run(chance: &mut Chance) -> RunCase {
    let mut registers = registers_in_range(chance);
    registers.running = true;
    registers.stop_request = chance.percent(5);
    registers.state = State::Data;
    if chance.percent(90) {
        registers.x %= SECTOR;
        registers.y %= SECTOR;
    }
    if chance.percent(75) {
        registers.display_address = chance.pick(&[0o77776, 0o77777, 0]);
    }
    let mut words = Vec::new();
    match chance.between(0, 19) {
        0..=1 => words = put_before_an_end_of_entries(chance, &mut registers),
        2..=4 => put_in_line(chance, &mut registers),
        5..=6 => put_in_bytes(chance, &mut registers),
        _ => {
            registers.motion = Motion::Nothing;
            registers.mode = chance.pick(&[0, 1, 2, 3, 4, 6]);
        }
    }
    let mut file = File::new(registers.display_address);
    for word in words {
        file.push(word);
    }
    for _ in 0..chance.between(1, 3) {
        let escape = chance.percent(25);
        write_command(chance, &mut file, u16::from(registers.mode), escape);
    }
    for _ in 0..chance.between(1, 4) {
        file.push(wild_word(chance));
    }
    registers.drop_held_word();
    if chance.percent(45) {
        registers.hold(file.words[0]);
    }
    let mut pairs = file.pairs();
    pairs.extend(changed_word(chance, &registers));
    if chance.percent(8) {
        let unfit = beyond(chance, ADDRESSES);
        registers.motion = with_last_word(registers.motion, unfit);
    }
    RunCase {
        registers,
        budget: if chance.coin() {
            u32::from(chance.between(1, 8))
        } else {
            budget(chance)
        },
        loan: loan(chance, &file),
        room: room(chance),
        given: GivenMemory {
            length: MEMORY_LENGTH,
            default: default_word(chance),
            pairs: kept_pairs(pairs, MEMORY_LENGTH),
        },
    }
}

/// The greatest entry there is, 2^39 - 1, or the least, 0, is to be lit: by one move of a line that
/// is handed in, or else by a point, whose words are given.
fn put_before_an_end_of_entries(chance: &mut Chance, registers: &mut Registers) -> Vec<u16> {
    let greatest = chance.coin();
    let (coordinate, last_word) = if greatest {
        (SECTOR - 1, 0o77777)
    } else {
        (0, 0)
    };
    registers.intensity = if greatest { 7 } else { 0 };
    registers.blink = greatest;
    registers.scale = 0;
    registers.y = coordinate;
    // One move from the corner.
    registers.x = coordinate ^ 1;
    if chance.coin() {
        registers.mode = 4;
        registers.motion = Motion::Line(Line {
            y_minus: chance.coin(),
            x_minus: !greatest,
            y_magnitude: 0,
            x_magnitude: 1,
            moves: 1,
            done: 0,
            lit: true,
            escape: chance.coin(),
            last_word,
        });
        Vec::new()
    } else {
        registers.mode = 0;
        registers.motion = Motion::Nothing;
        registers.display_address = word_before(last_word);
        vec![0o4000 | coordinate, coordinate]
    }
}

/// Now and then another word, or one that is too wide, at the last word of the motion, or else at
/// the address of the held word. It has no say in the points that tell its address.
fn changed_word(chance: &mut Chance, registers: &Registers) -> Option<(u16, u16)> {
    let place = match registers.motion {
        Motion::Nothing if registers.word_is_held => registers.display_address,
        Motion::Nothing | Motion::Character(_) => return None,
        Motion::Line(line) => line.last_word,
        Motion::Bytes(bytes) => bytes.last_word,
    };
    let word = if chance.coin() {
        chance.good_word()
    } else {
        chance.wide_word()
    };
    chance.coin().then_some((place, word))
}

/// All of memory, or the words of the file, which may go on at 0, with or without the first, or
/// nothing.
fn loan(chance: &mut Chance, file: &File) -> Loan {
    let words = file.words.len() as u16;
    let next = address_after(file.first, 1);
    match chance.between(0, 9) {
        0..=4 => Loan::all(),
        5..=6 => Loan {
            file: range_of(file.first, words),
            list: range(0, words),
        },
        7..=8 => Loan {
            file: range_of(next, words),
            list: range(0, 0),
        },
        _ => Loan {
            file: range(0, 0),
            list: range(0, 0),
        },
    }
}

#[cfg(test)]
mod tests {
    use super::super::tests::{outcome, runs};
    use super::*;
    use crate::replay::Outcome;

    /// The last word of the motion, if there is one.
    fn last_word_of(motion: &Motion) -> Option<u16> {
        match motion {
            Motion::Nothing | Motion::Character(_) => None,
            Motion::Line(line) => Some(line.last_word),
            Motion::Bytes(bytes) => Some(bytes.last_word),
        }
    }

    /// The last words that the lit points tell, and the rest of their entries.
    fn parts(outcome: &Outcome) -> (Vec<u64>, Vec<u64>) {
        let lit = &outcome.points[..outcome.answer.points as usize];
        (
            lit.iter().map(|point| point >> 24).collect(),
            lit.iter().map(|point| point & 0o77777777).collect(),
        )
    }

    /// A motion's last word shows in what the motion lights and leaves, and in nothing else.
    #[test]
    fn a_motion_with_another_last_word_makes_the_same_run() {
        let (mut told, mut left) = (0, 0);
        for case in runs(8, 8_000) {
            let given = case.registers.motion;
            let Some(last_word) = last_word_of(&given) else {
                continue;
            };
            let one = outcome(&case, case.memory(), case.loan, case.budget);
            if one.answer.ending.number() < 10 {
                continue;
            }
            let another = last_word ^ 0o52525;
            let mut other_case = case.clone();
            other_case.registers.motion = with_last_word(given, another);
            let other = outcome(&other_case, case.memory(), case.loan, case.budget);
            assert_eq!(one.answer, other.answer);
            assert_eq!(one.memory, other.memory);
            let (words, entries) = parts(&one);
            let (other_words, other_entries) = parts(&other);
            assert_eq!(entries, other_entries);
            // The motion's points come first. Those of the commands behind it are the same in both.
            let own = words
                .iter()
                .zip(&other_words)
                .take_while(|(word, other_word)| word != other_word)
                .count();
            assert_eq!(words[..own], vec![u64::from(last_word); own]);
            assert_eq!(other_words[..own], vec![u64::from(another); own]);
            assert_eq!(words[own..], other_words[own..]);
            told += own;
            let mut registers = other.registers;
            if registers != one.registers {
                assert_eq!(last_word_of(&registers.motion), Some(another));
                registers.motion = with_last_word(registers.motion, last_word);
                left += 1;
            }
            assert_eq!(registers, one.registers);
        }
        assert!(told > 1_000 && left > 300, "{told} {left}");
    }

    #[test]
    fn a_display_about_to_draw_has_no_fault_but_its_last_word() {
        let mut chance = Chance::new(9);
        let mut faults = 0;
        for _ in 0..2_000 {
            let case = point_run(&mut chance);
            let unfit = last_word_of(&case.registers.motion).is_some_and(|word| word > 0o77777);
            assert_eq!(case.registers.are_in_range(), !unfit, "{case:?}");
            faults += u32::from(unfit);
        }
        assert!(faults > 20, "{faults}");
    }
}
