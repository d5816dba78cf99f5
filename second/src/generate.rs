//! A seeded generator of cases: plausible display files, wild ones and ones at the fence, external
//! stops and held words, points and their words, characters, words to list and listings to read,
//! biased to the corners.

mod characters;
mod listings;
mod points;
mod stops;

pub use characters::cases_of_every_character_word;
pub use listings::{
    cases_of_all_memory, cases_of_every_word, DAMAGES, OTHER_MODE, OTHER_RANGE, OTHER_STATE, RIGHT,
};

use crate::data_words::{x_dimension, y_dimension};
use crate::refusals_and_endings::{Loan, LoanRange, MEMORY_LENGTH};
use crate::registers::{
    address_after, byte_moves, byte_of, pointer_after, pointer_before, Bytes, Line, Motion,
    Registers, Side, State, ADDRESSES,
};
use crate::replay::{Case, GivenMemory, RunCase};

/// The most pairs a line of a run holds, so that it stays short enough to read.
const GREATEST_PAIRS: usize = 40;

/// The splitmix64 generator: the same seed gives the same cases on every computer.
pub struct Chance {
    state: u64,
}

impl Chance {
    pub fn new(seed: u64) -> Chance {
        Chance { state: seed }
    }

    fn next(&mut self) -> u64 {
        self.state = self.state.wrapping_add(0x9e37_79b9_7f4a_7c15);
        let mut mixed = self.state;
        mixed = (mixed ^ (mixed >> 30)).wrapping_mul(0xbf58_476d_1ce4_e5b9);
        mixed = (mixed ^ (mixed >> 27)).wrapping_mul(0x94d0_49bb_1331_11eb);
        mixed ^ (mixed >> 31)
    }

    /// A number from `low` to `high`, both included.
    fn between(&mut self, low: u16, high: u16) -> u16 {
        let width = u64::from(high.saturating_sub(low)) + 1;
        low + (self.next() % width) as u16
    }

    fn percent(&mut self, percent: u16) -> bool {
        self.between(1, 100) <= percent
    }

    fn coin(&mut self) -> bool {
        self.percent(50)
    }

    /// One of a list that is not empty.
    fn pick<T: Copy>(&mut self, list: &[T]) -> T {
        list[(self.next() % list.len() as u64) as usize]
    }

    fn good_word(&mut self) -> u16 {
        self.between(0, 0o7777)
    }

    /// A word that ends a run with 17 when it is fetched.
    fn wide_word(&mut self) -> u16 {
        if self.coin() {
            self.pick(&[0o10000, 0o10001, 0o77777, 65_535])
        } else {
            self.between(4_096, 65_535)
        }
    }
}

/// The next case of a stream.
pub fn next_case(chance: &mut Chance) -> Case {
    next_case_and_change(chance).0
}

/// The same, with what was done to the listing if the case reads one.
pub fn next_case_and_change(chance: &mut Chance) -> (Case, Option<&'static str>) {
    let case = match chance.between(0, 99) {
        0..=19 => operation_case(chance),
        20..=33 => Case::Run(structured_run(chance)),
        34..=45 => Case::Run(wild_run(chance)),
        46..=52 => Case::Run(fenced_run(chance)),
        53..=64 => Case::Run(stops::stop_run(chance)),
        65..=71 => Case::Run(points::point_run(chance)),
        72..=85 => Case::Run(characters::text_run(chance)),
        86..=89 => Case::Run(characters::wild_text_run(chance)),
        90..=93 => Case::List(listings::listing_case(chance)),
        _ => {
            let (case, change) = listings::reading_case(chance);
            return (Case::Read(case), Some(change));
        }
    };
    (case, None)
}

// ---------------------------------------------------------------- registers

/// A coordinate, mostly near an end of one of the four papers.
fn coordinate(chance: &mut Chance) -> u16 {
    match chance.between(0, 9) {
        0..=1 => chance.between(0, 8_191),
        2..=4 => chance.between(0, 1_023),
        5 => chance.between(0, 12),
        6 => chance.between(1_012, 1_035),
        _ => {
            let any_sector = 1_024 * chance.between(0, 8);
            let end = chance.pick(&[0, 1_024, 2_048, 4_096, 8_192, any_sector]);
            let away = if chance.coin() {
                chance.between(0, 7)
            } else {
                chance.between(0, 24)
            };
            // Half of them just below the end, half just above it.
            if end == 0 || end < 8_192 && chance.coin() {
                end + away
            } else {
                end - 1 - away
            }
        }
    }
}

fn address(chance: &mut Chance) -> u16 {
    match chance.between(0, 9) {
        0..=4 => chance.between(0, 32_767),
        5..=6 => chance.between(32_767 - 12, 32_767),
        7 => chance.between(0, 12),
        8 => chance.pick(&[0o7776, 0o7777, 0o10000, 0o17776, 0o67777]),
        _ => chance.between(0, 4_095),
    }
}

fn pointer(chance: &mut Chance) -> u16 {
    match chance.between(0, 9) {
        0..=4 => chance.pick(&[0o7775, 0o7776, 0o7777, 0, 1, 2]),
        _ => chance.between(0, 4_095),
    }
}

/// Initial conditions: the dimensions even, bits 8 and 9 on in a third of the cases each.
fn conditions(chance: &mut Chance) -> u16 {
    let mut conditions = chance.good_word() & 0o7763;
    if chance.percent(35) {
        conditions |= 0o0010;
    }
    if chance.percent(35) {
        conditions |= 0o0004;
    }
    conditions
}

fn magnitude(chance: &mut Chance) -> u16 {
    match chance.between(0, 9) {
        0..=1 => 0,
        2..=6 => chance.between(0, 9),
        7..=8 => chance.between(0, 40),
        _ => chance.pick(&[1, 2, 15, 16, 511, 512, 1_022, 1_023]),
    }
}

/// An unfinished line that 01's rules of motion allow.
fn line(chance: &mut Chance, display_address: u16) -> Line {
    let y_magnitude = magnitude(chance);
    let mut x_magnitude = magnitude(chance);
    if y_magnitude == 0 && x_magnitude == 0 {
        x_magnitude = 1;
    }
    let moves = y_magnitude.max(x_magnitude);
    let done = if chance.percent(30) {
        moves - 1
    } else {
        chance.between(0, moves - 1)
    };
    Line {
        y_minus: chance.coin(),
        x_minus: chance.coin(),
        y_magnitude,
        x_magnitude,
        moves,
        done,
        lit: chance.coin(),
        escape: chance.coin(),
        last_word: points::last_word(chance, display_address),
    }
}

/// Unfinished bytes that 01's rules of motion allow.
fn bytes(chance: &mut Chance, display_address: u16) -> Bytes {
    let mut word = chance.good_word();
    let side = if chance.coin() {
        Side::Left
    } else {
        Side::Right
    };
    if side == Side::Right && word & 0o3000 == 0 {
        word |= 0o1000;
    }
    let moves = byte_moves(byte_of(word, side));
    Bytes {
        word,
        side,
        moves_left: chance.between(1, moves),
        last_word: points::last_word(chance, display_address),
    }
}

/// A good word to be held, the least and the greatest often.
fn word_to_hold(chance: &mut Chance) -> u16 {
    match chance.between(0, 9) {
        0 => 0,
        1 => 0o7777,
        _ => chance.good_word(),
    }
}

/// Registers in range, with no motion or with one that the rules allow, some with a held word.
fn registers_in_range(chance: &mut Chance) -> Registers {
    let mut registers = Registers {
        display_address: address(chance),
        pushdown_pointer: pointer(chance),
        x: coordinate(chance),
        y: coordinate(chance),
        state: if chance.coin() {
            State::Control
        } else {
            State::Data
        },
        mode: chance.pick(&[0, 0, 1, 1, 2, 2, 3, 3, 4, 4, 5, 6, 6, 6, 7]),
        scale: chance.between(0, 3) as u8,
        intensity: chance.between(0, 7) as u8,
        pen_enable: chance.coin(),
        pen_hold: chance.percent(30),
        pen_sense: chance.coin(),
        blink: chance.percent(25),
        idle: chance.coin(),
        buttons: chance.good_word(),
        hit_bank_1: chance.coin(),
        hit_bank_2: chance.coin(),
        internal_stop_flag: chance.percent(20),
        external_stop_flag: chance.percent(20),
        vertical_edge_flag: chance.percent(20),
        horizontal_edge_flag: chance.percent(20),
        pen_flag: chance.percent(30),
        manual_interrupt_flag: chance.percent(20),
        conditions: conditions(chance),
        running: chance.percent(50),
        stop_request: chance.percent(12),
        word_is_held: false,
        held_word: 0,
        upper_case: chance.coin(),
        seven_bit_codes: chance.percent(35),
        starting_address: chance.between(0, 63) as u8,
        motion: Motion::Nothing,
    };
    if chance.percent(15) {
        registers.hold(word_to_hold(chance));
    }
    if chance.percent(40) {
        leave_one_flag(chance, &mut registers);
    }
    if chance.percent(15) && registers.display_address < 4_090 {
        // The list lies among the words, so that a push may store over them.
        registers.pushdown_pointer = registers.display_address + chance.between(0, 5);
    }
    match chance.between(0, 19) {
        0..=5 => put_in_line(chance, &mut registers),
        6..=9 => put_in_bytes(chance, &mut registers),
        10..=12 => characters::put_in_character(chance, &mut registers),
        _ => {}
    }
    registers
}

/// At most one flag is on, so that what hangs on that flag alone shows.
fn leave_one_flag(chance: &mut Chance, registers: &mut Registers) {
    registers.clear_stopping_flags();
    registers.manual_interrupt_flag = false;
    registers.hit_bank_1 = false;
    registers.hit_bank_2 = false;
    match chance.between(0, 8) {
        0 => registers.internal_stop_flag = true,
        1 => registers.external_stop_flag = true,
        2 => registers.vertical_edge_flag = true,
        3 => registers.horizontal_edge_flag = true,
        4 => registers.pen_flag = true,
        5 => registers.manual_interrupt_flag = true,
        6 => registers.hit_bank_1 = true,
        7 => registers.hit_bank_2 = true,
        _ => {}
    }
}

fn put_in_line(chance: &mut Chance, registers: &mut Registers) {
    registers.state = State::Data;
    registers.mode = chance.between(2, 4) as u8;
    registers.motion = Motion::Line(line(chance, registers.display_address));
}

fn put_in_bytes(chance: &mut Chance, registers: &mut Registers) {
    registers.state = State::Data;
    registers.mode = 1;
    registers.motion = Motion::Bytes(bytes(chance, registers.display_address));
}

/// One field put out of range, each in its turn, the rules of motion too.
fn spoil(chance: &mut Chance, registers: &mut Registers) {
    match chance.between(0, 30) {
        0 => registers.display_address = beyond(chance, 32_768),
        1 => registers.pushdown_pointer = beyond(chance, 4_096),
        2 => registers.x = beyond(chance, 8_192),
        3 => registers.y = beyond(chance, 8_192),
        4 => registers.mode = beyond_eight_bits(chance, 8),
        5 => registers.scale = beyond_eight_bits(chance, 4),
        6 => registers.intensity = beyond_eight_bits(chance, 8),
        7 => registers.buttons = beyond(chance, 4_096),
        8 => registers.conditions = beyond(chance, 4_096),
        9 => registers.hold(beyond(chance, 4_096)),
        10 => {
            // A word where none is held.
            registers.word_is_held = false;
            registers.held_word = if chance.coin() {
                chance.between(1, 4_095)
            } else {
                beyond(chance, 4_096)
            };
        }
        11..=16 => spoil_line(chance, registers),
        17..=21 => spoil_bytes(chance, registers),
        _ => characters::spoil_character(chance, registers),
    }
}

fn beyond(chance: &mut Chance, first: u16) -> u16 {
    if chance.coin() {
        first
    } else {
        chance.between(first, 65_535)
    }
}

fn beyond_eight_bits(chance: &mut Chance, first: u16) -> u8 {
    if chance.coin() {
        first as u8
    } else {
        chance.between(first, 255) as u8
    }
}

fn spoil_line(chance: &mut Chance, registers: &mut Registers) {
    put_in_line(chance, registers);
    let mut line = line(chance, registers.display_address);
    match chance.between(0, 8) {
        0 => registers.state = State::Control,
        1 => registers.mode = chance.pick(&[0, 1, 5, 6, 7]),
        2 => line.done = line.moves,
        3 => line.moves += 1,
        4 => line.moves -= 1,
        5 => {
            line.y_magnitude = 1_024;
            line.moves = 1_024;
        }
        6 => {
            line.x_magnitude = beyond(chance, 1_024);
            line.moves = line.x_magnitude;
        }
        7 => line.last_word = beyond(chance, ADDRESSES),
        _ => {
            line.y_magnitude = 0;
            line.x_magnitude = 0;
            line.moves = 0;
            line.done = 0;
        }
    }
    registers.motion = Motion::Line(line);
}

fn spoil_bytes(chance: &mut Chance, registers: &mut Registers) {
    put_in_bytes(chance, registers);
    let mut bytes = bytes(chance, registers.display_address);
    match chance.between(0, 6) {
        0 => registers.state = State::Control,
        1 => registers.mode = chance.pick(&[0, 2, 3, 4, 5, 6, 7]),
        2 => bytes.moves_left = 0,
        // Up to 255 only: a wider count may not fit the other simulator's type.
        3 => bytes.moves_left = byte_moves(bytes.byte()) + chance.pick(&[1, 1, 1, 2, 200]),
        4 => bytes.word |= 0o10000,
        5 => bytes.last_word = beyond(chance, ADDRESSES),
        _ => {
            bytes.word &= !0o3000;
            bytes.side = Side::Right;
            bytes.moves_left = 1;
        }
    }
    registers.motion = Motion::Bytes(bytes);
}

// ---------------------------------------------------------------- operations

fn operation_case(chance: &mut Chance) -> Case {
    let mut registers = registers_in_range(chance);
    let operation = if chance.percent(8) {
        match chance.between(0, 3) {
            0 => chance.pick(&[0, 13, 19, 27, 28, 29, 32, 65_537, u32::MAX]),
            _ => u32::from(chance.between(0, 40)),
        }
    } else {
        let known = [
            1, 2, 3, 4, 4, 5, 6, 7, 7, 8, 9, 10, 11, 12, 20, 21, 22, 23, 24, 24, 25, 25, 26, 30,
            30, 31, 31,
        ];
        chance.pick(&known)
    };
    let operand = operand(chance, operation);
    if chance.percent(25) {
        registers.hold(word_to_hold(chance));
    }
    if operation == 4 && chance.percent(60) {
        // A display that the pen stopped, with the pen to be disabled on resuming.
        registers.running = false;
        registers.pen_flag = true;
        registers.conditions |= 0o1000;
    }
    if operation == 25 && chance.coin() {
        put_in_bytes(chance, &mut registers);
    }
    let character_percent = match operation {
        25 | 30 | 31 => 60,
        _ => 10,
    };
    if chance.percent(character_percent) {
        characters::put_in_character(chance, &mut registers);
    }
    if operation == 31 && chance.percent(40) {
        characters::put_in_mode_5(chance, &mut registers);
    }
    if chance.percent(16) {
        spoil(chance, &mut registers);
    }
    Case::Operation {
        registers,
        operation,
        operand,
    }
}

/// Mostly an operand that the operation takes, else one just beyond it or any number.
fn operand(chance: &mut Chance, operation: u32) -> u32 {
    let greatest = match operation {
        1 => 32_767,
        2 | 3 => 4_095,
        8 => 11,
        9 => 1,
        30 => return characters::operand_30(chance),
        _ => 0,
    };
    match chance.between(0, 19) {
        0 => u32::from(greatest) + 1,
        1 => chance.pick(&[
            2,
            12,
            4_096,
            32_768,
            65_535,
            65_536,
            65_537,
            131_072,
            u32::MAX,
        ]),
        2 => 0,
        3 => u32::from(greatest),
        _ => u32::from(chance.between(0, greatest)),
    }
}

// ---------------------------------------------------------------- what every run has

fn budget(chance: &mut Chance) -> u32 {
    // The greatest budget is taken, and rarely asked for because it may be spent in full.
    if chance.between(1, 1_000) == 1 {
        return 65_535;
    }
    match chance.between(0, 199) {
        0..=1 => chance.pick(&[65_536, 65_537, 70_000, 131_071, u32::MAX]),
        2..=11 => 0,
        12..=24 => 1,
        25..=170 => u32::from(chance.between(1, 60)),
        _ => u32::from(chance.between(60, 400)),
    }
}

fn room(chance: &mut Chance) -> usize {
    match chance.between(0, 99) {
        0..=13 => 0,
        14..=26 => 1,
        27..=45 => usize::from(chance.between(2, 12)),
        46 => chance.pick(&[1_024, 65_535, 65_536]),
        _ => usize::from(chance.between(40, 500)),
    }
}

fn memory_length(chance: &mut Chance) -> usize {
    if chance.percent(2) {
        chance.pick(&[0, 1, 100, 4_096, 32_767, 32_769])
    } else {
        MEMORY_LENGTH
    }
}

fn default_word(chance: &mut Chance) -> u16 {
    match chance.between(0, 9) {
        0..=4 => 0,
        5..=7 => chance.good_word(),
        8 => chance.pick(&[0o1400, 0o6240, 0o1001, 0o7777]),
        _ => chance.wide_word(),
    }
}

fn range(low: u16, high: u16) -> LoanRange {
    LoanRange { low, high }
}

/// A range of these many words from `low`, cut off at the end of memory.
fn range_of(low: u16, words: u16) -> LoanRange {
    let low = low.min(32_768);
    range(low, low.saturating_add(words).min(32_768))
}

/// A range with an end next to a word: the word is just outside, or the first or second from that
/// end. The other end is a few words off or as far as it can be.
fn range_beside(chance: &mut Chance, word: u16) -> LoanRange {
    let inside = chance.between(0, 2);
    let words = if chance.coin() {
        chance.between(1, 4)
    } else {
        32_768
    };
    if chance.coin() {
        range_of((word + 1).saturating_sub(inside), words)
    } else {
        let high = (word + inside).min(32_768);
        range(high.saturating_sub(words), high)
    }
}

/// Loans of every kind: the file given as the place and length where the words are.
fn loan(chance: &mut Chance, file_low: u16, file_words: u16, pushdown_pointer: u16) -> Loan {
    let list_low = pushdown_pointer.saturating_sub(chance.between(0, 3));
    let list_words = chance.between(1, 12);
    match chance.between(0, 99) {
        // All of memory, in both ranges or in one.
        0..=29 => Loan::all(),
        30..=33 => Loan {
            file: range(0, 32_768),
            list: range(0, 0),
        },
        34..=37 => Loan {
            file: range(0, 0),
            list: range(0, 32_768),
        },
        // Both end next to a word that a beat may touch: one of the file, and one of the four
        // around the pointer, two of which a pop fetches and two of which a push writes.
        38..=42 => {
            let word = address_after(file_low, chance.between(0, file_words));
            let cell = pointer_after(pointer_before(pushdown_pointer, 2), chance.between(0, 3));
            Loan {
                file: range_beside(chance, word),
                list: range_beside(chance, cell),
            }
        }
        // The words and the whole of field 0, where the list lies.
        43..=50 => Loan {
            file: range_of(file_low, file_words),
            list: range(0, 4_096),
        },
        // The words and a short list.
        51..=62 => Loan {
            file: range_of(file_low, file_words),
            list: range_of(list_low, list_words),
        },
        // All may be fetched, and the list ends in the middle of an entry.
        63..=70 => Loan {
            file: range(0, 32_768),
            list: range_of(pushdown_pointer, chance.pick(&[1, 1, 2, 3])),
        },
        // A part of the words.
        71..=76 => {
            let words = chance.between(0, file_words);
            Loan {
                file: range_of(file_low, words),
                list: range_of(list_low, list_words),
            }
        }
        // Overlapping.
        77..=81 => {
            let half = file_words / 2;
            Loan {
                file: range_of(file_low, half + 2),
                list: range_of(file_low.saturating_add(half), file_words),
            }
        }
        // Tiny and empty ones.
        82..=85 => {
            let empty = chance.between(0, 32_768);
            Loan {
                file: range(empty, empty),
                list: range_of(file_low, chance.between(0, 2)),
            }
        }
        86..=87 => {
            let empty = chance.between(0, 32_768);
            Loan {
                file: range(empty, empty),
                list: range(empty, empty),
            }
        }
        88..=91 => Loan {
            file: range_of(file_low, chance.between(1, 3)),
            list: range(0, 0),
        },
        // Anything in form.
        92..=95 => Loan {
            file: any_range(chance),
            list: any_range(chance),
        },
        // Out of form.
        96 => Loan {
            file: bad_range(chance),
            list: any_range(chance),
        },
        97 => Loan {
            file: any_range(chance),
            list: bad_range(chance),
        },
        _ => Loan {
            file: range(0, 32_768),
            list: range_of(chance.between(0, 4_095), chance.between(0, 600)),
        },
    }
}

fn any_range(chance: &mut Chance) -> LoanRange {
    let one = chance.between(0, 32_768);
    let other = chance.between(0, 32_768);
    range(one.min(other), one.max(other))
}

fn bad_range(chance: &mut Chance) -> LoanRange {
    match chance.between(0, 3) {
        0 => range(chance.between(1, 32_768), 0),
        1 => range(0, 32_769),
        2 => range(chance.between(0, 65_535), 65_535),
        _ => {
            let low = chance.between(1, 32_768);
            range(low, low - 1)
        }
    }
}

/// Pairs below the memory's length only: others are no case of the format.
fn kept_pairs(pairs: Vec<(u16, u16)>, memory_length: usize) -> Vec<(u16, u16)> {
    let mut pairs: Vec<(u16, u16)> = pairs
        .into_iter()
        .filter(|&(address, _)| usize::from(address) < memory_length)
        .collect();
    pairs.truncate(GREATEST_PAIRS);
    pairs
}

// ---------------------------------------------------------------- plausible display files

/// A display file as it is written: its words from one address on.
struct File {
    first: u16,
    words: Vec<u16>,
}

impl File {
    fn new(first: u16) -> File {
        File {
            first,
            words: Vec::new(),
        }
    }

    fn push(&mut self, word: u16) {
        self.words.push(word & 0o7777);
    }

    fn next_address(&self) -> u16 {
        address_after(self.first, self.words.len() as u16)
    }

    fn pairs(&self) -> Vec<(u16, u16)> {
        let places = (0..self.words.len()).map(|place| address_after(self.first, place as u16));
        places.zip(self.words.iter().copied()).collect()
    }
}

/// A mode word that enters data state, then one to three commands of that mode, the last of which
/// usually escapes.
fn write_data(chance: &mut Chance, file: &mut File) {
    let mode = chance.pick(&[0, 1, 1, 2, 2, 3, 3, 4, 4, 6, 6]);
    let clears = if chance.percent(15) {
        chance.between(0, 3) << 1
    } else {
        0
    };
    file.push(0o1101 | (mode << 3) | clears);
    let commands = chance.between(1, 3);
    for command in 1..=commands {
        let escape = command == commands && chance.percent(92);
        write_command(chance, file, mode, escape);
    }
}

fn write_command(chance: &mut Chance, file: &mut File, mode: u16, escape: bool) {
    let lit = if chance.percent(65) { 0o4000 } else { 0 };
    let escape_bit = if escape { 0o4000 } else { 0 };
    match mode {
        0 => {
            file.push(lit | point_position(chance));
            file.push(escape_bit | point_position(chance));
        }
        1 => file.push(increment_word(chance, escape)),
        2 | 3 => {
            file.push(lit | sign_and_magnitude(chance));
            file.push(escape_bit | sign_and_magnitude(chance));
        }
        4 => {
            let zero = chance.percent(12);
            let signs = if zero { 0o2020 } else { 0o3737 };
            let y_and_x = (chance.between(0, 31) << 6) | chance.between(0, 31);
            file.push(lit | (escape_bit >> 6) | (y_and_x & signs));
        }
        _ => file.push(escape_bit | chance.between(0, 0o3777)),
    }
}

fn point_position(chance: &mut Chance) -> u16 {
    let inhibit = if chance.percent(25) { 0o2000 } else { 0 };
    let near = match chance.between(0, 2) {
        0 => chance.between(0, 10),
        1 => chance.between(1_013, 1_023),
        _ => chance.between(0, 1_023),
    };
    inhibit | near
}

fn sign_and_magnitude(chance: &mut Chance) -> u16 {
    let sign = if chance.coin() { 0o2000 } else { 0 };
    sign | magnitude(chance)
}

fn increment_word(chance: &mut Chance, escape: bool) -> u16 {
    let word = chance.good_word();
    if !escape {
        // No escape in either byte: a count of at least one.
        return word | 0o1010;
    }
    if chance.percent(30) {
        word & !0o3000
    } else {
        (word | 0o1000) & !0o0030
    }
}

/// The buttons at the beginning are known here, so that a compare often finds them equal.
fn write_skip(chance: &mut Chance, file: &mut File, buttons: u16) {
    let equal = chance.coin();
    let word = match chance.between(0, 5) {
        0 => 0o4000 | chance.between(0, 0o777),
        1 => 0o5000 | chance.between(0, 0o777),
        2 if equal => 0o6000 | (buttons >> 6),
        2 => 0o6000 | chance.between(0, 0o77),
        3 if equal => 0o6100 | (buttons & 0o77),
        3 => 0o6100 | chance.between(0, 0o77),
        4 => 0o6200 | (2 << chance.between(0, 4)) | chance.between(0, 1),
        _ => 0o7000 | chance.between(0, 3),
    };
    file.push(word);
    // Two words that may be passed or not.
    file.push(chance.between(0, 0o777));
    file.push(0o6300 | chance.between(0, 0o77));
}

/// A part of a file: a change of registers, a skip, a figure, a jump over a word, a push jump.
fn write_part(chance: &mut Chance, file: &mut File, subroutine: u16, buttons: u16) {
    let scale_and_pen = if chance.percent(40) {
        chance.between(0, 0o37) << 4
    } else {
        0
    };
    match chance.between(0, 19) {
        0..=1 => file.push(chance.between(0, 0o777)),
        2..=9 => write_data(chance, file),
        10..=12 => write_skip(chance, file, buttons),
        13 => file.push(0o6300 | chance.between(0, 0o77)),
        14 => file.push(0o6400 | chance.between(0, 0o377)),
        15 => {
            let target = address_after(file.next_address(), 3);
            file.push(0o2000 | (scale_and_pen & 0o760) | (target / 4_096));
            file.push(target % 4_096);
            file.push(0o1400);
        }
        16 => file.push(0o1000 | (chance.between(0, 0o377) & 0o376)),
        _ => {
            file.push(0o2010 | (scale_and_pen & 0o760) | (subroutine / 4_096));
            file.push(subroutine % 4_096);
        }
    }
}

fn write_main_file(chance: &mut Chance, first: u16, subroutine: u16, buttons: u16) -> File {
    let mut file = File::new(first);
    let wanted = usize::from(chance.between(4, 24));
    while file.words.len() < wanted {
        write_part(chance, &mut file, subroutine, buttons);
    }
    match chance.between(0, 9) {
        0..=3 => file.push(0o1400 | chance.between(0, 0o377)),
        4..=5 => {
            file.push(0o2000 | (first / 4_096));
            file.push(first % 4_096);
        }
        6 => file.push(0o3000 | chance.between(0, 0o777)),
        7 => file.push(0o1171),
        8 => file.push(0o1151),
        _ => {}
    }
    file
}

fn write_subroutine(chance: &mut Chance, first: u16) -> File {
    let mut file = File::new(first);
    if chance.coin() {
        file.push(chance.between(0, 0o777));
    }
    if chance.percent(70) {
        write_data(chance, &mut file);
    }
    // Entering data state at the return is rare in a file that means something.
    let enter = u16::from(chance.percent(12));
    file.push(0o3000 | (chance.between(0, 0o777) & 0o776) | enter);
    file
}

fn structured_run(chance: &mut Chance) -> RunCase {
    let mut registers = registers_in_range(chance);
    let first = registers.display_address;
    let subroutine = match chance.between(0, 2) {
        0 => chance.between(32_768 - 40, 32_767),
        1 => address_after(first, 64),
        _ => address(chance),
    };
    let file = write_main_file(chance, first, subroutine, registers.buttons);
    let subroutine_file = write_subroutine(chance, subroutine);
    let mut pairs = subroutine_file.pairs();
    pairs.extend(file.pairs());

    registers.state = State::Control;
    registers.motion = Motion::Nothing;
    registers.running = chance.percent(97);
    registers.stop_request = chance.percent(4);
    hold_the_first_word(&mut registers, &file);
    spoil_a_word(chance, &mut pairs);
    if chance.percent(3) {
        spoil(chance, &mut registers);
    }
    let words = file.words.len() as u16
        + if subroutine == address_after(first, 64) {
            64
        } else {
            0
        };
    let memory_length = memory_length(chance);
    RunCase {
        registers,
        budget: budget(chance),
        loan: loan(chance, first, words, registers.pushdown_pointer),
        room: room(chance),
        given: GivenMemory {
            length: memory_length,
            default: default_word(chance),
            pairs: kept_pairs(pairs, memory_length),
        },
    }
}

/// A held word becomes the file's first, so that the file goes on as it was written.
fn hold_the_first_word(registers: &mut Registers, file: &File) {
    if registers.word_is_held {
        registers.held_word = file.words[0];
    }
}

/// Now and then one word of the file is replaced by any word, or by one that is too wide.
fn spoil_a_word(chance: &mut Chance, pairs: &mut [(u16, u16)]) {
    if pairs.is_empty() || !chance.percent(20) {
        return;
    }
    let place = usize::from(chance.between(0, pairs.len() as u16 - 1));
    pairs[place].1 = if chance.percent(40) {
        chance.wide_word()
    } else {
        chance.good_word()
    };
}

// ---------------------------------------------------------------- wild runs

fn wild_word(chance: &mut Chance) -> u16 {
    match chance.between(0, 99) {
        0..=3 => chance.wide_word(),
        // Control words that do something each.
        4..=19 => 0o1000 | chance.between(0, 0o377),
        20..=27 => 0o2000 | chance.between(0, 0o777),
        28..=35 => 0o3000 | chance.between(0, 0o777),
        36..=41 => 0o6000 | chance.between(0, 0o777),
        42..=44 => 0o7000 | chance.between(0, 3),
        // Small vectors, lit or not.
        45..=59 => (chance.between(0, 3) << 10) | magnitude(chance),
        _ => chance.good_word(),
    }
}

/// A graphplot about to pass the upper end of an axis, which chance alone seldom makes.
fn put_before_an_edge(chance: &mut Chance, registers: &mut Registers) {
    registers.state = State::Data;
    registers.mode = 6;
    registers.motion = Motion::Nothing;
    let dimensions = [
        x_dimension(registers.conditions),
        y_dimension(registers.conditions),
    ];
    let [x, y] = dimensions.map(|dimension| {
        let size = 1 << dimension;
        size * chance.between(1, 8_192 / size) - 1 - chance.between(0, 9)
    });
    registers.x = x;
    registers.y = y;
}

fn wild_run(chance: &mut Chance) -> RunCase {
    let mut registers = registers_in_range(chance);
    registers.running = chance.percent(96);
    registers.stop_request = chance.percent(6);
    if chance.percent(6) {
        put_before_an_edge(chance, &mut registers);
    }
    let count = chance.between(4, GREATEST_PAIRS as u16);
    let mut pairs = Vec::new();
    for _ in 0..count {
        let place = match chance.between(0, 9) {
            0..=5 => address_after(registers.display_address, chance.between(0, 30)),
            6..=7 => {
                let back = pointer_before(registers.pushdown_pointer, 4);
                pointer_after(back, chance.between(0, 8))
            }
            8 => chance.between(0, 32_767),
            _ => chance.between(0, 4_095),
        };
        pairs.push((place, wild_word(chance)));
    }
    // The command that comes first is there in any case.
    pairs.push((registers.display_address, wild_word(chance)));
    pairs.push((
        address_after(registers.display_address, 1),
        wild_word(chance),
    ));
    pairs.reverse();
    if chance.percent(4) {
        spoil(chance, &mut registers);
    }
    let memory_length = memory_length(chance);
    RunCase {
        registers,
        budget: budget(chance),
        loan: loan(
            chance,
            registers.display_address,
            32,
            registers.pushdown_pointer,
        ),
        room: room(chance),
        given: GivenMemory {
            length: memory_length,
            default: default_word(chance),
            pairs: kept_pairs(pairs, memory_length),
        },
    }
}

// ---------------------------------------------------------------- runs at the fence

/// A command that mostly touches the list, often at the end of memory or of the list, with a few
/// words before it, and a loan that ends next to what it touches.
fn fenced_run(chance: &mut Chance) -> RunCase {
    let mut registers = registers_in_range(chance);
    registers.state = State::Control;
    registers.motion = Motion::Nothing;
    registers.running = true;
    registers.stop_request = false;
    let words_before = chance.between(0, 2);
    if chance.percent(35) {
        registers.display_address = chance.between(0o77776, 0o77777) - words_before;
    }
    if chance.coin() {
        registers.pushdown_pointer = chance.pick(&[0o7776, 0o7777, 0, 1, 2]);
    }
    let mut file = File::new(registers.display_address);
    for _ in 0..words_before {
        file.push(chance.between(0, 0o777));
    }
    let command = file.next_address();
    let mut first_cell = registers.pushdown_pointer;
    match chance.between(0, 9) {
        0..=3 => {
            file.push(0o2010 | chance.between(0, 0o777));
            file.push(chance.good_word());
        }
        4..=7 => {
            file.push(0o3000 | chance.between(0, 0o777));
            first_cell = pointer_before(first_cell, 2);
        }
        8 => {
            file.push(0o2000 | chance.between(0, 7));
            file.push(chance.good_word());
        }
        _ => write_data(chance, &mut file),
    }
    hold_the_first_word(&mut registers, &file);
    let word = address_after(command, chance.between(0, 2));
    let cell = pointer_after(first_cell, chance.between(0, 1));
    RunCase {
        registers,
        budget: budget(chance),
        loan: Loan {
            file: match chance.between(0, 9) {
                // All words, so that the command comes to its list.
                0..=4 => range_of(file.first, file.words.len() as u16),
                // The first word of the command is the last that is lent.
                5..=6 => range_of(file.first, words_before + 1),
                _ => range_beside(chance, word),
            },
            list: if chance.coin() {
                range_of(cell, 1)
            } else {
                range_beside(chance, cell)
            },
        },
        room: room(chance),
        given: GivenMemory {
            length: MEMORY_LENGTH,
            default: default_word(chance),
            pairs: file.pairs(),
        },
    }
}

#[cfg(test)]
mod tests {
    use super::*;
    use crate::host_operations::operate;
    use crate::refusals_and_endings::Ending;
    use crate::replay::{read_case, replay, write_case, Outcome};
    use crate::turn::run;

    pub fn runs(seed: u64, count: usize) -> Vec<RunCase> {
        let mut chance = Chance::new(seed);
        let mut runs = Vec::new();
        while runs.len() < count {
            if let Case::Run(case) = next_case(&mut chance) {
                runs.push(case);
            }
        }
        runs
    }

    pub fn outcome(case: &RunCase, memory: Vec<u16>, loan: Loan, budget: u32) -> Outcome {
        case.outcome_on(memory, |registers, memory, points| {
            run(registers, memory, loan, budget, points)
        })
    }

    #[test]
    fn a_seed_gives_the_same_cases_again() {
        let lines = |seed: u64| {
            let mut chance = Chance::new(seed);
            (0..50)
                .map(|_| write_case(&next_case(&mut chance)))
                .collect::<Vec<_>>()
        };
        assert_eq!(lines(7), lines(7));
        assert_ne!(lines(7), lines(8));
    }

    #[test]
    fn every_case_is_a_case_of_the_format() {
        let mut chance = Chance::new(1);
        for _ in 0..2_000 {
            let case = next_case(&mut chance);
            assert_eq!(read_case(&write_case(&case)), Some(case));
        }
    }

    /// Whatever number stands in a line, it is answered or said to be no case.
    #[test]
    fn lines_with_any_number_changed_are_answered() {
        let mut chance = Chance::new(6);
        let odd = [
            "0",
            "1",
            "2",
            "3",
            "4",
            "7",
            "8",
            "255",
            "256",
            "1023",
            "1024",
            "4095",
            "4096",
            "8191",
            "8192",
            "32767",
            "32768",
            "32769",
            "65535",
            "65536",
            "4294967295",
            "4294967296",
            "",
            "-1",
            "op",
            "run",
            "list",
            "read",
            ";",
            "1500000",
            "1500001",
        ];
        let mut input = Vec::new();
        for _ in 0..3_000 {
            let line = write_case(&next_case(&mut chance));
            let mut texts: Vec<&[u8]> = line.split(|&byte| byte == b' ').collect();
            // A listing may have very many texts; most of what is not its words comes first.
            let places = texts.len().min(60) as u16;
            for _ in 0..chance.between(1, 3) {
                let place = usize::from(chance.between(0, places - 1));
                texts[place] = chance.pick(&odd).as_bytes();
            }
            input.extend(texts.join(&b' '));
            input.push(b'\n');
        }
        let mut output = Vec::new();
        replay(&input[..], &mut output).unwrap();
        let answers = String::from_utf8(output).unwrap();
        assert_eq!(answers.lines().count(), 3_000);
        assert!(answers.lines().any(|answer| answer.starts_with("error ")));
        assert!(answers.lines().any(|answer| !answer.starts_with("error ")));
    }

    #[test]
    fn refusals_change_nothing_and_accepted_runs_leave_good_registers() {
        for case in runs(2, 2_000) {
            let after = outcome(&case, case.memory(), case.loan, case.budget);
            if after.answer.ending.number() < 10 {
                assert_eq!(after.registers, case.registers);
                assert_eq!(after.memory, case.memory());
                assert!(after.points.iter().all(|&point| point == 0));
                assert_eq!((after.answer.beats, after.answer.points), (0, 0));
            } else {
                assert!(after.registers.are_in_range());
                assert!(after.answer.beats <= case.budget);
                assert!(after.answer.points <= after.answer.beats);
            }
        }
    }

    /// Demand 3, first half: words outside the loan have no say, and none outside the list
    /// range changes.
    #[test]
    fn words_that_are_not_lent_have_no_say() {
        let mut chance = Chance::new(33);
        for case in runs(3, 2_000) {
            let one = outcome(&case, case.memory(), case.loan, case.budget);
            if one.answer.ending.number() < 10 {
                continue;
            }
            let other_word = chance.between(0, 65_535);
            let mut other_memory = case.memory();
            for (address, word) in other_memory.iter_mut().enumerate() {
                if !case.loan.allows_fetch(address as u16) {
                    *word = other_word;
                }
            }
            let other = outcome(&case, other_memory.clone(), case.loan, case.budget);
            assert_eq!(one.answer, other.answer);
            assert_eq!(one.registers, other.registers);
            assert_eq!(one.points, other.points);
            let before = case.memory();
            for address in 0..MEMORY_LENGTH {
                if case.loan.allows_fetch(address as u16) {
                    assert_eq!(one.memory[address], other.memory[address]);
                }
                if !case.loan.allows_write(address as u16) {
                    assert_eq!(one.memory[address], before[address]);
                    assert_eq!(other.memory[address], other_memory[address]);
                }
            }
        }
    }

    /// Demand 3, second half: the fence only ever ends a run, it never bends one.
    #[test]
    fn a_run_is_the_run_with_all_lent_up_to_the_fence() {
        for case in runs(4, 2_000) {
            let fenced = outcome(&case, case.memory(), case.loan, case.budget);
            if fenced.answer.ending.number() < 10 {
                continue;
            }
            let barred = match fenced.answer.ending {
                Ending::FetchOutsideLoan(address) => !case.loan.allows_fetch(address),
                Ending::WriteOutsideLoan(address) => !case.loan.allows_write(address),
                _ => false,
            };
            let at_fence = matches!(fenced.answer.ending.number(), 16 | 19);
            assert_eq!(barred, at_fence);
            let budget = if at_fence {
                fenced.answer.beats
            } else {
                case.budget
            };
            let free = outcome(&case, case.memory(), Loan::all(), budget);
            assert_eq!(fenced.registers, free.registers);
            assert_eq!(fenced.memory, free.memory);
            assert_eq!(fenced.points, free.points);
            assert_eq!(fenced.answer.beats, free.answer.beats);
            if !at_fence {
                assert_eq!(fenced.answer, free.answer);
            }
        }
    }

    /// What a run leaves, a part of its budget, and what the run leaves with that alone. None where
    /// it is refused or has no beat.
    fn parted(case: &RunCase, chance: &mut Chance) -> Option<(Outcome, u32, Outcome)> {
        let whole = outcome(case, case.memory(), case.loan, case.budget);
        if whole.answer.ending.number() < 10 || case.budget == 0 {
            return None;
        }
        let first_part = u32::from(chance.between(0, case.budget as u16));
        let first = outcome(case, case.memory(), case.loan, first_part);
        Some((whole, first_part, first))
    }

    /// A budget spent in two parts is the budget spent in one.
    #[test]
    fn a_break_in_a_run_does_not_show() {
        let mut chance = Chance::new(55);
        for case in runs(5, 2_000) {
            let Some((whole, first_part, first)) = parted(&case, &mut chance) else {
                continue;
            };
            if first.answer.ending != Ending::BudgetSpent {
                assert_eq!(first.answer, whole.answer);
                continue;
            }
            let rest = RunCase {
                registers: first.registers,
                room: case.room - first.answer.points as usize,
                ..case.clone()
            };
            let second = outcome(&rest, first.memory, case.loan, case.budget - first_part);
            assert_eq!(second.answer.ending, whole.answer.ending);
            assert_eq!(first.answer.beats + second.answer.beats, whole.answer.beats);
            assert_eq!(second.registers, whole.registers);
            assert_eq!(second.memory, whole.memory);
            let lit = first.answer.points as usize;
            assert_eq!(
                [&first.points[..lit], &second.points].concat(),
                whole.points
            );
        }
    }

    /// What the parts of a run leave together: their points one behind another, and their beats
    /// added up.
    fn joined(parts: &[&Outcome]) -> (u32, Vec<u64>) {
        let beats = parts.iter().map(|part| part.answer.beats).sum();
        let lit = parts.iter().map(|part| {
            let lit = part.answer.points as usize;
            &part.points[..lit]
        });
        (beats, lit.collect::<Vec<_>>().concat())
    }

    /// The run that goes on from where another left off, with the rest of its room.
    fn going_on(case: &RunCase, left: &Outcome, registers: Registers) -> RunCase {
        RunCase {
            registers,
            room: left.points.len() - left.answer.points as usize,
            ..case.clone()
        }
    }

    /// Manual 1.1.9.2: an external stop "allows simple resuming of the sequence". Where the stop's
    /// fetch can't be made, the beat that comes next can't be made either.
    #[test]
    fn a_stop_and_a_resume_do_not_show() {
        let mut chance = Chance::new(66);
        let mut stops = 0;
        for mut case in runs(6, 6_000) {
            // Resume would clear the flags that stop.
            case.registers.clear_stopping_flags();
            case.registers.stop_request = false;
            let Some((whole, first_part, first)) = parted(&case, &mut chance) else {
                continue;
            };
            if first.answer.ending != Ending::BudgetSpent {
                continue;
            }
            let asked = going_on(&case, &first, operate(first.registers, 6, 0).0);
            let budget = case.budget - first_part;
            let stop = outcome(&asked, first.memory.clone(), case.loan, budget);
            let unusable = first.registers.state == State::Data && first.registers.mode == 7;
            let (all, mut left) = if stop.answer.ending == Ending::ExternalStop {
                stops += 1;
                assert!(stop.registers.word_is_held);
                let resumed = going_on(&asked, &stop, operate(stop.registers, 4, 0).0);
                let budget = budget - stop.answer.beats;
                let rest = outcome(&resumed, stop.memory.clone(), case.loan, budget);
                assert_eq!(rest.answer.ending, whole.answer.ending);
                (joined(&[&first, &stop, &rest]), rest)
            } else {
                assert!(stop.registers.stop_request);
                if !unusable {
                    assert_eq!(stop.answer.ending, whole.answer.ending);
                }
                (joined(&[&first, &stop]), stop)
            };
            assert_eq!(all, joined(&[&whole]));
            assert_eq!(left.memory, whole.memory);
            left.registers.stop_request = false;
            if left.registers.held() != whole.registers.held() {
                // The run ends behind the stop, and no beat of it used the word.
                assert_eq!(whole.registers.held(), None);
                left.registers.drop_held_word();
            }
            if unusable {
                left.registers.running = whole.registers.running;
            }
            assert_eq!(left.registers, whole.registers);
        }
        assert!(stops > 500, "{stops}");
    }

    /// 02, No. 4: the held word stands for the one at the address, for one command beat, and that
    /// one has no say, unless a pop finds it on its list.
    #[test]
    fn a_held_word_is_the_word_at_the_address() {
        let mut held = 0;
        for case in runs(7, 10_000) {
            let Some(word) = case.registers.held() else {
                continue;
            };
            let no_motion = case.registers.motion == Motion::Nothing;
            if !case.registers.are_in_range() || !no_motion || case.registers.stop_request {
                continue;
            }
            let pointer = case.registers.pushdown_pointer;
            let cells = [pointer_before(pointer, 2), pointer_before(pointer, 1)];
            if word >> 9 == 3 && cells.contains(&case.registers.display_address) {
                continue;
            }
            let address = usize::from(case.registers.display_address);
            let with_own = |own: u16| {
                let mut memory = case.memory();
                if let Some(place) = memory.get_mut(address) {
                    *place = own;
                }
                memory
            };
            let using = outcome(&case, case.memory(), Loan::all(), 1);
            for own in [0, 0o7777, 0o10000] {
                let other = outcome(&case, with_own(own), Loan::all(), 1);
                assert_eq!(using.answer, other.answer);
                assert_eq!(using.registers, other.registers);
                assert_eq!(using.points, other.points);
            }
            let mut fetching = case.clone();
            fetching.registers.drop_held_word();
            let fetched = outcome(&fetching, with_own(word), Loan::all(), 1);
            assert_eq!(using.answer, fetched.answer);
            assert_eq!(using.points, fetched.points);
            let mut left = using.registers;
            if using.answer.beats == 0 {
                assert_eq!(left.held(), Some(word));
                left.drop_held_word();
            }
            assert_eq!(left, fetched.registers);
            held += 1;
        }
        assert!(held > 500, "{held}");
    }
}
