//! The registers of the display, their ranges, and the rules of motion that refusal 4 asks.

use crate::words::{bit, field, GREATEST_WORD};

/// 01, registers: "state (control or data)".
#[derive(Clone, Copy, Debug, PartialEq, Eq)]
pub enum State {
    Control,
    Data,
}

/// Which byte of an increment word is being executed.
#[derive(Clone, Copy, Debug, PartialEq, Eq)]
pub enum Side {
    Left,
    Right,
}

/// 01, registers: "a line (two signs, magnitudes up to 1,023, n = the larger, at least 1,
/// done k below n, lit, escape)". 02, No. 5: "The motion registers must remember that address".
#[derive(Clone, Copy, Debug, PartialEq, Eq)]
pub struct Line {
    pub y_minus: bool,
    pub x_minus: bool,
    pub y_magnitude: u16,
    pub x_magnitude: u16,
    /// 01 calls it n.
    pub moves: u16,
    /// 01 calls it k.
    pub done: u16,
    pub lit: bool,
    pub escape: bool,
    /// 15 bits; the address of the last word of the command.
    pub last_word: u16,
}

/// 01, registers: "bytes (word, left or right, 1 to 3 moves left ...)". 02, No. 5 as for a line.
#[derive(Clone, Copy, Debug, PartialEq, Eq)]
pub struct Bytes {
    pub word: u16,
    pub side: Side,
    pub moves_left: u16,
    /// 15 bits; the address of the last word of the command, which is the word's own.
    pub last_word: u16,
}

/// 02, No. 6: "An unfinished character is motion". It is what is left of a character word.
#[derive(Clone, Copy, Debug, PartialEq, Eq)]
pub struct Character {
    /// 12 bits; one character of seven bits, or two of six.
    pub word: u16,
    /// Whether the word is read in seven bits: "a new code size from the next word".
    pub seven_bits: bool,
    /// Which character of the word is being executed.
    pub side: Side,
    pub stage: Stage,
}

/// How far a character is. Manual, appendix 1: the character finds its table word, and a dispatch
/// word finds a routine.
#[derive(Clone, Copy, Debug, PartialEq, Eq)]
pub enum Stage {
    /// Its table word is to be fetched.
    TableWord,
    /// A word of its routine is to be fetched.
    RoutineWord(Routine),
    /// Moves of an increment word of its routine are left.
    Bytes(Bytes),
    /// Moves of a short vector of its routine are left.
    Line(Line),
}

/// Manual, appendix 1: a routine is "drawn in either increment or short vector mode".
#[derive(Clone, Copy, Debug, PartialEq, Eq)]
pub struct Routine {
    /// Short vectors, or else increment words.
    pub short_vectors: bool,
    /// 15 bits; the address of the word that comes next.
    pub next: u16,
}

/// 01, registers: "Motion is nothing; a line ...; or bytes ...". 02, No. 6: "An unfinished character
/// is motion".
#[derive(Clone, Copy, Debug, PartialEq, Eq)]
pub enum Motion {
    Nothing,
    Line(Line),
    Bytes(Bytes),
    Character(Character),
}

/// 01, registers. The numbers are wider than the display's own, so that values out of range
/// can be handed in and refused rather than be impossible to say.
#[derive(Clone, Copy, Debug, PartialEq, Eq)]
pub struct Registers {
    /// 15 bits; the upper three are the manual's break field, the lower twelve its DAC.
    pub display_address: u16,
    /// 12 bits; it only ever means field 0.
    pub pushdown_pointer: u16,
    pub x: u16,
    pub y: u16,
    pub state: State,
    pub mode: u8,
    pub scale: u8,
    pub intensity: u8,
    pub pen_enable: bool,
    pub pen_hold: bool,
    /// The manual's LPSI.
    pub pen_sense: bool,
    pub blink: bool,
    pub idle: bool,
    /// 12 bits; button 0 is bit 0, the leftmost.
    pub buttons: u16,
    pub hit_bank_1: bool,
    pub hit_bank_2: bool,
    pub internal_stop_flag: bool,
    pub external_stop_flag: bool,
    pub vertical_edge_flag: bool,
    pub horizontal_edge_flag: bool,
    pub pen_flag: bool,
    pub manual_interrupt_flag: bool,
    /// The 12 initial-condition bits, in the layout of manual 2.3.2.2.
    pub conditions: u16,
    pub running: bool,
    pub stop_request: bool,
    /// 02, No. 4: whether a word is held since an external stop.
    pub word_is_held: bool,
    /// 12 bits; 0 where none is held.
    pub held_word: u16,
    /// 02, No. 6: the case of six-bit codes. The manual's CASE.
    pub upper_case: bool,
    /// 02, No. 6: the code size, seven bits or else six. The manual's CHSZ.
    pub seven_bit_codes: bool,
    /// 6 bits; 02, No. 6: the starting address register. The manual's SAR.
    pub starting_address: u8,
    pub motion: Motion,
}

/// 01, registers: "counting wraps from 77777o to 0".
pub const ADDRESSES: u16 = 32_768;
/// 01, registers: "the pointer counts modulo 4,096".
pub const POINTERS: u16 = 4_096;
/// 01, registers: "13-bit x and y".
pub const COORDINATES: u16 = 8_192;
/// Manual 1.1.1: a sector is 1,024 points wide and high.
pub const SECTOR: u16 = 1_024;
/// 01, registers: "magnitudes up to 1,023".
pub const GREATEST_MAGNITUDE: u16 = 1_023;
/// Manual 2.3.1.10: "The SAR is a 6-bit register".
pub const STARTING_ADDRESSES: u8 = 64;

/// The display address that lies `count` words further on. 01, registers.
pub fn address_after(address: u16, count: u16) -> u16 {
    ((u32::from(address) + u32::from(count)) % u32::from(ADDRESSES)) as u16
}

/// The pushdown pointer `count` words further on. 01, registers.
pub fn pointer_after(pointer: u16, count: u16) -> u16 {
    ((u32::from(pointer) + u32::from(count)) % u32::from(POINTERS)) as u16
}

/// The pushdown pointer `count` words back (at most 4,096). 01, registers.
pub fn pointer_before(pointer: u16, count: u16) -> u16 {
    pointer_after(pointer, POINTERS.saturating_sub(count))
}

impl Registers {
    /// 01, registers: "Fresh is all zero: control state, not running, no motion". So no word is held
    /// either, and the character generator has case 0, six bits and starting address 0.
    pub fn fresh() -> Registers {
        Registers {
            display_address: 0,
            pushdown_pointer: 0,
            x: 0,
            y: 0,
            state: State::Control,
            mode: 0,
            scale: 0,
            intensity: 0,
            pen_enable: false,
            pen_hold: false,
            pen_sense: false,
            blink: false,
            idle: false,
            buttons: 0,
            hit_bank_1: false,
            hit_bank_2: false,
            internal_stop_flag: false,
            external_stop_flag: false,
            vertical_edge_flag: false,
            horizontal_edge_flag: false,
            pen_flag: false,
            manual_interrupt_flag: false,
            conditions: 0,
            running: false,
            stop_request: false,
            word_is_held: false,
            held_word: 0,
            upper_case: false,
            seven_bit_codes: false,
            starting_address: 0,
            motion: Motion::Nothing,
        }
    }

    /// 01, registers: "Values outside this are refusal 4". Nothing else is asked: a display that
    /// runs with a stopping flag on or with a held word, or waits with a stop request, is accepted.
    pub fn are_in_range(&self) -> bool {
        self.display_address < ADDRESSES
            && self.pushdown_pointer < POINTERS
            && self.x < COORDINATES
            && self.y < COORDINATES
            && self.mode <= 7
            && self.scale <= 3
            && self.intensity <= 7
            && self.buttons <= GREATEST_WORD
            && self.conditions <= GREATEST_WORD
            && self.held_word_is_in_range()
            && self.starting_address < STARTING_ADDRESSES
            && self.motion_is_in_range()
    }

    /// 02, No. 4: "a held word above 4,095 is refusal 4". So is any word but 0 where none is held,
    /// so that a state has one form only.
    fn held_word_is_in_range(&self) -> bool {
        let greatest = if self.word_is_held { GREATEST_WORD } else { 0 };
        self.held_word <= greatest
    }

    /// 01, registers, the paragraph on motion. 02, No. 6: of a character only its own parts are
    /// asked, so it is accepted in any state and mode.
    fn motion_is_in_range(&self) -> bool {
        match self.motion {
            Motion::Nothing => true,
            Motion::Line(line) => {
                self.state == State::Data && matches!(self.mode, 2..=4) && line.is_in_range()
            }
            Motion::Bytes(bytes) => {
                self.state == State::Data && self.mode == 1 && bytes.are_in_range()
            }
            Motion::Character(character) => character.is_in_range(),
        }
    }

    /// 02, No. 4: the word that is held, if there is one.
    pub fn held(&self) -> Option<u16> {
        self.word_is_held.then_some(self.held_word)
    }

    /// The word is held from now on.
    pub fn hold(&mut self, word: u16) {
        self.word_is_held = true;
        self.held_word = word;
    }

    /// No word is held from now on.
    pub fn drop_held_word(&mut self) {
        self.word_is_held = false;
        self.held_word = 0;
    }

    /// 01, registers: the display address holds the manual's break field in its upper three bits.
    pub fn break_field(&self) -> u16 {
        self.display_address / POINTERS
    }

    /// One of the 12 initial-condition bits, in the layout of manual 2.3.2.2.
    pub fn condition(&self, place: u16) -> bool {
        bit(self.conditions, place)
    }

    /// Manual 1.1.1 and 2.1.7.3: sector 0 is where the high three bits of both x and y are 0.
    pub fn in_sector_0(&self) -> bool {
        self.x < SECTOR && self.y < SECTOR
    }

    /// The flags of group 1 in manual 1.1.9, "flags which stop the display". Start, resume and
    /// clear turn them off together.
    pub fn clear_stopping_flags(&mut self) {
        self.internal_stop_flag = false;
        self.external_stop_flag = false;
        self.vertical_edge_flag = false;
        self.horizontal_edge_flag = false;
        self.pen_flag = false;
    }
}

impl Line {
    /// 01, registers: "magnitudes up to 1,023, n = the larger, at least 1, done k below n". 02,
    /// No. 5: a "15-bit address", near the display address or not.
    pub fn is_in_range(&self) -> bool {
        self.y_magnitude <= GREATEST_MAGNITUDE
            && self.x_magnitude <= GREATEST_MAGNITUDE
            && self.moves == self.y_magnitude.max(self.x_magnitude)
            && self.moves >= 1
            && self.done < self.moves
            && self.last_word < ADDRESSES
    }
}

impl Bytes {
    /// 01, registers: "right only if the left byte does not escape", and the counts.
    pub fn are_in_range(&self) -> bool {
        (self.side == Side::Left || !byte_escapes(byte_of(self.word, Side::Left)))
            && self.counts_are_in_range()
    }

    /// 01, registers: "1 to 3 moves left and no more than that byte asks". 02, No. 5 as for a line.
    fn counts_are_in_range(&self) -> bool {
        self.word <= GREATEST_WORD
            && self.moves_left >= 1
            && self.moves_left <= byte_moves(self.byte())
            && self.last_word < ADDRESSES
    }

    /// The byte that is being executed.
    pub fn byte(&self) -> u16 {
        byte_of(self.word, self.side)
    }
}

impl Character {
    /// 02, No. 6: "parts of an unfinished character, outside their widths or 01's limits on motion
    /// counts are 4, and nothing else of a character is".
    fn is_in_range(&self) -> bool {
        self.word <= GREATEST_WORD && self.stage.is_in_range()
    }
}

impl Stage {
    /// 02, No. 6: widths and counts. So a right byte behind a left one that escapes is in range.
    fn is_in_range(&self) -> bool {
        match self {
            Stage::TableWord => true,
            Stage::RoutineWord(routine) => routine.next < ADDRESSES,
            Stage::Bytes(bytes) => bytes.counts_are_in_range(),
            Stage::Line(line) => line.is_in_range(),
        }
    }
}

/// Manual 2.2.2: the first byte is bits 0 to 5, the second bits 6 to 11. Manual 2.2.6: so are the
/// characters of a word in six-bit format.
pub fn byte_of(word: u16, side: Side) -> u16 {
    match side {
        Side::Left => field(word, 0, 5),
        Side::Right => field(word, 6, 11),
    }
}

/// Bits 1, 2 of a six-bit byte, which say its moves and its escape.
fn byte_count(byte: u16) -> u16 {
    (byte >> 3) & 3
}

/// 01, data words, increment: "00 one move and escape, 01, 10, 11 one, two, three moves".
pub fn byte_moves(byte: u16) -> u16 {
    byte_count(byte).max(1)
}

/// 01, data words, increment: only the count 00 escapes.
pub fn byte_escapes(byte: u16) -> bool {
    byte_count(byte) == 0
}

/// Manual 2.2.2: bit 0 of a byte asks for its points.
pub fn byte_lit(byte: u16) -> bool {
    (byte >> 5) & 1 == 1
}

/// Manual 2.2.2: bits 3, 4, 5 of a byte.
pub fn byte_direction(byte: u16) -> u16 {
    byte & 7
}

#[cfg(test)]
mod tests {
    use super::*;

    fn line() -> Line {
        Line {
            y_minus: false,
            x_minus: true,
            y_magnitude: 3,
            x_magnitude: 5,
            moves: 5,
            done: 4,
            lit: false,
            escape: false,
            last_word: 0o201,
        }
    }

    /// Left byte 36o: three moves; right byte 12o: one move.
    fn bytes() -> Bytes {
        Bytes {
            word: 0o3612,
            side: Side::Left,
            moves_left: 3,
            last_word: 0o200,
        }
    }

    fn moving(motion: Motion, mode: u8) -> Registers {
        Registers {
            state: State::Data,
            mode,
            motion,
            ..Registers::fresh()
        }
    }

    #[test]
    fn fresh_registers_are_in_range() {
        assert!(Registers::fresh().are_in_range());
    }

    #[test]
    fn each_number_has_its_last_good_value() {
        let good = Registers {
            display_address: 32_767,
            pushdown_pointer: 4_095,
            x: 8_191,
            y: 8_191,
            mode: 7,
            scale: 3,
            intensity: 7,
            buttons: 4_095,
            conditions: 4_095,
            word_is_held: true,
            held_word: 4_095,
            starting_address: 63,
            ..Registers::fresh()
        };
        assert!(good.are_in_range());
        assert!(!Registers {
            display_address: 32_768,
            ..good
        }
        .are_in_range());
        assert!(!Registers {
            pushdown_pointer: 4_096,
            ..good
        }
        .are_in_range());
        assert!(!Registers { x: 8_192, ..good }.are_in_range());
        assert!(!Registers { y: 8_192, ..good }.are_in_range());
        assert!(!Registers { mode: 8, ..good }.are_in_range());
        assert!(!Registers { scale: 4, ..good }.are_in_range());
        assert!(!Registers {
            intensity: 8,
            ..good
        }
        .are_in_range());
        assert!(!Registers {
            buttons: 4_096,
            ..good
        }
        .are_in_range());
        assert!(!Registers {
            conditions: 4_096,
            ..good
        }
        .are_in_range());
        assert!(!Registers {
            held_word: 4_096,
            ..good
        }
        .are_in_range());
        assert!(!Registers {
            starting_address: 64,
            ..good
        }
        .are_in_range());
    }

    #[test]
    fn where_no_word_is_held_the_held_word_is_0() {
        for word in [1, 0o1400, 4_095, 4_096, 65_535] {
            let unfit = Registers {
                held_word: word,
                ..Registers::fresh()
            };
            assert!(!unfit.are_in_range(), "{word}");
        }
        // A held word of 0 is a word, and not the same as none.
        let mut registers = Registers::fresh();
        assert_eq!(registers.held(), None);
        registers.hold(0);
        assert!(registers.are_in_range());
        assert_eq!(registers.held(), Some(0));
        assert_ne!(registers, Registers::fresh());
        registers.hold(0o7777);
        assert_eq!(registers.held(), Some(0o7777));
        registers.drop_held_word();
        assert_eq!(registers, Registers::fresh());
    }

    #[test]
    fn a_held_word_is_accepted_in_every_state() {
        let line = Motion::Line(line());
        let bytes = Motion::Bytes(bytes());
        let still = (0..8).map(|mode| moving(Motion::Nothing, mode));
        let character = Motion::Character(character(Stage::TableWord));
        let states = [
            Registers::fresh(),
            moving(line, 2),
            moving(bytes, 1),
            moving(character, 5),
        ];
        for state in states.into_iter().chain(still) {
            for running in [false, true] {
                for stop_request in [false, true] {
                    for external_stop_flag in [false, true] {
                        let mut holding = Registers {
                            running,
                            stop_request,
                            external_stop_flag,
                            ..state
                        };
                        holding.hold(0o1400);
                        assert!(holding.are_in_range(), "{holding:?}");
                    }
                }
            }
        }
    }

    #[test]
    fn odd_mixtures_are_accepted() {
        let odd = Registers {
            running: true,
            internal_stop_flag: true,
            pen_hold: true,
            pen_enable: true,
            ..Registers::fresh()
        };
        assert!(odd.are_in_range());
        assert!(Registers {
            running: false,
            stop_request: true,
            ..odd
        }
        .are_in_range());
    }

    #[test]
    fn a_line_keeps_its_rules() {
        for mode in 0..8 {
            let in_range = moving(Motion::Line(line()), mode).are_in_range();
            assert_eq!(in_range, (2..=4).contains(&mode));
        }
        let control = Registers {
            state: State::Control,
            ..moving(Motion::Line(line()), 2)
        };
        assert!(!control.are_in_range());
        assert!(!Line { done: 5, ..line() }.is_in_range());
        assert!(!Line { moves: 6, ..line() }.is_in_range());
        assert!(!Line {
            moves: 3,
            done: 0,
            ..line()
        }
        .is_in_range());
        assert!(!Line {
            x_magnitude: 1_024,
            moves: 1_024,
            ..line()
        }
        .is_in_range());
        assert!(!Line {
            y_magnitude: 1_024,
            moves: 1_024,
            ..line()
        }
        .is_in_range());
        assert!(Line {
            y_magnitude: 1_023,
            moves: 1_023,
            ..line()
        }
        .is_in_range());
        let still = Line {
            y_magnitude: 0,
            x_magnitude: 0,
            moves: 0,
            done: 0,
            ..line()
        };
        assert!(!still.is_in_range());
        // A short vector's word cannot ask for more than 15, but registers may hand more in.
        let long = Line {
            x_magnitude: 1_023,
            moves: 1_023,
            ..line()
        };
        assert!(moving(Motion::Line(long), 4).are_in_range());
    }

    #[test]
    fn bytes_keep_their_rules() {
        let bytes = bytes();
        for mode in 0..8 {
            assert_eq!(moving(Motion::Bytes(bytes), mode).are_in_range(), mode == 1);
        }
        let control = Registers {
            state: State::Control,
            ..moving(Motion::Bytes(bytes), 1)
        };
        assert!(!control.are_in_range());
        assert!(!Bytes {
            moves_left: 0,
            ..bytes
        }
        .are_in_range());
        assert!(!Bytes {
            moves_left: 4,
            ..bytes
        }
        .are_in_range());
        assert!(!Bytes {
            word: 0o13612,
            ..bytes
        }
        .are_in_range());
        let right = Bytes {
            side: Side::Right,
            moves_left: 1,
            ..bytes
        };
        assert!(right.are_in_range());
        assert!(!Bytes {
            moves_left: 2,
            ..right
        }
        .are_in_range());
        // A left byte that escapes leaves no right one.
        assert!(!Bytes {
            word: 0o0612,
            ..right
        }
        .are_in_range());
        assert!(Bytes {
            word: 0o0612,
            moves_left: 1,
            ..bytes
        }
        .are_in_range());
        assert!(!Bytes {
            word: 0o0612,
            moves_left: 2,
            ..bytes
        }
        .are_in_range());
    }

    /// The left character of 1105o, which is about to fetch its table word.
    fn character(stage: Stage) -> Character {
        Character {
            word: 0o1105,
            seven_bits: false,
            side: Side::Left,
            stage,
        }
    }

    /// Whether the stage is in range, in each state and mode alike.
    fn is_accepted(stage: Stage) -> bool {
        let motion = Motion::Character(character(stage));
        let data = (0..8).map(|mode| moving(motion, mode));
        let control = (0..8).map(|mode| Registers {
            state: State::Control,
            ..moving(motion, mode)
        });
        let accepted: Vec<bool> = data
            .chain(control)
            .map(|registers| registers.are_in_range())
            .collect();
        assert!(accepted.iter().all(|&one| one == accepted[0]), "{stage:?}");
        accepted[0]
    }

    #[test]
    fn characters_keep_widths_and_counts() {
        let routine = |next| {
            Stage::RoutineWord(Routine {
                short_vectors: false,
                next,
            })
        };
        assert!(is_accepted(Stage::TableWord));
        assert!(is_accepted(routine(0o77777)));
        assert!(!is_accepted(routine(0o100000)));
        for (word, accepted) in [(0, true), (4_095, true), (4_096, false), (65_535, false)] {
            let with_word = Character {
                word,
                ..character(Stage::TableWord)
            };
            let registers = moving(Motion::Character(with_word), 5);
            assert_eq!(registers.are_in_range(), accepted, "{word}");
        }
        // A right character of seven bits.
        let odd = Character {
            seven_bits: true,
            side: Side::Right,
            ..character(Stage::TableWord)
        };
        assert!(moving(Motion::Character(odd), 5).are_in_range());
    }

    #[test]
    fn the_bytes_of_a_routine_keep_their_counts() {
        let bytes = bytes();
        assert!(is_accepted(Stage::Bytes(bytes)));
        let word = |word| Bytes { word, ..bytes };
        let moves_left = |moves_left| Bytes {
            moves_left,
            ..bytes
        };
        let last_word = |last_word| Bytes { last_word, ..bytes };
        assert!(is_accepted(Stage::Bytes(last_word(0o77777))));
        for unfit in [
            word(0o13612),
            moves_left(0),
            moves_left(4),
            last_word(0o100000),
        ] {
            assert!(!is_accepted(Stage::Bytes(unfit)), "{unfit:?}");
        }
        // A right byte behind a left one that escapes, which increment mode refuses.
        let behind_an_escape = Bytes {
            word: 0o0030,
            side: Side::Right,
            ..bytes
        };
        assert!(is_accepted(Stage::Bytes(behind_an_escape)));
        assert!(!moving(Motion::Bytes(behind_an_escape), 1).are_in_range());
        let too_many = Bytes {
            word: 0o0020,
            ..behind_an_escape
        };
        assert!(!is_accepted(Stage::Bytes(too_many)));
    }

    #[test]
    fn the_line_of_a_routine_keeps_the_rules_of_a_line() {
        let line = line();
        assert!(is_accepted(Stage::Line(line)));
        assert!(is_accepted(Stage::Line(Line {
            y_magnitude: 1_023,
            moves: 1_023,
            ..line
        })));
        for unfit in [
            Line { done: 5, ..line },
            Line { moves: 6, ..line },
            Line {
                y_magnitude: 1_024,
                moves: 1_024,
                ..line
            },
            Line {
                last_word: 0o100000,
                ..line
            },
        ] {
            assert!(!is_accepted(Stage::Line(unfit)), "{unfit:?}");
        }
    }

    /// Each motion that the rules allow, with this last word and a display address of any kind.
    fn telling(last_word: u16) -> Vec<Registers> {
        let line = Motion::Line(Line {
            last_word,
            ..line()
        });
        let bytes = Motion::Bytes(Bytes {
            last_word,
            ..bytes()
        });
        let motions = [(line, 2), (line, 3), (line, 4), (bytes, 1)];
        let at = |display_address| {
            motions.map(|(motion, mode)| Registers {
                display_address,
                ..moving(motion, mode)
            })
        };
        [0, 1, 0o200, 0o77777].map(at).concat()
    }

    #[test]
    fn the_last_word_of_a_motion_is_any_address() {
        for last_word in [0, 1, 0o177, 0o200, 0o201, 0o40000, 0o77776, 0o77777] {
            for registers in telling(last_word) {
                assert!(registers.are_in_range(), "{registers:?}");
            }
        }
        for last_word in [0o100000, 0o100001, 65_534, 65_535] {
            for registers in telling(last_word) {
                assert!(!registers.are_in_range(), "{registers:?}");
            }
        }
    }

    #[test]
    fn addresses_and_pointers_wrap() {
        assert_eq!(address_after(0o77777, 1), 0);
        assert_eq!(address_after(0o77776, 3), 1);
        assert_eq!(pointer_after(0o7777, 2), 1);
        assert_eq!(pointer_before(1, 2), 0o7777);
        assert_eq!(pointer_before(0, 1), 0o7777);
    }
}
