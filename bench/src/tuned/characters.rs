//! The characters of mode 5: their words, the dispatch table, control characters and routines.

use std::mem;

use second::{Bytes, Character, Ending, Line, Motion, Registers, Routine, Side, Stage};

use super::beam::{self, Ink, Paper, Progress};
use super::control::{counted, parameter};
use super::data::short_vector;
use super::display::*;
use super::lent::{address_after, Fetches};

/// The case as a bit of a table word's address.
const UPPER_CASE: u32 = 0o100;

/// The place of the starting address register in a table word's address.
const TABLE: u32 = 9;

/// The registers of the character generator, which only characters change.
struct Generator {
    /// The table, by the address of its first word.
    table: u32,
    /// The case's part of a table word's address.
    case: u32,
    /// The code size of the next character word.
    seven_bits: bool,
}

impl Generator {
    fn new(registers: &Registers) -> Generator {
        Generator {
            table: u32::from(registers.starting_address) << TABLE,
            case: if registers.upper_case { UPPER_CASE } else { 0 },
            seven_bits: registers.seven_bit_codes,
        }
    }

    fn leave(&self, registers: &mut Registers) {
        registers.starting_address = (self.table >> TABLE) as u8;
        registers.upper_case = self.case != 0;
        registers.seven_bit_codes = self.seven_bits;
    }

    /// A table control character: the case, and the digits of the starting address that bits 4 and
    /// 5 enable.
    #[inline(always)]
    fn set_table(&mut self, word: u32) {
        self.case = if word & BIT_3 != 0 { UPPER_CASE } else { 0 };
        let upper = if word & BIT_4 != 0 { 0o70 } else { 0 };
        let lower = if word & BIT_5 != 0 { 0o07 } else { 0 };
        let changed = (upper | lower) << TABLE;
        self.table = self.table & !changed | word << TABLE & changed;
    }
}

/// A character of a word.
#[derive(Clone, Copy)]
struct Place {
    word: u32,
    seven_bits: bool,
    side: Side,
}

impl Place {
    /// Its code, with the case as a seventh bit of six-bit codes.
    fn code(self, case: u32) -> u32 {
        match (self.seven_bits, self.side) {
            (true, _) => self.word & 0o177,
            (false, Side::Left) => case | self.word >> 6,
            (false, Side::Right) => case | self.word & 0o77,
        }
    }

    /// The character behind it, if there is one.
    fn next(self) -> Option<Place> {
        let is_last = self.seven_bits || self.side == Side::Right;
        (!is_last).then_some(Place {
            side: Side::Right,
            ..self
        })
    }

    /// What is left of the word at the run's end: a stage of this character, or else the character
    /// behind it.
    #[cold]
    fn leave(self, registers: &mut Registers, stage: Option<Stage>) {
        let left = match stage {
            Some(stage) => Some((self, stage)),
            None => self.next().map(|next| (next, Stage::TableWord)),
        };
        registers.motion = left.map_or(Motion::Nothing, |(place, stage)| {
            Motion::Character(Character {
                word: place.word as u16,
                seven_bits: place.seven_bits,
                side: place.side,
                stage,
            })
        });
    }
}

/// What a run of characters changes and needs. It takes copies, so that what the loop of commands
/// changes need not be in memory.
pub struct Text<'a> {
    pub now: Display,
    pub registers: &'a mut Registers,
    pub fetches: Fetches<'a>,
    pub paper: Paper,
    pub points: &'a mut [u64],
}

/// Character words from one on, until a character escapes to control state or the run ends.
#[inline(never)]
pub fn words(text: Text, first: u32) -> (Display, Result<(), Ending>) {
    let (mut text, mut word) = (Text { ..text }, first);
    let mut generator = Generator::new(text.registers);
    let made = loop {
        text.now.go_on(1);
        let place = Place {
            word,
            seven_bits: generator.seven_bits,
            side: Side::Left,
        };
        let made = text.characters(&mut generator, place);
        if made.is_err() || !text.now.data || text.now.progress.left == 0 {
            break made;
        }
        match text.fetches.fetch(text.now.address) {
            Ok(next) => word = next,
            Err(ending) => break Err(ending),
        }
    };
    generator.leave(text.registers);
    (text.now, made)
}

impl Text<'_> {
    /// A word's characters, from the table word of one on.
    #[inline(always)]
    fn characters(&mut self, generator: &mut Generator, place: Place) -> Result<(), Ending> {
        let mut place = place;
        loop {
            let address = generator.table + place.code(generator.case);
            let word = match fetch(&mut self.now.progress, self.fetches, address) {
                Ok(word) => word,
                Err(ending) => {
                    place.leave(self.registers, Some(Stage::TableWord));
                    return Err(ending);
                }
            };
            if word & BIT_0 == 0 {
                let routine = Routine {
                    short_vectors: word & BIT_1 != 0,
                    next: (generator.table | word & 0o1777) as u16,
                };
                self.draw(place, routine)?;
            } else {
                match word >> 9 & 3 {
                    0 => self.now.status = parameter(word, self.now.status),
                    1 => generator.set_table(word),
                    2 => {
                        if word & BIT_3 != 0 {
                            generator.seven_bits = word & BIT_4 != 0;
                        }
                        self.return_and_count(word);
                        if word & BIT_6 != 0 {
                            self.now.data = false;
                            return Ok(());
                        }
                    }
                    _ => {
                        self.registers.running = false;
                        place.leave(self.registers, None);
                        return Err(Ending::UnusableMode);
                    }
                }
            }
            match place.next() {
                Some(next) => place = next,
                None => return Ok(()),
            }
        }
    }

    /// A miscellaneous control character, but for the code size and the escape.
    #[inline(always)]
    fn return_and_count(&mut self, word: u32) {
        let now = &mut self.now;
        if word & BIT_5 != 0 {
            now.progress.beam = now.progress.beam.with_x(0);
        }
        if word & BIT_7 != 0 {
            now.status = counted(now.status, word & BIT_8 != 0, SCALE);
        }
        if word & BIT_9 != 0 {
            now.status = counted(now.status, word & BIT_10 != 0, INTENSITY);
        }
    }

    /// The routine of a character, from one of its words on.
    #[inline(always)]
    fn draw(&mut self, place: Place, routine: Routine) -> Result<(), Ending> {
        // The address of each word comes to the look of its points.
        let ink = self.now.ink(self.paper, self.points, 0);
        let (start, first) = (self.now.progress, u32::from(routine.next));
        let (progress, halt) = if routine.short_vectors {
            vectors(ink, start, self.fetches, first, self.registers)
        } else {
            increments(ink, start, self.fetches, first, self.registers)
        };
        self.now.progress = progress;
        match halt {
            None => Ok(()),
            Some(halt) => {
                place.leave(self.registers, halt.stage);
                Err(halt.ending)
            }
        }
    }
}

/// The beat that fetches a word of the table or of a routine.
#[inline(always)]
fn fetch(now: &mut Progress, fetches: Fetches, address: u32) -> Result<u32, Ending> {
    if now.left == 0 {
        return Err(Ending::BudgetSpent);
    }
    let word = fetches.fetch(address)?;
    now.left -= 1;
    Ok(word)
}

// ---------------------------------------------------------------- routines

/// The end of a run in a routine, and what is left of the routine, which is nothing once it has
/// escaped.
struct Halt {
    ending: Ending,
    stage: Option<Stage>,
}

/// A routine of increment words, until one escapes or the run ends.
#[inline(never)]
fn increments(
    ink: Ink,
    start: Progress,
    fetches: Fetches,
    first: u32,
    registers: &mut Registers,
) -> (Progress, Option<Halt>) {
    // Copies of its own, which no store of a point can change.
    let (mut ink, mut now, look) = (Ink { ..ink }, start, ink.glow);
    let mut address = first;
    loop {
        let word = match fetch(&mut now, fetches, address) {
            Ok(word) => word,
            Err(ending) => return (now, Some(before(ending, address, false))),
        };
        ink.glow = look | last_word(address);
        for (side, byte) in [(Side::Left, word >> 6), (Side::Right, word & 0o77)] {
            if let Err((ending, moves_left)) =
                ink.byte_moves(&mut now, byte, beam::moves(byte), registers)
            {
                let bytes = Bytes {
                    word: word as u16,
                    side,
                    moves_left,
                    last_word: address as u16,
                };
                return (now, Some(in_bytes(ending, bytes)));
            }
            if beam::escapes(byte) {
                return (now, None);
            }
        }
        address = address_after(address, 1);
    }
}

/// A routine of short vectors, until one escapes or the run ends.
#[inline(never)]
fn vectors(
    ink: Ink,
    start: Progress,
    fetches: Fetches,
    first: u32,
    registers: &mut Registers,
) -> (Progress, Option<Halt>) {
    let (mut ink, mut now, look) = (Ink { ..ink }, start, ink.glow);
    let mut address = first;
    loop {
        let word = match fetch(&mut now, fetches, address) {
            Ok(word) => word,
            Err(ending) => return (now, Some(before(ending, address, true))),
        };
        ink.glow = look | last_word(address);
        let line = short_vector(word, address);
        // A line of no moves is over with its fetch.
        if line.moves > 0 {
            if let Err((ending, done)) = ink.strokes(&mut now, &line, false, registers) {
                return (now, Some(in_line(ending, line, done)));
            }
        }
        if line.escape {
            return (now, None);
        }
        address = address_after(address, 1);
    }
}

/// The run ends before a word of a routine.
#[cold]
fn before(ending: Ending, address: u32, short_vectors: bool) -> Halt {
    let routine = Routine {
        short_vectors,
        next: address as u16,
    };
    Halt {
        ending,
        stage: Some(Stage::RoutineWord(routine)),
    }
}

/// The run ends in the bytes of a word; no moves of the byte may be left.
#[cold]
fn in_bytes(ending: Ending, bytes: Bytes) -> Halt {
    let escape = beam::escapes(beam::byte_of(bytes));
    let stage = beam::bytes_left(bytes).map(Stage::Bytes);
    Halt {
        ending,
        stage: stage.or_else(|| behind(bytes.last_word, false, escape)),
    }
}

/// The run ends in a line, with so many of its moves done, or else all.
#[cold]
fn in_line(ending: Ending, line: Line, done: Option<u16>) -> Halt {
    let stage = done.map(|done| Stage::Line(Line { done, ..line }));
    Halt {
        ending,
        stage: stage.or_else(|| behind(line.last_word, true, line.escape)),
    }
}

/// The routine behind a word that is over, unless it escapes.
#[cold]
fn behind(address: u16, short_vectors: bool, escape: bool) -> Option<Stage> {
    let next = address_after(u32::from(address), 1) as u16;
    (!escape).then_some(Stage::RoutineWord(Routine {
        short_vectors,
        next,
    }))
}

// ---------------------------------------------------------------- characters that a run is given

/// What is left of a character word, in whatever state and mode.
#[cold]
#[inline(never)]
pub fn rest_of_word(text: Text, character: Character) -> (Display, Result<(), Ending>) {
    let mut text = text;
    let place = Place {
        word: u32::from(character.word),
        seven_bits: character.seven_bits,
        side: character.side,
    };
    let made = match text.rest_of_moves(place, character.stage) {
        Ok(stage) => text.rest_of_fetches(place, stage),
        Err(ending) => Err(ending),
    };
    (text.now, made)
}

impl Text<'_> {
    /// The moves that are left of a routine word, and what comes behind them: the fetch of a word,
    /// or nothing if the routine escapes.
    fn rest_of_moves(&mut self, place: Place, stage: Stage) -> Result<Option<Stage>, Ending> {
        let (now, registers) = (&mut self.now, &mut *self.registers);
        let (progress, ending, behind) = match stage {
            Stage::TableWord | Stage::RoutineWord(_) => return Ok(Some(stage)),
            Stage::Bytes(bytes) => {
                let ink = now.ink(self.paper, self.points, bytes.last_word);
                let (progress, ending, escape) =
                    beam::increments(ink, now.progress, bytes, registers);
                (progress, ending, behind(bytes.last_word, false, escape))
            }
            // Never as a vector continue.
            Stage::Line(line) => {
                let ink = now.ink(self.paper, self.points, line.last_word);
                let (progress, ending) = beam::trace(ink, now.progress, &line, false, registers);
                (progress, ending, behind(line.last_word, true, line.escape))
            }
        };
        now.progress = progress;
        let left = match mem::replace(&mut registers.motion, Motion::Nothing) {
            Motion::Bytes(bytes) => Some(Stage::Bytes(bytes)),
            Motion::Line(line) => Some(Stage::Line(line)),
            Motion::Nothing | Motion::Character(_) => behind,
        };
        match ending {
            None => Ok(left),
            Some(ending) => {
                place.leave(registers, left);
                Err(ending)
            }
        }
    }

    /// The rest of the word from the fetch of a word on, or from the character behind this one. The
    /// first fetch ends hold; where none is made, hold and pen stay as they are.
    fn rest_of_fetches(&mut self, place: Place, stage: Option<Stage>) -> Result<(), Ending> {
        let held = self.now.hold_to_end(self.registers);
        let mut generator = Generator::new(self.registers);
        let made = match stage {
            Some(Stage::RoutineWord(routine)) => self.draw(place, routine),
            _ => Ok(()),
        };
        let next = match stage {
            Some(Stage::TableWord) => Some(place),
            _ => place.next(),
        };
        let made = match (made, next) {
            (Ok(()), Some(place)) => self.characters(&mut generator, place),
            (made, _) => made,
        };
        generator.leave(self.registers);
        self.now.end_hold(self.registers, held);
        made
    }
}
