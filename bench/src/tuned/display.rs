//! The registers that a beat may change, in a few machine words.

use second::{Registers, State};

use super::beam::{Beam, Ink, Paper, Progress};
use super::lent::address_after;

// The bits of a word, by their weights. Bits count from the left.
pub const BIT_0: u32 = 0o4000;
pub const BIT_1: u32 = 0o2000;
pub const BIT_3: u32 = 0o400;
pub const BIT_4: u32 = 0o200;
pub const BIT_5: u32 = 0o100;
pub const BIT_6: u32 = 0o40;
pub const BIT_7: u32 = 0o20;
pub const BIT_8: u32 = 0o10;
pub const BIT_9: u32 = 0o4;
pub const BIT_10: u32 = 0o2;
pub const BIT_11: u32 = 0o1;

// The status as a push stores it: pen, scale, mode, intensity.
pub const PEN: u32 = 0o400;
pub const SCALE: u32 = 0o300;
pub const MODE: u32 = 0o70;
pub const INTENSITY: u32 = 0o7;

/// Blink in a point's value.
pub const BLINK: u32 = 1 << 23;

/// The part of a point's value that tells the last word of its command.
pub fn last_word(address: u32) -> u64 {
    u64::from(address) << 24
}

/// The registers that a beat may change.
#[derive(Clone, Copy)]
pub struct Display {
    pub address: u32,
    pub pointer: u32,
    pub data: bool,
    /// Pen, scale, mode and intensity, as a push stores them.
    pub status: u32,
    pub buttons: u32,
    /// The conditions of a flag skip that hold, by their bits in its word; the beam's is not kept.
    pub skips: u32,
    pub idle: bool,
    /// Its part of a point's value.
    pub blink: u32,
    pub progress: Progress,
}

/// The beats left and the pen before beats that may end hold.
pub struct Held {
    left: u32,
    pen: u32,
}

impl Display {
    pub fn new(registers: &Registers, budget: u32) -> Display {
        let weight = |on: bool, weight: u32| if on { weight } else { 0 };
        Display {
            address: u32::from(registers.display_address),
            pointer: u32::from(registers.pushdown_pointer),
            data: registers.state == State::Data,
            status: weight(registers.pen_enable, PEN)
                | u32::from(registers.scale) << 6
                | u32::from(registers.mode) << 3
                | u32::from(registers.intensity),
            buttons: u32::from(registers.buttons),
            skips: BIT_6
                | weight(!registers.hit_bank_1, BIT_8)
                | weight(!registers.hit_bank_2, BIT_9)
                | weight(!registers.pen_sense, BIT_10),
            idle: registers.idle,
            blink: weight(registers.blink, BLINK),
            progress: Progress {
                beam: Beam::new(registers.x, registers.y),
                left: budget,
                lit: 0,
            },
        }
    }

    /// Back into the registers. The flags of a stop are set where the run ends.
    pub fn leave(&self, registers: &mut Registers) {
        registers.display_address = self.address as u16;
        registers.pushdown_pointer = self.pointer as u16;
        registers.state = if self.data {
            State::Data
        } else {
            State::Control
        };
        registers.pen_enable = self.status & PEN != 0;
        registers.scale = self.scale() as u8;
        registers.mode = self.mode() as u8;
        registers.intensity = (self.status & INTENSITY) as u8;
        registers.buttons = self.buttons as u16;
        registers.hit_bank_1 = self.skips & BIT_8 == 0;
        registers.hit_bank_2 = self.skips & BIT_9 == 0;
        registers.pen_sense = self.skips & BIT_10 == 0;
        registers.idle = self.idle;
        registers.blink = self.blink != 0;
        registers.x = self.progress.beam.x();
        registers.y = self.progress.beam.y();
    }

    pub fn scale(&self) -> u32 {
        (self.status & SCALE) >> 6
    }

    pub fn mode(&self) -> u32 {
        (self.status & MODE) >> 3
    }

    /// The part of a point's value that is not the beam's, for a command with this last word.
    pub fn glow(&self, address: u32) -> u64 {
        let look = (self.status & INTENSITY) << 20 | self.blink;
        last_word(address) | u64::from(look)
    }

    pub fn ink<'a>(&self, paper: Paper, points: &'a mut [u64], address: u16) -> Ink<'a> {
        Ink {
            paper,
            points,
            glow: self.glow(u32::from(address)),
            scale: self.scale(),
        }
    }

    /// Before beats that begin with a fetch: the pen as the first of them finds it, which ends hold.
    /// Answers what `end_hold` needs.
    #[inline(always)]
    pub fn hold_to_end(&mut self, registers: &Registers) -> Held {
        let held = Held {
            left: self.progress.left,
            pen: self.status & PEN,
        };
        if registers.pen_hold {
            self.status |= PEN;
        }
        held
    }

    /// Behind such beats: hold is ended, or stays with the pen as it was if no beat was made.
    /// Answers whether one was.
    #[inline(always)]
    pub fn end_hold(&mut self, registers: &mut Registers, held: Held) -> bool {
        if self.progress.left == held.left {
            self.status = self.status & !PEN | held.pen;
            return false;
        }
        registers.pen_hold = false;
        true
    }

    /// The beat is made, and the next word is `words` further on.
    #[inline(always)]
    pub fn go_on(&mut self, words: u32) {
        self.address = address_after(self.address, words);
        self.progress.left -= 1;
    }

    #[inline(always)]
    pub fn go_on_or_skip(&mut self, skip: bool) {
        self.go_on(if skip { 3 } else { 1 });
    }
}
