//! The control words.

use second::{Ending, Registers};

use super::display::*;
use super::lent::{address_after, pointer_after, Lent};

/// What a word does to the status: the bits that it keeps and those that it sets.
#[derive(Clone, Copy)]
struct Change {
    keeps: u16,
    sets: u16,
}

impl Change {
    #[inline(always)]
    fn of(self, status: u32) -> u32 {
        status & u32::from(self.keeps) | u32::from(self.sets)
    }
}

/// The change of scale and pen by bits 3 to 7 and, in a parameter word, of intensity by bits 8 to
/// 11; for the low nine bits of a word.
const PARAMETERS: [Change; 512] = {
    let mut changes = [Change { keeps: 0, sets: 0 }; 512];
    let mut word = 0;
    while word < 512 {
        let (mut set, mut sets) = (0, 0);
        if word & BIT_3 != 0 {
            set |= SCALE;
            sets |= word & SCALE;
        }
        if word & BIT_6 != 0 {
            set |= PEN;
            sets |= if word & BIT_7 != 0 { PEN } else { 0 };
        }
        if word & BIT_8 != 0 {
            set |= INTENSITY;
            sets |= word & INTENSITY;
        }
        changes[word as usize] = Change {
            keeps: !set as u16,
            sets: sets as u16,
        };
        word += 1;
    }
    changes
};

/// The status after a parameter word, or a parameter character, which has the same bits.
pub fn parameter(word: u32, status: u32) -> u32 {
    PARAMETERS[(word & 0o777) as usize].of(status)
}

/// The status after the scale and pen that a jump or a pop says.
fn scale_and_pen(word: u32, status: u32) -> u32 {
    PARAMETERS[(word & 0o760) as usize].of(status)
}

/// What a pop restores, by its inhibit bits 8, 9, 10.
const RESTORED: [u16; 8] = {
    let mut restored = [0; 8];
    let mut inhibits = 0;
    while inhibits < 8 {
        let mode = if inhibits & 4 == 0 { MODE } else { 0 };
        let pen_and_scale = if inhibits & 2 == 0 { PEN | SCALE } else { 0 };
        let intensity = if inhibits & 1 == 0 { INTENSITY } else { 0 };
        restored[inhibits] = (mode | pen_and_scale | intensity) as u16;
        inhibits += 1;
    }
    restored
};

/// One control word, held or else fetched, and its effect.
#[inline(always)]
pub fn beat(
    now: &mut Display,
    registers: &mut Registers,
    lent: &mut Lent,
    held: Option<u32>,
) -> Result<(), Ending> {
    let word = lent.first_word(held, now.address)?;
    match word >> 9 {
        0 => {
            now.status = parameter(word, now.status);
            now.go_on(1);
        }
        1 => mode(now, registers, word)?,
        2 => jump(now, lent, word)?,
        3 => pop(now, lent, word)?,
        4 => button_skip(now, word, (word & 0o77) << 6),
        5 => button_skip(now, word, word & 0o77),
        6 => miscellaneous(now, word),
        _ => {
            let skip = word & BIT_10 != 0 && now.idle;
            now.idle &= word & BIT_11 == 0;
            now.go_on_or_skip(skip);
        }
    }
    Ok(())
}

#[inline(always)]
fn mode(now: &mut Display, registers: &mut Registers, word: u32) -> Result<(), Ending> {
    if word & BIT_4 != 0 {
        now.skips |= BIT_8 | BIT_9;
    }
    if word & BIT_5 != 0 {
        now.status = now.status & !MODE | word & MODE;
    }
    let beam = now.progress.beam;
    now.progress.beam = beam.cleared(word & BIT_9 != 0, word & BIT_10 != 0);
    now.data = word & BIT_11 != 0;
    now.go_on(1);
    if word & BIT_3 != 0 {
        registers.internal_stop_flag = true;
        registers.running = false;
        return Err(Ending::InternalStop);
    }
    Ok(())
}

#[inline(always)]
fn jump(now: &mut Display, lent: &mut Lent, word: u32) -> Result<(), Ending> {
    let second = lent.fetch(address_after(now.address, 1))?;
    if word & BIT_8 != 0 {
        let back = address_after(now.address, 2);
        let entry = [back >> 12 << 9 | now.status, back & 0o7777];
        lent.store(now.pointer, entry)?;
        now.pointer = pointer_after(now.pointer, 2);
    }
    now.status = scale_and_pen(word, now.status);
    now.address = (word & 7) << 12 | second;
    now.progress.left -= 1;
    Ok(())
}

#[inline(always)]
fn pop(now: &mut Display, lent: &Lent, word: u32) -> Result<(), Ending> {
    let at = pointer_after(now.pointer, 2u32.wrapping_neg());
    let status = lent.fetch(at)?;
    let low = lent.fetch(pointer_after(at, 1))?;
    let restored = u32::from(RESTORED[(word >> 1 & 7) as usize]);
    now.pointer = at;
    now.status = scale_and_pen(word, now.status & !restored | status & restored);
    now.address = status >> 9 << 12 | low;
    now.data = word & BIT_11 != 0;
    now.progress.left -= 1;
    Ok(())
}

#[inline(always)]
fn button_skip(now: &mut Display, word: u32, selected: u32) {
    let sense = if word & BIT_3 != 0 {
        now.buttons
    } else {
        !now.buttons
    };
    let skip = sense & selected != 0;
    if word & BIT_4 != 0 {
        now.buttons &= !selected;
    }
    if word & BIT_5 != 0 {
        now.buttons ^= selected;
    }
    now.go_on_or_skip(skip);
}

#[inline(always)]
fn miscellaneous(now: &mut Display, word: u32) {
    match word >> 6 & 7 {
        0 => now.go_on_or_skip(now.buttons >> 6 != word & 0o77),
        1 => now.go_on_or_skip(now.buttons & 0o77 != word & 0o77),
        2 => {
            let away = if now.progress.beam.in_sector_0() {
                0
            } else {
                BIT_7
            };
            let skip = word & (now.skips | away) != 0;
            if word & BIT_11 != 0 {
                now.skips |= BIT_10;
            }
            now.go_on_or_skip(skip);
        }
        3 => {
            if word & BIT_6 != 0 {
                now.status = counted(now.status, word & BIT_7 != 0, SCALE);
            }
            if word & BIT_8 != 0 {
                now.status = counted(now.status, word & BIT_9 != 0, INTENSITY);
            }
            if word & BIT_10 != 0 {
                now.blink = BLINK;
            }
            if word & BIT_11 != 0 {
                now.blink = 0;
            }
            now.go_on(1);
        }
        _ => now.go_on(1),
    }
}

/// One field of the status counted up or down, stopping at the ends.
pub fn counted(status: u32, down: bool, field: u32) -> u32 {
    let one = field & field.wrapping_neg();
    let value = status & field;
    if down {
        status - if value == 0 { 0 } else { one }
    } else {
        status + if value == field { 0 } else { one }
    }
}
