//! The data words, each with the moves that it begins.

use second::{Bytes, Ending, Line, Motion, Registers};

use super::beam::{self, Beam, Paper};
use super::characters;
use super::display::*;
use super::lent::{address_after, Lent};

/// One data word or two, the first held or else fetched, and the moves of a line or of bytes; or
/// character words.
#[inline(always)]
pub fn beats(
    now: &mut Display,
    registers: &mut Registers,
    lent: &Lent,
    paper: Paper,
    points: &mut [u64],
    held: Option<u32>,
) -> Result<(), Ending> {
    let mode = now.mode();
    if mode == 7 {
        registers.running = false;
        return Err(Ending::UnusableMode);
    }
    let word = lent.first_word(held, now.address)?;
    match mode {
        0 => {
            let second = lent.fetch(address_after(now.address, 1))?;
            point(now, paper, points, word, second)
        }
        1 => {
            let bytes = beam::left(word as u16, now.address as u16);
            now.go_on(1);
            increments(now, registers, paper, points, bytes)
        }
        5 => {
            let text = characters::Text {
                now: *now,
                registers,
                fetches: lent.fetches(),
                paper,
                points,
            };
            let made;
            (*now, made) = characters::words(text, word);
            made
        }
        6 => graphplot(now, registers, paper, points, word),
        _ => {
            let line = if mode == 4 {
                short_vector(word, now.address)
            } else {
                let next = address_after(now.address, 1);
                line(word, lent.fetch(next)?, next)
            };
            now.go_on(if mode == 4 { 1 } else { 2 });
            if line.moves == 0 {
                now.data &= !line.escape;
                return Ok(());
            }
            trace(now, registers, paper, points, line)
        }
    }
}

/// The moves of a line.
#[inline(always)]
pub fn trace(
    now: &mut Display,
    registers: &mut Registers,
    paper: Paper,
    points: &mut [u64],
    line: Line,
) -> Result<(), Ending> {
    let ink = now.ink(paper, points, line.last_word);
    let continues = now.mode() == 3;
    let (progress, ending) = beam::trace(ink, now.progress, &line, continues, registers);
    now.progress = progress;
    // Escape takes effect with the last beat, an edge stop included.
    if line.escape && registers.motion == Motion::Nothing {
        now.data = false;
    }
    ending.map_or(Ok(()), Err)
}

/// The moves of increment bytes.
#[inline(always)]
pub fn increments(
    now: &mut Display,
    registers: &mut Registers,
    paper: Paper,
    points: &mut [u64],
    bytes: Bytes,
) -> Result<(), Ending> {
    let ink = now.ink(paper, points, bytes.last_word);
    let (progress, ending, escapes) = beam::increments(ink, now.progress, bytes, registers);
    now.progress = progress;
    if escapes {
        now.data = false;
    }
    ending.map_or(Ok(()), Err)
}

/// The line of a short vector, as that of the two words of a vector.
#[inline(always)]
pub fn short_vector(word: u32, address: u32) -> Line {
    let y = word & (BIT_0 | BIT_1) | word >> 6 & 0o17;
    let x = (word & (BIT_6 | BIT_7)) << 6 | word & 0o17;
    line(y, x, address)
}

/// The line of a vector's two words, y first, and the address of its last word.
#[inline(always)]
fn line(first: u32, second: u32, last_word: u32) -> Line {
    let y_magnitude = (first & 0o1777) as u16;
    let x_magnitude = (second & 0o1777) as u16;
    Line {
        y_minus: first & BIT_1 != 0,
        x_minus: second & BIT_1 != 0,
        y_magnitude,
        x_magnitude,
        moves: y_magnitude.max(x_magnitude),
        done: 0,
        lit: first & BIT_0 != 0,
        escape: second & BIT_0 != 0,
        last_word: last_word as u16,
    }
}

/// Lights a point where the beam will be, or ends the run if there is no room.
#[inline(always)]
fn light(now: &mut Display, points: &mut [u64], beam: Beam, last_word: u32) -> Result<(), Ending> {
    if beam.in_sector_0() {
        let place = points
            .get_mut(now.progress.lit)
            .ok_or(Ending::PointListFull)?;
        *place = now.glow(last_word) | beam.spot();
        now.progress.lit += 1;
    }
    Ok(())
}

#[inline(always)]
fn point(
    now: &mut Display,
    paper: Paper,
    points: &mut [u64],
    first: u32,
    second: u32,
) -> Result<(), Ending> {
    let mut beam = now.progress.beam;
    if first & BIT_1 == 0 {
        beam = beam.with_y(first);
    }
    if second & BIT_1 == 0 {
        beam = beam.with_x(second);
    }
    if first & BIT_0 != 0 || paper.all_lit {
        light(now, points, beam, address_after(now.address, 1))?;
    }
    now.progress.beam = beam;
    now.data = second & BIT_0 == 0;
    now.go_on(2);
    Ok(())
}

#[inline(always)]
fn graphplot(
    now: &mut Display,
    registers: &mut Registers,
    paper: Paper,
    points: &mut [u64],
    word: u32,
) -> Result<(), Ending> {
    let up = word & BIT_1 != 0;
    let set = |beam: Beam| {
        if up {
            beam.with_x(word)
        } else {
            beam.with_y(word)
        }
    };
    let edge = match paper.moved(now.progress.beam, beam::forward(up, now.scale())) {
        Ok(beam) => {
            light(now, points, set(beam), now.address)?;
            now.progress.beam = set(beam);
            None
        }
        Err(edge) => {
            now.progress.beam = set(edge.wrapped);
            Some(edge)
        }
    };
    now.data = word & BIT_0 == 0;
    now.go_on(1);
    edge.map_or(Ok(()), |edge| paper.stop(&edge, registers))
}
