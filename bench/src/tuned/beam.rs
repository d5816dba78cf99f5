//! The beam as one number, and the moves that a line or increment bytes make.

use second::{Bytes, Ending, Line, Motion, Registers, Side};

/// y in the upper half and x in the lower. Each half has a guard bit above its 13, so that no move
/// carries or borrows across.
#[derive(Clone, Copy)]
pub struct Beam(u32);

const GUARDS: u32 = 0x4000_4000;
/// The three bits of each coordinate that tell its sector.
const SECTOR_BITS: u32 = 0x1c00_1c00;
const LOW_TEN: u32 = 0x3ff;

/// One step up or to the right, times the distance and signed by wrapping.
const UP: u32 = 1 << 16;
const RIGHT: u32 = 1;

/// A unit step for each direction, counterclockwise from right.
const DIRECTIONS: [u32; 8] = [
    RIGHT,
    UP.wrapping_add(RIGHT),
    UP,
    UP.wrapping_sub(RIGHT),
    RIGHT.wrapping_neg(),
    UP.wrapping_add(RIGHT).wrapping_neg(),
    UP.wrapping_neg(),
    RIGHT.wrapping_sub(UP),
];

impl Beam {
    pub fn new(x: u16, y: u16) -> Beam {
        Beam(GUARDS | u32::from(y) << 16 | u32::from(x))
    }

    pub fn x(self) -> u16 {
        self.0 as u16 & 0x1fff
    }

    pub fn y(self) -> u16 {
        (self.0 >> 16) as u16 & 0x1fff
    }

    pub fn in_sector_0(self) -> bool {
        self.0 & SECTOR_BITS == 0
    }

    /// Both coordinates without their sector bits if `high`, without their low ten if `low`.
    pub fn cleared(self, high: bool, low: bool) -> Beam {
        let sectors = if high { SECTOR_BITS } else { 0 };
        let tens = if low { LOW_TEN << 16 | LOW_TEN } else { 0 };
        Beam(self.0 & !(sectors | tens))
    }

    pub fn with_x(self, word: u32) -> Beam {
        Beam(self.0 & !LOW_TEN | word & LOW_TEN)
    }

    pub fn with_y(self, word: u32) -> Beam {
        Beam(self.0 & !(LOW_TEN << 16) | (word & LOW_TEN) << 16)
    }

    /// The beam's part of a point's value.
    pub fn spot(self) -> u64 {
        u64::from(self.0 & LOW_TEN | self.0 >> 6 & LOW_TEN << 10)
    }
}

/// What the initial conditions say of moves and points.
#[derive(Clone, Copy)]
pub struct Paper {
    /// The bits of each coordinate that a move may change.
    places: u32,
    pub all_lit: bool,
    edges_ignored: bool,
}

/// A move that passed an end: the beam wrapped, and the bits outside the paper that would change.
pub struct Edge {
    pub wrapped: Beam,
    passed: u32,
}

impl Paper {
    pub fn new(registers: &Registers) -> Paper {
        let places = |field: u16| (1024u32 << (field & 3)) - 1;
        let conditions = registers.conditions;
        Paper {
            places: places(conditions >> 6) << 16 | places(conditions >> 4),
            all_lit: registers.condition(8),
            edges_ignored: registers.condition(9),
        }
    }

    #[inline(always)]
    pub fn moved(&self, beam: Beam, step: u32) -> Result<Beam, Edge> {
        let next = beam.0.wrapping_add(step);
        let changed = next ^ beam.0;
        if changed & !self.places == 0 {
            Ok(Beam(next))
        } else {
            Err(Edge {
                wrapped: Beam(beam.0 ^ changed & self.places),
                passed: changed & !self.places,
            })
        }
    }

    /// An edge that stops the display, with its flags, unless edges are ignored.
    #[cold]
    pub fn stop(&self, edge: &Edge, registers: &mut Registers) -> Result<(), Ending> {
        if self.edges_ignored {
            return Ok(());
        }
        registers.vertical_edge_flag |= edge.passed >> 16 != 0;
        registers.horizontal_edge_flag |= edge.passed & 0xffff != 0;
        registers.running = false;
        Err(Ending::Edge)
    }
}

/// One move to the right, or with `up` upward, of a graphplot.
pub fn forward(up: bool, scale: u32) -> u32 {
    if up {
        UP << scale
    } else {
        RIGHT << scale
    }
}

/// Where a run stands that moves change: the beam, the beats left and the points lit.
#[derive(Clone, Copy)]
pub struct Progress {
    pub beam: Beam,
    pub left: u32,
    pub lit: usize,
}

/// What the moves of a command need: the paper, the points and the part of their value that is not
/// the beam's, and the scale.
pub struct Ink<'a> {
    pub paper: Paper,
    pub points: &'a mut [u64],
    pub glow: u64,
    pub scale: u32,
}

/// What keeps a move from being made.
enum Obstacle {
    Edge(Edge),
    Full,
}

impl Ink<'_> {
    /// One move that passes no end, and its point.
    #[inline(always)]
    fn advance(&mut self, now: &mut Progress, step: u32, asked: bool) -> Result<(), Obstacle> {
        let beam = self.paper.moved(now.beam, step).map_err(Obstacle::Edge)?;
        if asked && beam.in_sector_0() {
            let place = self.points.get_mut(now.lit).ok_or(Obstacle::Full)?;
            *place = self.glow | beam.spot();
            now.lit += 1;
        }
        now.beam = beam;
        now.left -= 1;
        Ok(())
    }
}

/// The moves of a line, until it ends or the run does. What is left of it at the run's end goes
/// into the registers.
#[inline(never)]
pub fn trace(
    ink: Ink,
    start: Progress,
    line: &Line,
    continues: bool,
    registers: &mut Registers,
) -> (Progress, Option<Ending>) {
    // Copies of its own, which no store of a point can change.
    let (mut ink, mut now) = (Ink { ..ink }, start);
    match ink.strokes(&mut now, line, continues, registers) {
        Ok(()) => (now, None),
        Err((ending, done)) => {
            leave_line(registers, line, done);
            (now, Some(ending))
        }
    }
}

#[cold]
fn leave_line(registers: &mut Registers, line: &Line, done: Option<u16>) {
    if let Some(done) = done {
        registers.motion = Motion::Line(Line { done, ..*line });
    }
}

impl Ink<'_> {
    /// The moves of a line. Where the run ends in it: the ending, and the moves done if some are
    /// left.
    #[inline(always)]
    pub fn strokes(
        &mut self,
        now: &mut Progress,
        line: &Line,
        continues: bool,
        registers: &mut Registers,
    ) -> Result<(), (Ending, Option<u16>)> {
        let asked = line.lit | self.paper.all_lit;
        let y = signed(UP << self.scale, line.y_minus);
        let x = signed(RIGHT << self.scale, line.x_minus);
        // The axis of the larger magnitude goes on in each move.
        let (straight, other, magnitude) = if line.x_magnitude < line.y_magnitude {
            (y, x, line.x_magnitude)
        } else {
            (x, y, line.y_magnitude)
        };
        let slanted = straight.wrapping_add(other);
        let moves = u32::from(line.moves);
        let mut done = u32::from(line.done);
        // (2km + n) mod 2n: the other axis goes on where 2m more passes 2n. It is n again after n
        // moves, so that a vector continue starts over by itself.
        let more = 2 * u32::from(magnitude);
        let full = 2 * moves;
        let mut rest = if done == 0 {
            moves
        } else {
            (done * more + moves) % full
        };
        loop {
            let end = moves.min(done + now.left);
            while done < end {
                rest += more;
                let step = if rest >= full { slanted } else { straight };
                rest -= if rest >= full { full } else { 0 };
                match self.advance(now, step, asked) {
                    Ok(()) => done += 1,
                    Err(Obstacle::Full) => {
                        return Err((Ending::PointListFull, Some(done as u16)));
                    }
                    Err(Obstacle::Edge(edge)) => {
                        done += 1;
                        now.left -= 1;
                        if continues {
                            return Ok(());
                        }
                        now.beam = edge.wrapped;
                        if let Err(ending) = self.paper.stop(&edge, registers) {
                            return Err((ending, (done < moves).then_some(done as u16)));
                        }
                    }
                }
            }
            if done == moves {
                if !continues {
                    return Ok(());
                }
                done = 0;
            }
            if now.left == 0 {
                return Err((Ending::BudgetSpent, Some(done as u16)));
            }
        }
    }

    /// The moves of a byte. Where the run ends in them: the ending, and the moves left.
    #[inline(always)]
    pub fn byte_moves(
        &mut self,
        now: &mut Progress,
        byte: u32,
        moves_left: u16,
        registers: &mut Registers,
    ) -> Result<(), (Ending, u16)> {
        let asked = byte & 0o40 != 0 || self.paper.all_lit;
        let step = DIRECTIONS[(byte & 7) as usize] << self.scale;
        let mut moves_left = moves_left;
        while moves_left > 0 {
            if now.left == 0 {
                return Err((Ending::BudgetSpent, moves_left));
            }
            match self.advance(now, step, asked) {
                Ok(()) => moves_left -= 1,
                Err(Obstacle::Full) => return Err((Ending::PointListFull, moves_left)),
                Err(Obstacle::Edge(edge)) => {
                    now.left -= 1;
                    now.beam = edge.wrapped;
                    moves_left -= 1;
                    if let Err(ending) = self.paper.stop(&edge, registers) {
                        return Err((ending, moves_left));
                    }
                }
            }
        }
        Ok(())
    }
}

/// The moves of increment bytes, until they end or the run does, and whether they escape. What is
/// left of them at the run's end goes into the registers.
#[inline(never)]
pub fn increments(
    ink: Ink,
    start: Progress,
    bytes: Bytes,
    registers: &mut Registers,
) -> (Progress, Option<Ending>, bool) {
    let (mut ink, mut now, mut bytes) = (Ink { ..ink }, start, bytes);
    loop {
        let byte = byte_of(bytes);
        let escape = escapes(byte);
        if let Err((ending, moves_left)) =
            ink.byte_moves(&mut now, byte, bytes.moves_left, registers)
        {
            let escaped = leave_bytes(registers, bytes, moves_left);
            return (now, Some(ending), escaped);
        }
        if escape || bytes.side == Side::Right {
            return (now, None, escape);
        }
        bytes = right(bytes);
    }
}

/// What is left of bytes goes into the registers; whether they are over and escape.
#[cold]
fn leave_bytes(registers: &mut Registers, bytes: Bytes, moves_left: u16) -> bool {
    match bytes_left(Bytes {
        moves_left,
        ..bytes
    }) {
        Some(left) => {
            registers.motion = Motion::Bytes(left);
            false
        }
        None => escapes(byte_of(bytes)),
    }
}

/// What is left of bytes at a run's end, if anything is; no moves of the byte may be.
#[cold]
pub fn bytes_left(bytes: Bytes) -> Option<Bytes> {
    if bytes.moves_left > 0 {
        Some(bytes)
    } else if bytes.side == Side::Left && !escapes(byte_of(bytes)) {
        Some(right(bytes))
    } else {
        None
    }
}

/// The byte that is being executed.
pub fn byte_of(bytes: Bytes) -> u32 {
    match bytes.side {
        Side::Left => u32::from(bytes.word >> 6),
        Side::Right => u32::from(bytes.word & 0o77),
    }
}

/// Whether a byte escapes.
pub fn escapes(byte: u32) -> bool {
    byte & 0o30 == 0
}

/// The moves that a byte asks for.
pub fn moves(byte: u32) -> u16 {
    (byte as u16 >> 3 & 3).max(1)
}

fn signed(step: u32, minus: bool) -> u32 {
    if minus {
        step.wrapping_neg()
    } else {
        step
    }
}

/// The left byte of a word at an address, with all its moves.
pub fn left(word: u16, address: u16) -> Bytes {
    Bytes {
        word,
        side: Side::Left,
        moves_left: moves(u32::from(word >> 6)),
        last_word: address,
    }
}

/// The right byte of the same word, with all its moves.
fn right(bytes: Bytes) -> Bytes {
    Bytes {
        side: Side::Right,
        moves_left: moves(u32::from(bytes.word)),
        ..bytes
    }
}
