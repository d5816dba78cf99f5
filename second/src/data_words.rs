//! The data words of modes 0 to 4 and 6, the moves they ask for, edges and lit points. Those of mode
//! 5 are in `characters.rs`.

use crate::characters::character_word;
use crate::refusals_and_endings::{Ending, LentMemory};
use crate::registers::{
    address_after, byte_direction, byte_escapes, byte_lit, byte_moves, byte_of, Bytes, Line,
    Motion, Registers, Side, State, SECTOR,
};
use crate::turn::Beat;
use crate::words::{bit, field};

/// 01, data words: the command beat, by mode. `first` is the word at the display address, fetched or
/// held; a second one is fetched here. Mode 7 ends the run before any beat, so the last arm only
/// says that ending again.
pub fn data_command_beat(
    registers: &mut Registers,
    memory: &LentMemory,
    first: u16,
) -> Result<Beat, Ending> {
    match registers.mode {
        0 => Ok(point(registers, first, second_word(registers, memory)?)),
        1 => Ok(increment(registers, first)),
        2 | 3 => Ok(vector(registers, first, second_word(registers, memory)?)),
        4 => Ok(short_vector(registers, first)),
        5 => Ok(character_word(registers, first)),
        6 => Ok(graphplot(registers, first)),
        _ => Err(Ending::UnusableMode),
    }
}

/// Manual 2.2: "Point, vector, and vector continue modes are two-word commands".
fn second_word(registers: &Registers, memory: &LentMemory) -> Result<u16, Ending> {
    memory.fetch(address_after(registers.display_address, 1))
}

/// The display goes on behind the command's one or two words. The address of the last of them is
/// answered, for 02, No. 5; it counts as the display address does, from 77777o to 0.
fn go_on(registers: &mut Registers, words: u16) -> u16 {
    let last_word = address_after(registers.display_address, words - 1);
    registers.display_address = address_after(last_word, 1);
    last_word
}

/// 01, data words: "Distance s is 1, 2, 4, 8 by scale".
fn distance(scale: u8) -> u16 {
    match scale {
        0 => 1,
        1 => 2,
        2 => 4,
        _ => 8,
    }
}

/// 01, data words: "dimension d bits (10 to 13, initial-condition bits 4,5 for y ...)".
pub fn y_dimension(conditions: u16) -> u16 {
    10 + field(conditions, 4, 5)
}

/// 01, data words: "... 6,7 for x".
pub fn x_dimension(conditions: u16) -> u16 {
    10 + field(conditions, 6, 7)
}

/// One axis's part of a move. A distance of 0 is an axis that does not move.
#[derive(Clone, Copy, Debug, PartialEq, Eq)]
struct Step {
    minus: bool,
    distance: u16,
}

impl Step {
    const STILL: Step = Step::plus(0);

    const fn plus(distance: u16) -> Step {
        Step {
            minus: false,
            distance,
        }
    }

    const fn minus(distance: u16) -> Step {
        Step {
            minus: true,
            distance,
        }
    }
}

/// Where a step leads on one axis.
#[derive(Clone, Copy, Debug, PartialEq, Eq)]
struct Stepped {
    coordinate: u16,
    violated: bool,
}

/// 01, data words: "a move adds or subtracts modulo 2^d in the low d bits and keeps the upper
/// ones. Passing either end is a violation of that axis."
fn stepped(coordinate: u16, dimension: u16, step: Step) -> Stepped {
    let size = 1 << dimension;
    let low = coordinate % size;
    let upper = coordinate - low;
    if step.minus {
        Stepped {
            coordinate: upper + (low + size - step.distance) % size,
            violated: low < step.distance,
        }
    } else {
        Stepped {
            coordinate: upper + (low + step.distance) % size,
            violated: low + step.distance >= size,
        }
    }
}

/// Where a move leads on both axes, before it is made.
#[derive(Clone, Copy, Debug, PartialEq, Eq)]
struct Moved {
    y: Stepped,
    x: Stepped,
}

impl Moved {
    fn of(registers: &Registers, y: Step, x: Step) -> Moved {
        Moved {
            y: stepped(registers.y, y_dimension(registers.conditions), y),
            x: stepped(registers.x, x_dimension(registers.conditions), x),
        }
    }

    fn violates(&self) -> bool {
        self.y.violated || self.x.violated
    }

    /// 01, data words: "the move stands, wrapped".
    fn make(&self, registers: &mut Registers) {
        registers.y = self.y.coordinate;
        registers.x = self.x.coordinate;
    }
}

/// 01, data words: "Unless bit 9 is set, a violation sets that axis's flag and stops". Manual
/// 1.1.1: y has the vertical edge flag, x the horizontal one.
fn edge_stop(registers: &mut Registers, moved: &Moved) -> Option<Ending> {
    if !moved.violates() || registers.condition(9) {
        return None;
    }
    if moved.y.violated {
        registers.vertical_edge_flag = true;
    }
    if moved.x.violated {
        registers.horizontal_edge_flag = true;
    }
    registers.running = false;
    Some(Ending::Edge)
}

/// 01, data words: "A point lights ... if the word or byte asks it or condition bit 8 is set, the
/// beam after the beat is in sector 0, and the beat violated nothing". Its value is in 01, what
/// the simulator covers; 02, No. 5: "plus 2^24 times the 15-bit address of the last word of the
/// command that lit it".
fn lit_point(registers: &Registers, asked: bool, violated: bool, last_word: u16) -> Option<u64> {
    if (asked || registers.condition(8)) && registers.in_sector_0() && !violated {
        Some(
            u64::from(registers.x)
                + 1_024 * u64::from(registers.y)
                + (1 << 20) * u64::from(registers.intensity)
                + (1 << 23) * u64::from(registers.blink)
                + (1 << 24) * u64::from(last_word),
        )
    } else {
        None
    }
}

/// 01, data words: "Escape takes effect with the command's last beat, an edge stop included".
fn end_command(registers: &mut Registers, escape: bool) {
    registers.motion = Motion::Nothing;
    if escape {
        registers.state = State::Control;
    }
}

/// The low ten bits replaced, the sector kept. Manual 2.2.1: "The high order three bits in x and y
/// remain unchanged".
fn with_low_ten(coordinate: u16, word: u16) -> u16 {
    coordinate - coordinate % SECTOR + field(word, 2, 11)
}

/// 01, point: "two words, y first, one beat: no scale, no violation". Manual 2.2.1: bit 0 of the
/// first word asks for the point, of the second escapes; bit 1 keeps the coordinate.
fn point(registers: &mut Registers, first: u16, second: u16) -> Beat {
    if !bit(first, 1) {
        registers.y = with_low_ten(registers.y, first);
    }
    if !bit(second, 1) {
        registers.x = with_low_ten(registers.x, second);
    }
    let last_word = go_on(registers, 2);
    end_command(registers, bit(second, 0));
    Beat {
        point: lit_point(registers, bit(first, 0), false, last_word),
        stop: None,
    }
}

/// 01, increment: the command beat only fetches; each move is a beat of its own.
fn increment(registers: &mut Registers, word: u16) -> Beat {
    let last_word = go_on(registers, 1);
    registers.motion = Motion::Bytes(start_of_bytes(word, last_word));
    Beat::quiet()
}

/// An increment word with all its moves before it.
pub fn start_of_bytes(word: u16, last_word: u16) -> Bytes {
    start_of_byte(word, Side::Left, last_word)
}

/// A byte with all its moves before it.
fn start_of_byte(word: u16, side: Side, last_word: u16) -> Bytes {
    Bytes {
        word,
        side,
        moves_left: byte_moves(byte_of(word, side)),
        last_word,
    }
}

/// 01, increment: "directions 0 to 7 run counterclockwise from right".
fn direction_steps(direction: u16, distance: u16) -> (Step, Step) {
    let still = Step::STILL;
    let plus = Step::plus(distance);
    let minus = Step::minus(distance);
    // y first, as everywhere in the display's words.
    match direction {
        0 => (still, plus),
        1 => (plus, plus),
        2 => (plus, still),
        3 => (plus, minus),
        4 => (still, minus),
        5 => (minus, minus),
        6 => (minus, still),
        _ => (minus, plus),
    }
}

/// What a move leaves of the word or words that asked for it.
pub enum Rest<T> {
    /// Moves.
    Moves(T),
    /// Nothing, but for its escape if it has one.
    Nothing { escape: bool },
}

impl<T> Rest<T> {
    /// The moves as something else.
    pub fn map<U>(self, as_other: impl FnOnce(T) -> U) -> Rest<U> {
        match self {
            Rest::Moves(moves) => Rest::Moves(as_other(moves)),
            Rest::Nothing { escape } => Rest::Nothing { escape },
        }
    }
}

/// 01, increment: one move of a byte, and what follows it.
pub fn byte_move_beat(registers: &mut Registers, bytes: Bytes) -> Beat {
    match rest_of_bytes(bytes) {
        Rest::Moves(bytes) => registers.motion = Motion::Bytes(bytes),
        Rest::Nothing { escape } => end_command(registers, escape),
    }
    byte_move(registers, bytes)
}

/// One move of a byte: the beam, the edge and the point.
pub fn byte_move(registers: &mut Registers, bytes: Bytes) -> Beat {
    let byte = bytes.byte();
    let (y, x) = direction_steps(byte_direction(byte), distance(registers.scale));
    let moved = Moved::of(registers, y, x);
    make_move(registers, &moved, byte_lit(byte), bytes.last_word)
}

/// 01, increment: "An escape in the left byte drops the right one". The change to the right byte
/// belongs to the left byte's last move, so that a stop there leaves the right byte to resume.
pub fn rest_of_bytes(bytes: Bytes) -> Rest<Bytes> {
    if bytes.moves_left > 1 {
        Rest::Moves(Bytes {
            moves_left: bytes.moves_left - 1,
            ..bytes
        })
    } else if byte_escapes(bytes.byte()) {
        Rest::Nothing { escape: true }
    } else if bytes.side == Side::Left {
        Rest::Moves(start_of_byte(bytes.word, Side::Right, bytes.last_word))
    } else {
        Rest::Nothing { escape: false }
    }
}

/// A move made: where it leads, its edge stop, and its point.
fn make_move(registers: &mut Registers, moved: &Moved, asked: bool, last_word: u16) -> Beat {
    moved.make(registers);
    let stop = edge_stop(registers, moved);
    Beat {
        point: lit_point(registers, asked, moved.violates(), last_word),
        stop,
    }
}

/// 01, vector and vector continue: "signs and magnitudes". Manual 2.2.3: bit 0 of the first word
/// asks for the points, of the second escapes; bit 1 is the sign, bits 2 to 11 the magnitude.
fn vector(registers: &mut Registers, first: u16, second: u16) -> Beat {
    let last_word = go_on(registers, 2);
    let rest = start_of_line(Line {
        y_minus: bit(first, 1),
        x_minus: bit(second, 1),
        y_magnitude: field(first, 2, 11),
        x_magnitude: field(second, 2, 11),
        moves: 0,
        done: 0,
        lit: bit(first, 0),
        escape: bit(second, 0),
        last_word,
    });
    begin_line(registers, rest)
}

/// 01, short vector.
fn short_vector(registers: &mut Registers, word: u16) -> Beat {
    let last_word = go_on(registers, 1);
    begin_line(registers, start_of_short_vector(word, last_word))
}

/// Manual 2.2.5: the same as a vector in one word, four bits a magnitude.
pub fn start_of_short_vector(word: u16, last_word: u16) -> Rest<Line> {
    start_of_line(Line {
        y_minus: bit(word, 1),
        x_minus: bit(word, 7),
        y_magnitude: field(word, 2, 5),
        x_magnitude: field(word, 8, 11),
        moves: 0,
        done: 0,
        lit: bit(word, 0),
        escape: bit(word, 6),
        last_word,
    })
}

/// 01, data words: "If both magnitudes are 0, in modes 2, 3 or 4, the command beat ends it with no
/// point". Else n is the larger magnitude and the moves begin with the next beat.
fn start_of_line(line: Line) -> Rest<Line> {
    match line.y_magnitude.max(line.x_magnitude) {
        0 => Rest::Nothing {
            escape: line.escape,
        },
        moves => Rest::Moves(Line { moves, ..line }),
    }
}

/// The command beat of a line lights nothing.
fn begin_line(registers: &mut Registers, line: Rest<Line>) -> Beat {
    leave_line(registers, line);
    Beat::quiet()
}

fn leave_line(registers: &mut Registers, rest: Rest<Line>) {
    match rest {
        Rest::Moves(line) => registers.motion = Motion::Line(line),
        Rest::Nothing { escape } => end_command(registers, escape),
    }
}

/// 01, vector: "After k of n moves the offset on an axis of magnitude m is the whole part of
/// (2km + n)/(2n), times s". Worked out on the magnitude; the sign comes later.
fn offset(done: u16, magnitude: u16, moves: u16) -> u16 {
    let (k, m, n) = (u32::from(done), u32::from(magnitude), u32::from(moves));
    if n == 0 {
        return 0;
    }
    ((2 * k * m + n) / (2 * n)) as u16
}

/// The step of one axis in the move after `done` moves: from the offset before it to the offset
/// after it, times s.
fn line_step(line: &Line, minus: bool, magnitude: u16, distance: u16) -> Step {
    let before = offset(line.done, magnitude, line.moves);
    let after = offset(line.done + 1, magnitude, line.moves);
    Step {
        minus,
        distance: (after - before) * distance,
    }
}

/// Where the next move of a line leads.
fn line_moved(registers: &Registers, line: &Line) -> Moved {
    let distance = distance(registers.scale);
    let y = line_step(line, line.y_minus, line.y_magnitude, distance);
    let x = line_step(line, line.x_minus, line.x_magnitude, distance);
    Moved::of(registers, y, x)
}

/// 01, vector, short vector, vector continue: one move of a line, and what follows it.
pub fn line_move_beat(registers: &mut Registers, line: Line) -> Beat {
    if registers.mode == 3 {
        return continued_move_beat(registers, line);
    }
    leave_line(registers, rest_of_line(line));
    line_move(registers, line)
}

/// One move of a line: the beam, the edge and the point.
pub fn line_move(registers: &mut Registers, line: Line) -> Beat {
    let moved = line_moved(registers, &line);
    make_move(registers, &moved, line.lit, line.last_word)
}

/// 01, vector: the nth move ends the command.
pub fn rest_of_line(line: Line) -> Rest<Line> {
    let done = line.done + 1;
    if done < line.moves {
        Rest::Moves(Line { done, ..line })
    } else {
        Rest::Nothing {
            escape: line.escape,
        }
    }
}

/// 01, vector continue: "the same moves, k starting over at 0 after n, until a move would violate;
/// that beat moves nothing, lights nothing, sets no flag and ends the command". Condition bit 9 has
/// no say in it.
fn continued_move_beat(registers: &mut Registers, line: Line) -> Beat {
    if line_moved(registers, &line).violates() {
        end_command(registers, line.escape);
        return Beat::quiet();
    }
    registers.motion = Motion::Line(match rest_of_line(line) {
        Rest::Moves(line) => line,
        Rest::Nothing { .. } => Line { done: 0, ..line },
    });
    line_move(registers, line)
}

/// 01, graphplot: "one axis moves +s, the other's low 10 bits are set, after a violation too; the
/// word always asks for its point". Manual 2.2.7: bit 1 chooses the axis, bit 0 escapes.
fn graphplot(registers: &mut Registers, word: u16) -> Beat {
    let plus = Step::plus(distance(registers.scale));
    let still = Step::STILL;
    let set_x = bit(word, 1);
    let moved = if set_x {
        Moved::of(registers, plus, still)
    } else {
        Moved::of(registers, still, plus)
    };
    moved.make(registers);
    if set_x {
        registers.x = with_low_ten(registers.x, word);
    } else {
        registers.y = with_low_ten(registers.y, word);
    }
    let last_word = go_on(registers, 1);
    end_command(registers, bit(word, 0));
    let stop = edge_stop(registers, &moved);
    Beat {
        point: lit_point(registers, true, moved.violates(), last_word),
        stop,
    }
}

#[cfg(test)]
mod tests {
    use super::*;
    use crate::host_operations::operate;
    use crate::turn::tests::{ended, range, Bench};

    fn place(bench: &Bench) -> (u16, u16) {
        (bench.registers.x, bench.registers.y)
    }

    fn lit_places(bench: &Bench, count: u32) -> Vec<(u64, u64)> {
        bench.points[..count as usize]
            .iter()
            .map(|point| (point % 1_024, point / 1_024 % 1_024))
            .collect()
    }

    #[test]
    fn p3_magnitudes_3_and_1() {
        assert_eq!([1, 2, 3].map(|k| offset(k, 1, 3)), [0, 1, 1]);
    }

    #[test]
    fn p4_magnitudes_2_and_1() {
        assert_eq!([1, 2].map(|k| offset(k, 1, 2)), [1, 1]);
        // Cutting km/n instead of rounding would give 0, 1.
        assert_ne!([1, 2].map(|k| k / 2), [1, 1]);
    }

    #[test]
    fn the_larger_magnitude_moves_in_every_beat() {
        for n in 1..=1_023 {
            for k in [0, 1, n / 2, n - 1] {
                assert_eq!(offset(k + 1, n, n) - offset(k, n, n), 1);
            }
            assert_eq!(offset(n, n / 3, n), n / 3);
        }
    }

    #[test]
    fn p5_p6_p7_edges() {
        // Increment: one move right and escape, lit.
        let at = |x: u16, conditions: u16, scale: u8| {
            let mut bench = Bench::data(1, &[0o4000]);
            bench.registers.x = x;
            bench.registers.conditions = conditions;
            bench.registers.scale = scale;
            let answer = bench.run(2);
            (
                bench.registers.x,
                bench.registers.horizontal_edge_flag,
                answer,
            )
        };
        assert_eq!(at(1_023, 0, 0), (0, true, ended(Ending::Edge, 2, 0)));
        // Condition bits 6, 7 = 01: eleven bits in x.
        assert_eq!(
            at(1_023, 0o0020, 0),
            (1_024, false, ended(Ending::BudgetSpent, 2, 0))
        );
        assert_eq!(at(1_020, 0, 3), (4, true, ended(Ending::Edge, 2, 0)));
    }

    #[test]
    fn p9_zero_vector_continue_is_one_beat() {
        let mut bench = Bench::data(3, &[0o4000, 0o4000]);
        assert_eq!(bench.run(1), ended(Ending::BudgetSpent, 1, 0));
        assert_eq!(bench.registers.motion, Motion::Nothing);
        assert_eq!(bench.registers.state, State::Control);
        assert_eq!(bench.registers.display_address, 0o202);
    }

    #[test]
    fn zero_vectors_light_nothing_in_any_mode() {
        for (mode, words) in [
            (2, &[0o6000, 0o2000][..]),
            (3, &[0o6000, 0o2000]),
            (4, &[0o6020]),
        ] {
            let mut bench = Bench::data(mode, words);
            bench.registers.conditions = 0o0010;
            assert_eq!(bench.run(1), ended(Ending::BudgetSpent, 1, 0));
            assert_eq!(bench.registers.motion, Motion::Nothing);
            assert_eq!(bench.registers.state, State::Data);
        }
    }

    #[test]
    fn p11_short_vector_3140() {
        let mut bench = Bench::data(4, &[0o3140]);
        bench.registers.y = 100;
        assert_eq!(bench.run(10), ended(Ending::BudgetSpent, 10, 0));
        assert_eq!(place(&bench), (0, 91));
        assert_eq!(bench.registers.state, State::Control);
        assert_eq!(bench.registers.motion, Motion::Nothing);
    }

    #[test]
    fn letter_a() {
        let mut bench = Bench::at(
            0o300,
            &[
                0o1111, 0o1672, 0o7251, 0o6057, 0o7674, 0o3762, 0o2701, 0o3000,
            ],
        );
        bench.registers.x = 100;
        bench.registers.y = 100;
        // The pop goes to a stop word at 0500o.
        bench.registers.pushdown_pointer = 0o402;
        bench.put(0o400, &[0, 0o500]);
        bench.put(0o500, &[0o1400]);
        let answer = bench.run(65_535);
        // 33 beats with its mode and pop words, and one for the stop word.
        assert_eq!(answer, ended(Ending::InternalStop, 34, 18));
        assert_eq!(place(&bench), (107, 100));
        let legs: Vec<(u64, u64)> = lit_places(&bench, 18);
        assert_eq!(legs[0], (100, 100));
        assert_eq!(legs[6], (101, 106));
        assert_eq!(legs[17], (104, 101));
        let mut apart = legs.clone();
        apart.sort();
        apart.dedup();
        assert_eq!(apart.len(), 18);
    }

    #[test]
    fn the_square() {
        let mut bench = Bench::at(
            0o300,
            &[
                0o0515, 0o1121, 0o4067, 0, 0o4000, 0o0067, 0o6067, 0, 0o4000, 0o6067, 0o3000,
            ],
        );
        bench.registers.x = 100;
        bench.registers.y = 100;
        assert_eq!(bench.run(227), ended(Ending::BudgetSpent, 227, 220));
        assert_eq!(place(&bench), (100, 100));
        assert_eq!(bench.registers.pushdown_pointer, 0o7776);
        assert!(bench.points[..220]
            .iter()
            .all(|point| point / (1 << 20) % 16 == 5));
        let places = lit_places(&bench, 220);
        assert_eq!(places[54], (100, 210));
        assert_eq!(places[109], (210, 210));
        assert_eq!(places[164], (210, 100));
        assert_eq!(places[219], (100, 100));
    }

    #[test]
    fn point_sets_the_low_ten_bits_and_obeys_inhibit() {
        let mut bench = Bench::data(0, &[0o1234, 0o5777]);
        bench.registers.x = 0o12001;
        bench.registers.y = 0o6001;
        assert_eq!(bench.run(1), ended(Ending::BudgetSpent, 1, 0));
        assert_eq!(place(&bench), (0o13777, 0o7234));
        assert_eq!(bench.registers.state, State::Control);
        let mut bench = Bench::data(0, &[0o6001, 0o2002]);
        bench.registers.x = 5;
        bench.registers.y = 6;
        assert_eq!(bench.run(1), ended(Ending::BudgetSpent, 1, 1));
        // The point of an inhibited axis still lights.
        assert_eq!(lit_places(&bench, 1), [(5, 6)]);
        assert_eq!(bench.registers.state, State::Data);
    }

    #[test]
    fn condition_bit_8_lights_every_move_and_point() {
        let mut bench = Bench::data(0, &[0, 0o4000, 0o1111, 0o1000]);
        bench.registers.conditions = 0o0010;
        // Point, mode word, increment command beat, one move right, one move right and escape.
        assert_eq!(bench.run(5), ended(Ending::BudgetSpent, 5, 3));
        assert_eq!(lit_places(&bench, 3), [(0, 0), (1, 0), (2, 0)]);
    }

    #[test]
    fn intensity_0_is_a_lit_point() {
        let mut bench = Bench::data(0, &[0o4000, 0]);
        bench.points = vec![7; 2];
        assert_eq!(bench.run(1), ended(Ending::BudgetSpent, 1, 1));
        assert_eq!(bench.points, [16_777_216 * 0o201, 7]);
    }

    #[test]
    fn directions_run_counterclockwise_from_right() {
        let expected = [
            (502, 500),
            (502, 502),
            (500, 502),
            (498, 502),
            (498, 500),
            (498, 498),
            (500, 498),
            (502, 498),
        ];
        for (direction, end) in (0..8).zip(expected) {
            let mut bench = Bench::data(1, &[direction << 6]);
            bench.registers.x = 500;
            bench.registers.y = 500;
            bench.registers.scale = 1;
            bench.run(2);
            assert_eq!(place(&bench), end);
        }
    }

    #[test]
    fn an_escape_in_the_left_byte_drops_the_right_one() {
        let mut bench = Bench::data(1, &[0o0036, 0]);
        assert_eq!(bench.run(2), ended(Ending::BudgetSpent, 2, 0));
        assert_eq!(bench.registers.motion, Motion::Nothing);
        assert_eq!(bench.registers.state, State::Control);
        assert_eq!(place(&bench), (1, 0));
    }

    #[test]
    fn a_right_byte_without_escape_stays_in_data_state() {
        let mut bench = Bench::data(1, &[0o1010]);
        assert_eq!(bench.run(3), ended(Ending::BudgetSpent, 3, 0));
        assert_eq!(bench.registers.motion, Motion::Nothing);
        assert_eq!(bench.registers.state, State::Data);
        assert_eq!(place(&bench), (2, 0));
    }

    #[test]
    fn edge_stop_on_the_left_bytes_last_move_leaves_the_right_byte() {
        // Left: one move left; right: three moves up.
        let mut bench = Bench::data(1, &[0o1432]);
        assert_eq!(bench.run(9), ended(Ending::Edge, 2, 0));
        let right = Bytes {
            word: 0o1432,
            side: Side::Right,
            moves_left: 3,
            last_word: 0o200,
        };
        assert_eq!(bench.registers.motion, Motion::Bytes(right));
        let (resumed, _, status_2) = operate(bench.registers, 25, 0);
        assert_eq!(status_2 & 0o4000, 0o4000);
        let (resumed, _, _) = operate(resumed, 4, 0);
        bench.registers = resumed;
        assert_eq!(bench.run(3), ended(Ending::BudgetSpent, 3, 0));
        assert_eq!(place(&bench), (1_023, 3));
        // On the right byte's last move nothing is left.
        let mut bench = Bench::data(1, &[0o1214]);
        assert_eq!(bench.run(9), ended(Ending::Edge, 3, 0));
        assert_eq!(bench.registers.motion, Motion::Nothing);
        assert_eq!(bench.registers.state, State::Data);
        assert_eq!(operate(bench.registers, 25, 0).2 & 0o4000, 0);
    }

    #[test]
    fn escape_takes_effect_at_an_edge_stop_too() {
        for (mode, words) in [(1, &[0o0400][..]), (2, &[0, 0o6001]), (4, &[0o0061])] {
            let mut bench = Bench::data(mode, words);
            assert_eq!(bench.run(9), ended(Ending::Edge, 2, 0));
            assert_eq!(bench.registers.state, State::Control);
            assert_eq!(bench.registers.motion, Motion::Nothing);
        }
        let mut bench = Bench::data(6, &[0o4001]);
        bench.registers.x = 1_023;
        assert_eq!(bench.run(9), ended(Ending::Edge, 1, 0));
        assert_eq!(bench.registers.state, State::Control);
    }

    #[test]
    fn both_flags_at_a_corner() {
        let mut bench = Bench::data(1, &[0o4500]);
        assert_eq!(bench.run(9), ended(Ending::Edge, 2, 0));
        assert!(bench.registers.vertical_edge_flag && bench.registers.horizontal_edge_flag);
        assert_eq!(place(&bench), (1_023, 1_023));
        // One axis passing: the other's move stands.
        let mut bench = Bench::data(1, &[0o4300]);
        assert_eq!(bench.run(9), ended(Ending::Edge, 2, 0));
        assert!(!bench.registers.vertical_edge_flag && bench.registers.horizontal_edge_flag);
        assert_eq!(place(&bench), (1_023, 1));
    }

    #[test]
    fn condition_bit_9_ignores_edges_but_lights_nothing_there() {
        // Left one move left and lit, right one move left, escape and lit.
        let mut bench = Bench::data(1, &[0o5444]);
        bench.registers.conditions = 0o0004;
        assert_eq!(bench.run(3), ended(Ending::BudgetSpent, 3, 1));
        assert!(!bench.registers.horizontal_edge_flag && bench.registers.running);
        assert_eq!(lit_places(&bench, 1), [(1_022, 0)]);
    }

    #[test]
    fn the_paper_rule_holds_for_each_dimension() {
        for dimension in 10..=13u16 {
            let size = 1u16 << dimension;
            for coordinate in 0..8_192u16 {
                for distance in [0, 1, 2, 4, 8] {
                    for minus in [false, true] {
                        let low = i32::from(coordinate % size);
                        let change = if minus {
                            -i32::from(distance)
                        } else {
                            i32::from(distance)
                        };
                        let result = stepped(coordinate, dimension, Step { minus, distance });
                        let passed = low + change < 0 || low + change >= i32::from(size);
                        assert_eq!(result.violated, passed);
                        let wrapped = (low + change).rem_euclid(i32::from(size)) as u16;
                        assert_eq!(result.coordinate, coordinate / size * size + wrapped);
                    }
                }
            }
        }
        let step = Step {
            minus: false,
            distance: 1,
        };
        assert_eq!(
            stepped(2_047, 10, step),
            Stepped {
                coordinate: 1_024,
                violated: true
            }
        );
    }

    #[test]
    fn y_and_x_have_their_own_dimensions() {
        // y 13 bits, x 11 bits.
        assert_eq!((y_dimension(0o0320), x_dimension(0o0320)), (13, 11));
        assert_eq!((y_dimension(0o0100), x_dimension(0o0040)), (11, 12));
    }

    #[test]
    fn vector_continue_starts_over_and_ends_with_a_still_beat() {
        // Lit, y +1, x +2, escape, from (1018, 0): moves (1,1), (1,0), (1,1), (1,0), (1,1), still.
        let mut bench = Bench::data(3, &[0o4001, 0o4002]);
        bench.registers.x = 1_018;
        assert_eq!(bench.run(3), ended(Ending::BudgetSpent, 3, 2));
        match bench.registers.motion {
            Motion::Line(line) => assert_eq!(line.done, 0),
            other => panic!("{other:?}"),
        }
        assert_eq!(bench.run(3), ended(Ending::BudgetSpent, 3, 3));
        assert_eq!(place(&bench), (1_023, 3));
        assert_ne!(bench.registers.motion, Motion::Nothing);
        let before = bench.registers;
        bench.points = vec![];
        assert_eq!(bench.run(1), ended(Ending::BudgetSpent, 1, 0));
        let expected = Registers {
            motion: Motion::Nothing,
            state: State::Control,
            ..before
        };
        assert_eq!(bench.registers, expected);
    }

    #[test]
    fn vector_continue_heeds_no_condition_bit_9() {
        let mut bench = Bench::data(3, &[0o4000, 0o0001]);
        bench.registers.x = 1_023;
        bench.registers.conditions = 0o0004;
        assert_eq!(bench.run(2), ended(Ending::BudgetSpent, 2, 0));
        assert_eq!(bench.registers.motion, Motion::Nothing);
        assert_eq!(place(&bench), (1_023, 0));
        assert_eq!(bench.registers.state, State::Data);
    }

    #[test]
    fn an_axis_that_does_not_move_is_not_violated() {
        // Minus nothing in y at y = 0, and one step right.
        let mut bench = Bench::data(2, &[0o6000, 0o4001]);
        assert_eq!(bench.run(2), ended(Ending::BudgetSpent, 2, 1));
        assert!(!bench.registers.vertical_edge_flag);
        assert_eq!(place(&bench), (1, 0));
    }

    #[test]
    fn a_vector_resumes_from_the_wrapped_place() {
        // Three moves left from x = 1, unlit and escaping.
        let mut bench = Bench::data(2, &[0, 0o6003]);
        bench.registers.x = 1;
        assert_eq!(bench.run(9), ended(Ending::Edge, 3, 0));
        assert_eq!(place(&bench), (1_023, 0));
        bench.registers = operate(bench.registers, 4, 0).0;
        assert_eq!(bench.run(1), ended(Ending::BudgetSpent, 1, 0));
        assert_eq!(place(&bench), (1_022, 0));
        assert_eq!(bench.registers.state, State::Control);
    }

    #[test]
    fn graphplot_moves_one_axis_and_sets_the_other() {
        let mut bench = Bench::data(6, &[0o0123, 0o6456]);
        bench.registers.scale = 2;
        bench.registers.x = 10;
        assert_eq!(bench.run(2), ended(Ending::BudgetSpent, 2, 2));
        assert_eq!(lit_places(&bench, 2), [(14, 0o123), (0o456, 0o127)]);
        assert_eq!(bench.registers.state, State::Control);
        // The set axis is set after a violation too; its sector is kept.
        let mut bench = Bench::data(6, &[0o2777]);
        bench.registers.x = 0o2000;
        bench.registers.y = 0o1777;
        assert_eq!(bench.run(2), ended(Ending::Edge, 1, 0));
        assert_eq!(place(&bench), (0o2777, 0));
        assert!(bench.registers.vertical_edge_flag && !bench.registers.horizontal_edge_flag);
    }

    /// The last words that the lit points tell.
    fn told(bench: &Bench, count: u32) -> Vec<u64> {
        let lit = bench.points[..count as usize].iter();
        lit.map(|point| point / (1 << 24)).collect()
    }

    /// The last word that the motion remembers.
    fn remembered(bench: &Bench) -> Option<u16> {
        match bench.registers.motion {
            Motion::Nothing | Motion::Character(_) => None,
            Motion::Line(line) => Some(line.last_word),
            Motion::Bytes(bytes) => Some(bytes.last_word),
        }
    }

    /// A drawing command of each mode: its words, the beats to its first point, and the points that
    /// it lights until it ends or the budget of 6 does.
    const DRAWING: [(u8, &[u16], u32, u32); 6] = [
        (0, &[0o4005, 0o0006], 1, 1),
        (1, &[0o6252], 2, 3),
        (2, &[0o4002, 0o0003], 2, 3),
        (3, &[0o4001, 0o0001], 2, 5),
        (4, &[0o4302], 2, 3),
        (6, &[0o0123], 1, 1),
    ];

    /// A command at this address, the beam in the middle.
    fn drawing_at(address: u16, mode: u8, words: &[u16]) -> Bench {
        let mut bench = Bench::at(address, words);
        bench.registers.state = State::Data;
        bench.registers.mode = mode;
        bench.registers.x = 500;
        bench.registers.y = 500;
        bench
    }

    #[test]
    fn a_point_tells_the_last_word_of_its_command() {
        for (mode, words, beats, lit) in DRAWING {
            for address in [0, 1, 0o200, 0o37777, 0o77775, 0o77776, 0o77777] {
                let last_word = (address + words.len() as u16 - 1) % 0o100000;
                let mut bench = drawing_at(address, mode, words);
                // Only the command's words are lent, so that the run ends behind it.
                bench.loan.file = range(address, address + 1);
                bench.loan.list = range(last_word, last_word + 1);
                let answer = bench.run(6);
                assert_eq!(answer.points, lit, "mode {mode} at {address:o}");
                let expected = vec![u64::from(last_word); lit as usize];
                assert_eq!(told(&bench, lit), expected, "mode {mode} at {address:o}");
                // A budget that ends behind the first point shows the address in the motion.
                let mut bench = drawing_at(address, mode, words);
                assert_eq!(bench.run(beats), ended(Ending::BudgetSpent, beats, 1));
                let moves_on = !matches!(mode, 0 | 6);
                assert_eq!(remembered(&bench), moves_on.then_some(last_word));
            }
        }
    }

    #[test]
    fn a_held_command_tells_the_address_that_its_word_has() {
        for (mode, words, beats, _) in DRAWING {
            for address in [0, 0o200, 0o77776, 0o77777] {
                let last_word = u64::from(address) + words.len() as u64 - 1;
                let mut bench = drawing_at(address, mode, words);
                bench.put(address, &[0o10000]);
                bench.registers.hold(words[0]);
                assert_eq!(bench.run(beats), ended(Ending::BudgetSpent, beats, 1));
                assert_eq!(told(&bench, 1), [last_word % 0o100000], "{mode}");
            }
        }
    }

    #[test]
    fn each_command_tells_its_own_last_word() {
        // Two vectors, the first one move right, the second one move up.
        let mut bench = Bench::data(2, &[0o4000, 0o0001, 0o4001, 0o0000]);
        assert_eq!(bench.run(4), ended(Ending::BudgetSpent, 4, 2));
        assert_eq!(lit_places(&bench, 2), [(1, 0), (1, 1)]);
        assert_eq!(told(&bench, 2), [0o201, 0o203]);
        // Two graphplots.
        let mut bench = Bench::data(6, &[0o0005, 0o0006]);
        assert_eq!(bench.run(2), ended(Ending::BudgetSpent, 2, 2));
        assert_eq!(told(&bench, 2), [0o200, 0o201]);
    }

    #[test]
    fn both_bytes_tell_their_word() {
        // One move right, then three up, all lit.
        let mut bench = Bench::data(1, &[0o5072]);
        assert_eq!(bench.run(2), ended(Ending::BudgetSpent, 2, 1));
        let right = Bytes {
            word: 0o5072,
            side: Side::Right,
            moves_left: 3,
            last_word: 0o200,
        };
        assert_eq!(bench.registers.motion, Motion::Bytes(right));
        assert_eq!(bench.run(3), ended(Ending::BudgetSpent, 3, 3));
        assert_eq!(told(&bench, 3), [0o200; 3]);
    }

    #[test]
    fn a_point_that_bit_8_lights_tells_its_word_too() {
        // An unlit vector of one move.
        let mut bench = Bench::data(2, &[0o0000, 0o0001]);
        bench.registers.conditions = 0o0010;
        assert_eq!(bench.run(2), ended(Ending::BudgetSpent, 2, 1));
        assert_eq!(told(&bench, 1), [0o201]);
    }

    #[test]
    fn the_last_word_stays_over_an_edge_stop() {
        // Three moves left from x = 1: the second passes the edge, the third comes after a resume.
        let mut bench = Bench::data(2, &[0o4000, 0o2003]);
        bench.registers.x = 1;
        assert_eq!(bench.run(9), ended(Ending::Edge, 3, 1));
        assert_eq!(remembered(&bench), Some(0o201));
        bench.registers = operate(bench.registers, 4, 0).0;
        assert_eq!(bench.run(1), ended(Ending::BudgetSpent, 1, 1));
        assert_eq!(lit_places(&bench, 1), [(1_022, 0)]);
        assert_eq!(told(&bench, 1), [0o201]);
    }

    #[test]
    fn the_last_word_stays_over_a_pen_stop() {
        let mut bench = Bench::data(1, &[0o6020]);
        bench.registers.pen_enable = true;
        assert_eq!(bench.run(2), ended(Ending::BudgetSpent, 2, 1));
        bench.registers = operate(bench.registers, 7, 0).0;
        assert_eq!(bench.run(9), ended(Ending::NotRunning, 0, 0));
        assert_eq!(remembered(&bench), Some(0o200));
        bench.registers = operate(bench.registers, 4, 0).0;
        assert_eq!(bench.run(1), ended(Ending::BudgetSpent, 1, 1));
        assert_eq!(told(&bench, 1), [0o200]);
    }

    #[test]
    fn a_motion_handed_in_tells_the_address_that_it_came_with() {
        let line = Motion::Line(Line {
            y_minus: false,
            x_minus: false,
            y_magnitude: 1,
            x_magnitude: 2,
            moves: 2,
            done: 0,
            lit: true,
            escape: false,
            last_word: 0o54321,
        });
        let bytes = Motion::Bytes(Bytes {
            word: 0o5050,
            side: Side::Left,
            moves_left: 1,
            last_word: 0o54321,
        });
        for (mode, motion) in [(1, bytes), (2, line), (3, line), (4, line)] {
            let mut bench = Bench::data(mode, &[]);
            bench.registers.motion = motion;
            // The word there is neither good nor lent.
            bench.put(0o54321, &[0o10000]);
            bench.loan.file = range(0, 0);
            bench.loan.list = range(0, 0);
            assert_eq!(bench.run(1), ended(Ending::BudgetSpent, 1, 1));
            assert_eq!(remembered(&bench), Some(0o54321));
            assert_eq!(told(&bench, 1), [0o54321]);
            assert_eq!(bench.run(1), ended(Ending::BudgetSpent, 1, 1));
            assert_eq!(told(&bench, 1), [0o54321]);
        }
    }

    #[test]
    fn a_points_second_word_wraps_at_the_end_of_memory() {
        let mut bench = Bench::at(0o77777, &[0o4005, 0o4006]);
        bench.registers.state = State::Data;
        assert_eq!(bench.run(1), ended(Ending::BudgetSpent, 1, 1));
        assert_eq!(bench.registers.display_address, 1);
        assert_eq!(place(&bench), (6, 5));
    }
}
