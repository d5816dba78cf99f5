//! The character generator through the safe interface: its operations, an unfinished character in
//! every stage, and runs.

use eveglome::place::*;
use eveglome::{ending, fresh, operate, operation, run, Answer, Loan, Point, Row, MEMORY};

/// The manual's display file of appendix 1: a point in the middle of the screen, then the
/// characters 00 01, 02 03 and 01 04, and a jump back to the first word.
const FILE: [u16; 9] = [
    0o1107, 0o1000, 0o5000, 0o1151, 0o0001, 0o0203, 0o0104, 0o2000, 0o0200,
];

/// Its table, for a starting address register of 06. 00 sets scale, pen and intensity, 01 is the
/// letter A, 02 a carriage return, 03 a line feed, 04 escapes to control state. Then what the
/// tests add: 05 sets case 1, 06 register 07, 07 seven bits; 10 is of the unused form; 11 and 12
/// are a routine of each kind.
const TABLE: [u16; 11] = [
    0o4555, 0o0200, 0o6100, 0o2206, 0o6040, 0o5400, 0o5107, 0o6600, 0o7000, 0o0210, 0o2212,
];

/// The routines of the A, of six increment words, and of the line feed, a short vector; then that
/// of 11, two lit moves to the right of which the second escapes, and from 06212 on that of 12, a
/// vector of no length and a lit move to the right that escapes.
const ROUTINES: [u16; 12] = [
    0o1672, 0o7251, 0o6057, 0o7674, 0o3762, 0o2701, 0o3140, 0, 0o5040, 0, 0, 0o4041,
];

/// A memory with the table, the routines and these words.
fn memory(low: usize, words: &[u16]) -> Vec<u16> {
    let mut memory = vec![0; MEMORY];
    memory[0o6000..][..TABLE.len()].copy_from_slice(&TABLE);
    memory[0o6200..][..ROUTINES.len()].copy_from_slice(&ROUTINES);
    memory[low..][..words.len()].copy_from_slice(words);
    memory
}

/// A row with some of its numbers set.
fn with(row: Row, numbers: &[(usize, u16)]) -> Row {
    let mut row = row;
    for &(place, number) in numbers {
        row.0[place] = number;
    }
    row
}

/// A display that runs in data state and mode 5, its beam at (100, 200), with words at 00300 and the
/// table's register.
fn writing() -> Row {
    with(
        fresh(),
        &[
            (ADDRESS, 0o300),
            (X, 100),
            (Y, 200),
            (STATE, 1),
            (MODE, 5),
            (INTENSITY, 3),
            (RUNNING, 1),
            (STARTING_ADDRESS, 6),
        ],
    )
}

/// The unfinished character of six bits whose word was at 00300, with its side, its stage and the
/// numbers of the stage.
fn unfinished(word: u16, side: u16, stage: &[u16]) -> Row {
    let mut row = with(
        writing(),
        &[
            (ADDRESS, 0o301),
            (MOTION, 3),
            (CHARACTER_WORD, word),
            (CHARACTER_SIDE, side),
        ],
    );
    row.0[CHARACTER_STAGE..][..stage.len()].copy_from_slice(stage);
    row
}

fn answer(ending: u32, beats: u32, points: usize) -> Answer {
    Answer {
        ending,
        word: 0,
        beats,
        points: points as u32,
        address: 0,
    }
}

fn done(word: u32) -> Answer {
    Answer {
        word,
        ..answer(ending::DONE, 0, 0)
    }
}

/// A run with all of memory lent, and the points that it lit.
fn draw(row: &mut Row, memory: &mut [u16], budget: u32) -> (Answer, Vec<Point>) {
    let mut points = [0; 64];
    let answer = run(row, Loan::ALL, memory, &mut points, budget);
    let entries = points[..answer.points as usize].iter();
    (answer, entries.map(|&entry| Point::of(entry)).collect())
}

/// A point of intensity 3 in y 200.
fn lit(x: u16, last_word: u16) -> Point {
    Point {
        x,
        y: 200,
        intensity: 3,
        blink: false,
        last_word,
    }
}

/// A character in each stage, at its limits. The line's magnitudes are above those of any short
/// vector.
fn every_stage() -> [Row; 4] {
    let character = with(
        fresh(),
        &[
            (MOTION, 3),
            (CHARACTER_WORD, 4_095),
            (CHARACTER_SIZE, 1),
            (CHARACTER_SIDE, 1),
        ],
    );
    let routine = [
        (CHARACTER_STAGE, 1),
        (ROUTINE_KIND, 1),
        (ROUTINE_NEXT, 32_767),
    ];
    let bytes = [
        (CHARACTER_STAGE, 2),
        (ROUTINE_BYTES_WORD, 0o7777),
        (ROUTINE_BYTES_SIDE, 1),
        (ROUTINE_BYTES_MOVES_LEFT, 3),
        (ROUTINE_BYTES_LAST_WORD, 32_767),
    ];
    let line = [
        (CHARACTER_STAGE, 3),
        (ROUTINE_LINE_MINUS_Y, 1),
        (ROUTINE_LINE_MINUS_X, 1),
        (ROUTINE_LINE_MAGNITUDE_Y, 16),
        (ROUTINE_LINE_MAGNITUDE_X, 1_023),
        (ROUTINE_LINE_MOVES, 1_023),
        (ROUTINE_LINE_DONE, 1_022),
        (ROUTINE_LINE_LIT, 1),
        (ROUTINE_LINE_ESCAPE, 1),
        (ROUTINE_LINE_LAST_WORD, 32_767),
    ];
    [
        character,
        with(character, &routine),
        with(character, &bytes),
        with(character, &line),
    ]
}

/// An accepted call writes the whole row, also where it changes no register. State and mode play no
/// part.
#[test]
fn every_stage_comes_back() {
    for row in every_stage() {
        for (state, mode) in [(0, 0), (1, 1), (1, 3), (1, 5), (0, 7)] {
            let row = with(row, &[(STATE, state), (MODE, mode)]);
            let mut left = row;
            assert_eq!(operate(&mut left, operation::READ_POINTER, 0), done(0));
            assert_eq!(left, row);
            let (ended, _) = draw(&mut left, &mut vec![0; MEMORY], 9);
            assert_eq!(ended, answer(ending::NOT_RUNNING, 0, 0));
            assert_eq!(left, row);
        }
    }
}

/// What the kind and the stage do not use is not looked at, and written 0.
#[test]
fn a_shorter_stage_is_written_with_zeros() {
    let [table, routine, bytes, line] = every_stage();
    for (stage, row) in [(0, table), (1, routine), (2, bytes)] {
        // From the last place that the stage uses on, the numbers of the longest stage.
        let used = [CHARACTER_STAGE, ROUTINE_NEXT, ROUTINE_BYTES_LAST_WORD][stage];
        let mut left = row;
        left.0[used + 1..].copy_from_slice(&line.0[used + 1..]);
        assert_eq!(operate(&mut left, operation::READ_POINTER, 0), done(0));
        assert_eq!(left, row);
    }
}

/// A flag of 2, a stage that there is not, a number of one bit too many, counts that do not agree.
#[test]
fn a_character_that_does_not_fit_is_refused_as_4() {
    let [table, routine, bytes, line] = every_stage();
    for (row, place, number) in [
        (fresh(), STARTING_ADDRESS, 64),
        (table, CHARACTER_WORD, 4_096),
        (table, CHARACTER_SIZE, 2),
        (table, CHARACTER_SIDE, 2),
        (table, CHARACTER_STAGE, 4),
        (routine, ROUTINE_KIND, 2),
        (routine, ROUTINE_NEXT, 32_768),
        (bytes, ROUTINE_BYTES_WORD, 4_096),
        (bytes, ROUTINE_BYTES_WORD, 0o7757),
        (bytes, ROUTINE_BYTES_SIDE, 2),
        (bytes, ROUTINE_BYTES_MOVES_LEFT, 0),
        (bytes, ROUTINE_BYTES_MOVES_LEFT, 4),
        (bytes, ROUTINE_BYTES_LAST_WORD, 32_768),
        (line, ROUTINE_LINE_MINUS_Y, 2),
        (line, ROUTINE_LINE_MINUS_X, 2),
        (line, ROUTINE_LINE_MAGNITUDE_Y, 1_024),
        (line, ROUTINE_LINE_MAGNITUDE_X, 1_022),
        (line, ROUTINE_LINE_MOVES, 1_022),
        (line, ROUTINE_LINE_DONE, 1_023),
        (line, ROUTINE_LINE_LIT, 2),
        (line, ROUTINE_LINE_ESCAPE, 2),
        (line, ROUTINE_LINE_LAST_WORD, 32_768),
    ] {
        let given = with(row, &[(place, number)]);
        let mut left = given;
        let refused = answer(ending::REGISTERS_OUT_OF_RANGE, 0, 0);
        assert_eq!(operate(&mut left, operation::READ_GENERATOR, 0), refused);
        let ran = run(&mut left, Loan::ALL, &mut vec![0; MEMORY], &mut [], 1);
        assert_eq!(ran, refused, "place {place}, number {number}");
        assert_eq!(left, given);
    }
}

/// Only a routine has a right byte behind a left one that escapes; in mode 1 that is refused.
#[test]
fn a_right_byte_behind_an_escape_is_a_routines_alone() {
    let mut row = unfinished(0, 0, &[2, 0o0030, 1, 3, 0o6210]);
    assert_eq!(operate(&mut row, operation::READ_POINTER, 0), done(0));
    let plain = [
        (STATE, 1),
        (MODE, 1),
        (MOTION, 2),
        (BYTES_WORD, 0o0030),
        (BYTES_SIDE, 1),
        (BYTES_MOVES_LEFT, 3),
    ];
    assert_eq!(
        operate(&mut with(fresh(), &plain), operation::READ_POINTER, 0),
        answer(ending::REGISTERS_OUT_OF_RANGE, 0, 0)
    );
}

/// Case in bit 3, code size in bit 4, register in bits 6 to 11; any other bit is refused.
#[test]
fn the_generator_is_set_and_read() {
    for operand in 0..=0o10000 {
        let mut row = fresh();
        let set = operate(&mut row, operation::SET_GENERATOR, operand);
        if operand & !0o677 != 0 {
            assert_eq!(set, answer(ending::OPERAND_OUT_OF_RANGE, 0, 0));
            assert_eq!(row, fresh());
            continue;
        }
        assert_eq!(set, done(0));
        let registers = [
            (CASE, (operand >> 8 & 1) as u16),
            (CODE_SIZE, (operand >> 7 & 1) as u16),
            (STARTING_ADDRESS, (operand & 0o77) as u16),
        ];
        assert_eq!(row, with(fresh(), &registers));
        let read = operate(&mut row, operation::READ_GENERATOR, 0);
        assert_eq!(read, done(operand));
        assert_eq!(row, with(fresh(), &registers));
    }
    let refused = answer(ending::OPERAND_OUT_OF_RANGE, 0, 0);
    for operation in [operation::SET_GENERATOR, operation::READ_GENERATOR] {
        assert_eq!(operate(&mut fresh(), operation, u32::MAX), refused);
    }
    assert_eq!(operate(&mut fresh(), operation::READ_GENERATOR, 1), refused);
}

/// Bit 0 goes by state and mode alone, bit 1 by the character alone, bit 4 by the register and not
/// by the size of the word.
#[test]
fn the_generators_word_says_where_the_display_is() {
    let registers = [(CASE, 1), (STARTING_ADDRESS, 0o77)];
    for (state, mode, side, word) in [
        (0, 5, 0, 0o0477),
        (0, 5, 1, 0o2477),
        (1, 4, 1, 0o2477),
        (1, 5, 0, 0o4477),
        (1, 5, 1, 0o6477),
    ] {
        for row in every_stage() {
            let row = with(row, &registers);
            let mut row = with(row, &[(STATE, state), (MODE, mode), (CHARACTER_SIDE, side)]);
            let read = operate(&mut row, operation::READ_GENERATOR, 0);
            assert_eq!(read, done(word));
        }
    }
}

#[test]
fn start_and_clear_drop_the_character_and_leave_the_generator() {
    let generator = [(CASE, 1), (CODE_SIZE, 1), (STARTING_ADDRESS, 0o52)];
    let started = [(ADDRESS, 0o300), (RUNNING, 1)];
    for (operation, operand, left) in [
        (operation::START, 0o300, with(fresh(), &started)),
        (operation::CLEAR, 0, fresh()),
    ] {
        for row in every_stage() {
            let mut row = with(row, &generator);
            assert_eq!(operate(&mut row, operation, operand), done(0));
            assert_eq!(row, with(left, &generator));
        }
    }
}

/// The manual's program: 85 beats to the jump, and back at its first word. The A has 18 points, of
/// five routine words; the line feed and the A's last word light none.
#[test]
fn the_manuals_program_writes_two_letters() {
    let mut memory = memory(0o200, &FILE);
    let before = memory.clone();
    let mut row = fresh();
    assert_eq!(operate(&mut row, operation::SET_GENERATOR, 6), done(0));
    assert_eq!(operate(&mut row, operation::START, 0o200), done(0));
    let (ended, points) = draw(&mut row, &mut memory, 85);
    assert_eq!(ended, answer(ending::BUDGET_SPENT, 85, 36));
    let left = [
        (ADDRESS, 0o200),
        (X, 14),
        (Y, 494),
        (MODE, 5),
        (SCALE, 1),
        (INTENSITY, 5),
        (RUNNING, 1),
        (STARTING_ADDRESS, 6),
    ];
    assert_eq!(row, with(fresh(), &left));
    assert_eq!(memory, before);

    let told: Vec<_> = points
        .iter()
        .map(|point| (point.x, point.y, point.last_word))
        .collect();
    let first = [
        (512, 512, 0o6200),
        (512, 514, 0o6200),
        (512, 516, 0o6200),
        (512, 518, 0o6201),
    ];
    assert_eq!(told[..4], first);
    assert_eq!(told[35], (8, 496, 0o6204));
    assert!(points
        .iter()
        .all(|point| point.intensity == 5 && !point.blink));
    let words = [
        (0o6200, 3),
        (0o6201, 4),
        (0o6202, 3),
        (0o6203, 6),
        (0o6204, 2),
    ];
    let words = words.map(|(word, count)| vec![word; count]).concat();
    let drawn: Vec<u16> = points.iter().map(|point| point.last_word).collect();
    assert_eq!(drawn, [words.clone(), words].concat());
    // The second A is the first one, from (0, 494) on.
    for (one, other) in points[..18].iter().zip(&points[18..]) {
        assert_eq!((other.x, other.y), (one.x - 512, one.y - 18));
    }
}

/// Word 1112 has the characters 11 and 12, a routine of each kind. A run may stop behind every
/// beat, and the next one goes on there.
#[test]
fn the_budget_may_be_spent_in_every_stage() {
    let at_x = |row, x| with(row, &[(X, x)]);
    let left = [
        unfinished(0o1112, 0, &[0]),
        unfinished(0o1112, 0, &[1, 0, 0o6210]),
        unfinished(0o1112, 0, &[2, 0o5040, 0, 1, 0o6210]),
        at_x(unfinished(0o1112, 0, &[2, 0o5040, 1, 1, 0o6210]), 101),
        at_x(unfinished(0o1112, 1, &[0]), 102),
        at_x(unfinished(0o1112, 1, &[1, 1, 0o6212]), 102),
        at_x(unfinished(0o1112, 1, &[1, 1, 0o6213]), 102),
        at_x(
            unfinished(0o1112, 1, &[3, 0, 0, 0, 1, 1, 0, 1, 1, 0o6213]),
            102,
        ),
        with(writing(), &[(ADDRESS, 0o301), (X, 103)]),
    ];
    let points = [lit(101, 0o6210), lit(102, 0o6210), lit(103, 0o6213)];
    let mut memory = memory(0o300, &[0o1112]);
    let mut row_by_row = writing();
    for (budget, left) in (1..).zip(left) {
        let mut row = writing();
        let (ended, drawn) = draw(&mut row, &mut memory, budget);
        assert_eq!(row, left, "budget {budget}");
        assert_eq!(drawn, points[..drawn.len()]);
        assert_eq!(drawn.len(), usize::from(left.0[X] - 100));
        assert_eq!(ended, answer(ending::BUDGET_SPENT, budget, drawn.len()));

        draw(&mut row_by_row, &mut memory, 1);
        assert_eq!(row_by_row, left, "beat {budget}");
    }
}

/// Of each of the three fetches the loan is asked, then the width; a move asks for room. A beat that
/// is not made leaves the character as it was, and the next run goes on with it.
#[test]
fn a_character_is_fenced_at_every_fetch() {
    let file = |file_low, file_high| Loan {
        file_low,
        file_high,
        list_low: 0,
        list_high: 0,
    };
    let mut row = writing();
    let mut points = [0; 1];
    for (place, loan, beats, left) in [
        (0o300, file(0, 0), 0, writing()),
        (0o6011, file(0o300, 0o301), 1, unfinished(0o1111, 0, &[0])),
        (
            0o6210,
            file(0o6011, 0o6012),
            1,
            unfinished(0o1111, 0, &[1, 0, 0o6210]),
        ),
    ] {
        let mut words = memory(0o300, &[0o1111]);
        let ended = run(&mut row, loan, &mut words, &mut points, 9);
        let outside = Answer {
            address: place,
            ..answer(ending::FETCH_OUTSIDE_LOAN, beats, 0)
        };
        assert_eq!(ended, outside);
        assert_eq!(row, left);

        words[place as usize] = 4_096;
        let ended = run(&mut row, Loan::ALL, &mut words, &mut points, 9);
        assert_eq!(ended, answer(ending::WIDE_WORD, 0, 0));
        assert_eq!(row, left);
    }
    let mut words = memory(0o300, &[0o1111]);
    let ended = run(&mut row, Loan::ALL, &mut words, &mut points, 9);
    assert_eq!(ended, answer(ending::POINTS_FULL, 2, 1));
    let right_byte = unfinished(0o1111, 0, &[2, 0o5040, 1, 1, 0o6210]);
    assert_eq!(row, with(right_byte, &[(X, 101)]));
}

/// The left 05 sets case 1, and the right 01 is looked up at 06101; the left 06 sets register 07, and
/// it is looked up at 07001. A new code size waits for the next word: the right 11 is still of six
/// bits, and 0004 is then one character, which escapes.
#[test]
fn a_left_character_sets_what_the_right_one_is_looked_up_with() {
    let mut memory = memory(0o300, &[]);
    memory[0o6101] = 0o210;
    memory[0o7001] = 0o1034;
    memory[0o7034] = 0o4040;
    for (word, register, routine) in [
        (0o0501, (CASE, 1), 0o6210),
        (0o0601, (STARTING_ADDRESS, 7), 0o7034),
    ] {
        memory[0o300] = word;
        let mut row = writing();
        let (ended, points) = draw(&mut row, &mut memory, 5);
        assert_eq!(ended, answer(ending::BUDGET_SPENT, 5, 1));
        assert_eq!(points, [lit(101, routine)]);
        assert_eq!(row.0[register.0], register.1);
    }

    memory[0o300..0o303].copy_from_slice(&[0o0711, 0o0004, 0o1400]);
    let mut row = writing();
    let (ended, points) = draw(&mut row, &mut memory, 50);
    assert_eq!(ended, answer(ending::INTERNAL_STOP, 9, 2));
    assert_eq!(points, [lit(101, 0o6210), lit(102, 0o6210)]);
    assert_eq!((row.0[CODE_SIZE], row.0[STATE], row.0[MODE]), (1, 0, 5));
}

/// The request comes in the left character; the stop after the right one, with the next word held.
/// That is read in the size of the beat that takes it up: 1104 is then code 104.
#[test]
fn a_stop_request_waits_for_both_characters() {
    let mut memory = memory(0o300, &[0o1111, 0o1104]);
    let mut row = writing();
    draw(&mut row, &mut memory, 1);
    assert_eq!(operate(&mut row, operation::ASK_TO_STOP, 0), done(0));
    let (ended, points) = draw(&mut row, &mut memory, 50);
    assert_eq!(ended, answer(ending::EXTERNAL_STOP, 8, 4));
    assert_eq!(points[3], lit(104, 0o6210));
    let held = [
        (ADDRESS, 0o301),
        (X, 104),
        (EXTERNAL_STOP_FLAG, 1),
        (RUNNING, 0),
        (HELD, 1),
        (HELD_WORD, 0o1104),
    ];
    assert_eq!(row, with(writing(), &held));

    assert_eq!(operate(&mut row, operation::SET_GENERATOR, 0o206), done(0));
    assert_eq!(operate(&mut row, operation::RESUME, 0), done(0));
    let (ended, _) = draw(&mut row, &mut memory, 2);
    assert_eq!(ended, answer(ending::BUDGET_SPENT, 2, 0));
    let taken = [
        (ADDRESS, 0o302),
        (X, 104),
        (CODE_SIZE, 1),
        (CHARACTER_SIZE, 1),
    ];
    // The table word at 06104 is 0, which dispatches to 06000.
    assert_eq!(row, with(unfinished(0o1104, 0, &[1, 0, 0o6000]), &taken));
}

/// Table word 7000, of the left character 10: its beat counts, also as the last of the budget, and
/// ends pen hold; no flag goes on. The right 11 is still to come, and is drawn after a resume.
#[test]
fn the_unused_form_ends_15_with_its_beat() {
    let mut memory = memory(0o300, &[0o1011, 0o0400, 0o1400]);
    for budget in [2, 9] {
        let mut row = with(writing(), &[(PEN_HOLD, 1)]);
        let (ended, _) = draw(&mut row, &mut memory, budget);
        assert_eq!(ended, answer(ending::UNUSABLE_MODE, 2, 0));
        let stopped = [(PEN_ENABLE, 1), (RUNNING, 0)];
        assert_eq!(row, with(unfinished(0o1011, 1, &[0]), &stopped));

        assert_eq!(operate(&mut row, operation::RESUME, 0), done(0));
        let (ended, points) = draw(&mut row, &mut memory, 50);
        assert_eq!(ended, answer(ending::INTERNAL_STOP, 7, 2));
        assert_eq!(points, [lit(101, 0o6210), lit(102, 0o6210)]);
        assert_eq!((row.0[STATE], row.0[ADDRESS]), (0, 0o303));
    }
}

/// The character goes on the same; what comes behind it is told by state and mode: in control state
/// a stop word, in mode 7 nothing, in mode 3 no continued vector.
#[test]
fn a_character_goes_on_in_any_state_and_mode() {
    let mut memory = memory(0o300, &[0o1400]);
    for (state, mode, ending, beats, address) in [
        (0, 0, ending::INTERNAL_STOP, 5, 0o301),
        (1, 7, ending::UNUSABLE_MODE, 4, 0o300),
    ] {
        let place = [(ADDRESS, 0o300), (STATE, state), (MODE, mode)];
        let mut row = with(unfinished(0o1111, 1, &[0]), &place);
        let (ended, points) = draw(&mut row, &mut memory, 50);
        assert_eq!(ended, answer(ending, beats, 2));
        assert_eq!(points, [lit(101, 0o6210), lit(102, 0o6210)]);
        assert_eq!((row.0[ADDRESS], row.0[MOTION]), (address, 0));
    }
    let line = unfinished(0o1105, 1, &[3, 0, 0, 0, 2, 2, 1, 1, 1, 0o6213]);
    let mut row = with(line, &[(MODE, 3)]);
    let (ended, points) = draw(&mut row, &mut memory, 1);
    assert_eq!(ended, answer(ending::BUDGET_SPENT, 1, 1));
    assert_eq!(points, [lit(101, 0o6213)]);
    let over = [(ADDRESS, 0o301), (X, 101), (MODE, 3)];
    assert_eq!(row, with(writing(), &over));
}
