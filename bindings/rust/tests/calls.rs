//! The calls, done and refused, through the safe interface.

use eveglome::{ending, fresh, list, operate, operation, place, read, run};
use eveglome::{Answer, Loan, Point, Refusal, Row, Stretch, LONGEST_LISTING, MEMORY};

/// An ending with no word, no beats, no points and no address, as every refusal is.
fn just(ending: u32) -> Answer {
    Answer {
        ending,
        word: 0,
        beats: 0,
        points: 0,
        address: 0,
    }
}

fn done(word: u32) -> Answer {
    Answer {
        ending: ending::DONE,
        word,
        beats: 0,
        points: 0,
        address: 0,
    }
}

/// Fresh registers with some numbers of the row set.
fn with_all(numbers: &[(usize, u16)]) -> Row {
    let mut row = fresh();
    for &(place, number) in numbers {
        row.0[place] = number;
    }
    row
}

fn with(place: usize, number: u16) -> Row {
    with_all(&[(place, number)])
}

/// A word held at address 200o, on a stopped display.
fn holding(word: u16) -> Row {
    with_all(&[
        (place::ADDRESS, 0o200),
        (place::HELD, 1),
        (place::HELD_WORD, word),
    ])
}

/// A display that runs from address 200o and is asked to stop.
fn asked_to_stop() -> Row {
    let mut row = fresh();
    assert_eq!(operate(&mut row, operation::START, 0o200), done(0));
    assert_eq!(operate(&mut row, operation::ASK_TO_STOP, 0), done(0));
    row
}

/// No word lent.
const NOTHING: Loan = Loan {
    file_low: 0,
    file_high: 0,
    list_low: 0,
    list_high: 0,
};

#[test]
fn fresh_registers_are_all_zero() {
    assert_eq!(fresh(), Row([0; place::ROW]));
}

#[test]
fn start_sets_the_address_and_runs() {
    let mut row = fresh();
    assert_eq!(operate(&mut row, operation::START, 0o200), done(0));
    assert_eq!(
        row,
        with_all(&[(place::ADDRESS, 0o200), (place::RUNNING, 1)])
    );
}

#[test]
fn reading_the_pointer_answers_it() {
    let mut row = with(place::POINTER, 0o1234);
    let answer = operate(&mut row, operation::READ_POINTER, 0);
    assert_eq!(answer, done(0o1234));
    assert_eq!(row, with(place::POINTER, 0o1234));
}

/// What the kind of motion does not use is not looked at, and written 0.
#[test]
fn an_accepted_call_writes_the_whole_row() {
    let mut row = with(place::LINE_MOVES, 7);
    assert_eq!(operate(&mut row, operation::IDLE_ON, 0), done(0));
    assert_eq!(row, with(place::IDLE, 1));
}

#[test]
fn operations_are_refused_in_the_order_4_5_6() {
    for (row, operation, operand, number) in [
        (
            fresh(),
            operation::START,
            32_768,
            ending::OPERAND_OUT_OF_RANGE,
        ),
        (
            fresh(),
            operation::PRESS_BUTTON,
            12,
            ending::OPERAND_OUT_OF_RANGE,
        ),
        (fresh(), 27, 0, ending::UNKNOWN_OPERATION),
        (fresh(), 0, u32::MAX, ending::UNKNOWN_OPERATION),
        (with(place::X, 8_192), 27, 9, ending::REGISTERS_OUT_OF_RANGE),
    ] {
        let mut left = row;
        assert_eq!(operate(&mut left, operation, operand), just(number));
        assert_eq!(left, row);
    }
}

/// A flag of 2, a mode of 256, a word where none is held, a held word of 13 bits, a kind of motion
/// that there is not, a last word's address of 16 bits: no register can hold them.
#[test]
fn a_row_that_does_not_fit_is_refused_as_4() {
    use place::*;
    let line = with_all(&[
        (STATE, 1),
        (MODE, 2),
        (MOTION, 1),
        (LINE_MAGNITUDE_X, 3),
        (LINE_MOVES, 3),
    ]);
    let bytes = with_all(&[
        (STATE, 1),
        (MODE, 1),
        (MOTION, 2),
        (BYTES_WORD, 0o1010),
        (BYTES_MOVES_LEFT, 1),
    ]);
    let flags = [
        STATE,
        PEN_ENABLE,
        PEN_HOLD,
        PEN_SENSE,
        BLINK,
        IDLE,
        HIT_1,
        HIT_2,
        INTERNAL_STOP_FLAG,
        EXTERNAL_STOP_FLAG,
        VERTICAL_EDGE_FLAG,
        HORIZONTAL_EDGE_FLAG,
        PEN_FLAG,
        MANUAL_INTERRUPT_FLAG,
        RUNNING,
        STOP_REQUEST,
        HELD,
        CASE,
        CODE_SIZE,
    ];
    let line_flags = [LINE_MINUS_Y, LINE_MINUS_X, LINE_LIT, LINE_ESCAPE];
    for (row, places, number) in [
        (fresh(), &flags[..], 2),
        (fresh(), &[MODE, SCALE, INTENSITY, STARTING_ADDRESS], 256),
        (fresh(), &[HELD_WORD], 1),
        (with(HELD, 1), &[HELD_WORD], 4_096),
        (fresh(), &[MOTION], 4),
        (line, &line_flags, 2),
        (bytes, &[BYTES_SIDE], 2),
        (line, &[LINE_LAST_WORD], 32_768),
        (bytes, &[BYTES_LAST_WORD], 32_768),
    ] {
        assert_eq!(
            operate(&mut row.clone(), operation::READ_POINTER, 0),
            done(0)
        );
        for &place in places {
            let mut given = row;
            given.0[place] = number;
            let mut left = given;
            let answer = operate(&mut left, operation::READ_POINTER, 0);
            assert_eq!(answer, just(ending::REGISTERS_OUT_OF_RANGE));
            assert_eq!(left, given);
        }
    }
}

/// The example of document 01's practice program.
#[test]
fn a_run_draws_a_point() {
    let mut memory = vec![0; MEMORY];
    memory[0o200..0o204].copy_from_slice(&[0o1101, 0o4144, 0o4310, 0o1400]);
    let before = memory.clone();
    let mut points = [u64::MAX; 4];
    let mut row = fresh();
    operate(&mut row, operation::START, 0o200);
    let answer = run(&mut row, Loan::ALL, &mut memory, &mut points, 65_535);
    let ended = Answer {
        ending: ending::INTERNAL_STOP,
        word: 0,
        beats: 3,
        points: 1,
        address: 0,
    };
    assert_eq!(answer, ended);
    let entry = 200 + 1_024 * 100 + (0o202 << 24);
    assert_eq!(points, [entry, u64::MAX, u64::MAX, u64::MAX]);
    assert_eq!(memory, before);
    assert_eq!((row.0[place::X], row.0[place::Y]), (200, 100));
    assert_eq!(row.0[place::INTERNAL_STOP_FLAG], 1);
    assert_eq!(row.0[place::RUNNING], 0);
}

/// A display that runs in data state and this mode, its beam at (0, 0).
fn drawing(address: u16, mode: u16) -> Row {
    with_all(&[
        (place::ADDRESS, address),
        (place::STATE, 1),
        (place::MODE, mode),
        (place::RUNNING, 1),
    ])
}

/// The entries that a run of so many beats fills.
fn lit(row: &mut Row, loan: Loan, memory: &mut [u16], budget: u32) -> Vec<u64> {
    let mut points = [0; 8];
    let answer = run(row, loan, memory, &mut points, budget);
    assert_eq!(
        (answer.ending, answer.beats),
        (ending::BUDGET_SPENT, budget)
    );
    points[..answer.points as usize].to_vec()
}

/// The point (x, y) with the last word of its command; intensity and blink are 0.
fn told(x: u64, y: u64, last_word: u16) -> u64 {
    x + (y << 10) + (u64::from(last_word) << 24)
}

/// Each command lights (1, 0). A second word behind 77777 is word 0.
#[test]
fn a_point_tells_the_last_word_of_its_command() {
    for (mode, first, second, beats) in [
        (0, 0o4000, Some(1), 1),
        (1, 0o5000, None, 2),
        (2, 0o4000, Some(1), 2),
        (3, 0o4000, Some(1), 2),
        (4, 0o4001, None, 2),
        (6, 0, None, 1),
    ] {
        for address in [0, 0o200, 0o77776, 0o77777] {
            let mut memory = vec![0; MEMORY];
            memory[usize::from(address)] = first;
            let mut last_word = address;
            if let Some(word) = second {
                last_word = (address + 1) % 0o100000;
                memory[usize::from(last_word)] = word;
            }
            let mut row = drawing(address, mode);
            let points = lit(&mut row, Loan::ALL, &mut memory, beats);
            assert_eq!(points, [told(1, 0, last_word)], "mode {mode}");
        }
    }
}

/// The budgets end between two moves. What the words are by then does not matter, nor does the
/// loan.
#[test]
fn a_motion_remembers_the_last_word_of_its_command() {
    use place::*;
    let vector = [
        (X, 1),
        (Y, 1),
        (MOTION, 1),
        (LINE_MAGNITUDE_Y, 1),
        (LINE_MAGNITUDE_X, 2),
        (LINE_MOVES, 2),
        (LINE_DONE, 1),
        (LINE_LIT, 1),
        (LINE_LAST_WORD, 0o201),
    ];
    let increment = [
        (X, 1),
        (Y, 1),
        (MOTION, 2),
        (BYTES_WORD, 0o5150),
        (BYTES_SIDE, 1),
        (BYTES_MOVES_LEFT, 1),
        (BYTES_LAST_WORD, 0o200),
    ];
    for (mode, words, behind, motion, last_word) in [
        (2, [0o4001, 0o0002], 0o202, &vector[..], 0o201),
        (1, [0o5150, 0], 0o201, &increment, 0o200),
    ] {
        let mut memory = vec![0; MEMORY];
        memory[0o200..0o202].copy_from_slice(&words);
        let mut row = drawing(0o200, mode);
        let points = lit(&mut row, Loan::ALL, &mut memory, 2);
        assert_eq!(points, [told(1, 1, last_word)]);
        let mut moving = drawing(behind, mode);
        for &(place, number) in motion {
            moving.0[place] = number;
        }
        assert_eq!(row, moving);

        let points = lit(&mut row, NOTHING, &mut vec![4_096; MEMORY], 1);
        assert_eq!(points, [told(2, 1, last_word)]);
    }
}

/// The last word of a motion may lie anywhere. One move to the right lights the far corner.
#[test]
fn the_largest_entry_has_39_bits() {
    use place::*;
    let mut row = with_all(&[
        (ADDRESS, 5),
        (X, 1_022),
        (Y, 1_023),
        (STATE, 1),
        (MODE, 4),
        (INTENSITY, 7),
        (BLINK, 1),
        (RUNNING, 1),
        (MOTION, 1),
        (LINE_MAGNITUDE_X, 1),
        (LINE_MOVES, 1),
        (LINE_LIT, 1),
        (LINE_LAST_WORD, 0o77777),
    ]);
    let points = lit(&mut row, NOTHING, &mut vec![0; MEMORY], 1);
    assert_eq!(points, [(1 << 39) - 1]);
    let corner = Point {
        x: 1_023,
        y: 1_023,
        intensity: 7,
        blink: true,
        last_word: 0o77777,
    };
    assert_eq!(Point::of(points[0]), corner);
}

#[test]
fn a_run_on_no_points_and_no_running_display_ends_10() {
    let mut row = fresh();
    let answer = run(&mut row, Loan::ALL, &mut vec![0; MEMORY], &mut [], 0);
    assert_eq!(answer, just(ending::NOT_RUNNING));
    assert_eq!(row, fresh());
}

/// A push jump writes at the pointer and behind it: of a list range of one word the second write
/// is outside, and nothing is stored.
#[test]
fn a_run_tells_which_word_the_fence_stopped() {
    let mut memory = vec![0; MEMORY];
    memory[0o200..0o202].copy_from_slice(&[0o2010, 0o300]);
    let before = memory.clone();
    let loan = Loan {
        file_low: 0o200,
        file_high: 0o202,
        list_low: 0o7000,
        list_high: 0o7001,
    };
    let mut row = fresh();
    operate(&mut row, operation::START, 0o200);
    operate(&mut row, operation::SET_POINTER, 0o7000);
    let given = row;
    let answer = run(&mut row, loan, &mut memory, &mut [], 5);
    let stopped = Answer {
        address: 0o7001,
        ..just(ending::WRITE_OUTSIDE_LOAN)
    };
    assert_eq!(answer, stopped);
    assert_eq!((row, memory), (given, before));
}

/// The stop holds word 0500, which sets scale 1, and the address stays on it. Then the class
/// changes the word to 0600, which sets scale 2, and lends nothing: the word runs as it was.
#[test]
fn a_word_changed_during_a_stop_runs_as_it_was() {
    let mut memory = vec![0; MEMORY];
    memory[0o200] = 0o500;
    let mut row = asked_to_stop();
    let answer = run(&mut row, Loan::ALL, &mut memory, &mut [], 5);
    assert_eq!(answer, just(ending::EXTERNAL_STOP));
    let mut stopped = holding(0o500);
    stopped.0[place::EXTERNAL_STOP_FLAG] = 1;
    assert_eq!(row, stopped);
    assert_eq!(operate(&mut row, operation::READ_ADDRESS, 0), done(0o200));

    memory[0o200] = 0o600;
    assert_eq!(operate(&mut row, operation::RESUME, 0), done(0));
    let answer = run(&mut row, NOTHING, &mut memory, &mut [], 1);
    let one_beat = Answer {
        beats: 1,
        ..just(ending::BUDGET_SPENT)
    };
    assert_eq!(answer, one_beat);
    let used = with_all(&[
        (place::ADDRESS, 0o201),
        (place::SCALE, 1),
        (place::RUNNING, 1),
    ]);
    assert_eq!(row, used);
}

/// The next word is not lent, then lent and too wide: nothing changes, and the request stays. Once
/// the word can be fetched, it is held.
#[test]
fn a_stop_that_cannot_fetch_is_not_made() {
    let mut memory = vec![4_096; MEMORY];
    let outside = Answer {
        address: 0o200,
        ..just(ending::FETCH_OUTSIDE_LOAN)
    };
    let mut row = asked_to_stop();
    for (loan, answer) in [(NOTHING, outside), (Loan::ALL, just(ending::WIDE_WORD))] {
        assert_eq!(run(&mut row, loan, &mut memory, &mut [], 5), answer);
        assert_eq!(row, asked_to_stop());
    }
    memory[0o200] = 4_095;
    let answer = run(&mut row, Loan::ALL, &mut memory, &mut [], 5);
    assert_eq!(answer, just(ending::EXTERNAL_STOP));
    assert_eq!((row.0[place::HELD], row.0[place::HELD_WORD]), (1, 4_095));
}

/// Of a held jump the second word is fetched. While that is not lent, the jump is not made, and the
/// word stays held; the jump's own word need not be lent.
#[test]
fn second_words_are_fetched() {
    let mut memory = vec![0; MEMORY];
    memory[0o200..0o202].copy_from_slice(&[0o1400, 0o300]);
    let just_one = |word| Loan {
        file_low: word,
        file_high: word + 1,
        ..NOTHING
    };
    let mut row = holding(0o2000);
    operate(&mut row, operation::RESUME, 0);
    let given = row;
    let answer = run(&mut row, just_one(0o200), &mut memory, &mut [], 1);
    let outside = Answer {
        address: 0o201,
        ..just(ending::FETCH_OUTSIDE_LOAN)
    };
    assert_eq!(answer, outside);
    assert_eq!(row, given);

    let answer = run(&mut row, just_one(0o201), &mut memory, &mut [], 1);
    assert_eq!((answer.ending, answer.beats), (ending::BUDGET_SPENT, 1));
    let jumped = with_all(&[(place::ADDRESS, 0o300), (place::RUNNING, 1)]);
    assert_eq!(row, jumped);
}

/// Nothing is lent, and the word is too wide by then.
#[test]
fn a_second_stop_keeps_the_held_word() {
    let mut row = holding(0o500);
    operate(&mut row, operation::RESUME, 0);
    operate(&mut row, operation::ASK_TO_STOP, 0);
    let answer = run(&mut row, NOTHING, &mut vec![4_096; MEMORY], &mut [], 5);
    assert_eq!(answer, just(ending::EXTERNAL_STOP));
    let mut stopped = holding(0o500);
    stopped.0[place::EXTERNAL_STOP_FLAG] = 1;
    assert_eq!(row, stopped);
}

/// The graphplot word 0007 is held, and moves x right by one and sets y to 7. The word in memory is
/// another by then, and none is lent.
#[test]
fn a_held_word_is_told_by_the_address_it_is_used_at() {
    let mut row = holding(7);
    row.0[place::STATE] = 1;
    row.0[place::MODE] = 6;
    operate(&mut row, operation::RESUME, 0);
    let points = lit(&mut row, NOTHING, &mut vec![5; MEMORY], 1);
    assert_eq!(points, [told(1, 7, 0o200)]);
}

#[test]
fn start_and_clear_drop_the_held_word() {
    let started = with_all(&[(place::ADDRESS, 0o300), (place::RUNNING, 1)]);
    for (operation, operand, left) in [
        (operation::START, 0o300, started),
        (operation::CLEAR, 0, fresh()),
    ] {
        let mut row = holding(0o500);
        assert_eq!(operate(&mut row, operation, operand), done(0));
        assert_eq!(row, left);
    }
}

/// Each call has every fault from its own number on, so that the order is seen too.
#[test]
fn runs_are_refused_in_the_order_1_2_3_4() {
    let crossed = Loan {
        file_low: 1,
        file_high: 0,
        ..Loan::ALL
    };
    let above = Loan {
        list_high: 32_769,
        ..Loan::ALL
    };
    let bad = with(place::PEN_ENABLE, 2);
    for (row, loan, length, budget, number) in [
        (bad, crossed, MEMORY - 1, 65_536, ending::MEMORY_LENGTH),
        (bad, crossed, 0, 65_536, ending::MEMORY_LENGTH),
        (bad, crossed, MEMORY, u32::MAX, ending::BUDGET_TOO_LARGE),
        (bad, crossed, MEMORY, 65_535, ending::BAD_LOAN),
        (bad, above, MEMORY, 0, ending::BAD_LOAN),
        (bad, Loan::ALL, MEMORY, 0, ending::REGISTERS_OUT_OF_RANGE),
        (
            with(place::MODE, 8),
            Loan::ALL,
            MEMORY,
            0,
            ending::REGISTERS_OUT_OF_RANGE,
        ),
    ] {
        let mut left = row;
        let mut memory = vec![0o2010; length];
        let mut points = [7; 3];
        let answer = run(&mut left, loan, &mut memory, &mut points, budget);
        assert_eq!(answer, just(number));
        assert_eq!(left, row);
        assert_eq!(memory, vec![0o2010; length]);
        assert_eq!(points, [7; 3]);
    }
}

/// A stretch of words that begins in control state and mode 0.
fn control(low: u32, high: u32) -> Stretch {
    Stretch {
        low,
        high,
        state: 0,
        mode: 0,
    }
}

/// A refusal that tells no line.
fn refused<T>(number: u32) -> Result<T, Refusal> {
    Err(Refusal { number, line: 0 })
}

fn not_in_form<T>(line: u32) -> Result<T, Refusal> {
    Err(Refusal {
        number: ending::LINE_NOT_IN_FORM,
        line,
    })
}

/// Document 01's example as a listing; what stands behind it stays.
#[test]
fn words_are_listed_and_read_back() {
    let mut memory = vec![0; MEMORY];
    memory[0o200..0o204].copy_from_slice(&[0o1101, 0o4144, 0o4310, 0o1400]);
    let mut text = [b'?'; 60];
    let length = list(&memory, control(0o200, 0o204), &mut text).unwrap();
    let listing = b"00200 1101 POINT EDS\n00201 4144\n00202 4310\n00203 1400 STOP\n";
    assert_eq!(&text[..length], listing);
    assert_eq!(text[length..], [b'?']);

    let mut copy = vec![7; MEMORY];
    let mut wanted = copy.clone();
    wanted[0o200..0o204].copy_from_slice(&memory[0o200..0o204]);
    assert_eq!(read(listing, &mut copy, control(0o200, 0o204)), Ok(()));
    assert_eq!(copy, wanted);
}

/// Each line stands in one word's listing, so that all are measured; and a memory full of the word
/// that has the longest is as long as any.
#[test]
fn no_line_has_more_than_43_bytes() {
    let mut text = vec![0; LONGEST_LISTING];
    let mut memory = vec![0; MEMORY];
    let lengths = (0..4_096).map(|word| {
        memory[0] = word;
        list(&memory, control(0, 1), &mut text).unwrap()
    });
    assert_eq!(lengths.max(), Some(LONGEST_LISTING / MEMORY));
    assert_eq!(LONGEST_LISTING / MEMORY, 43);

    let memory = vec![0o6277; MEMORY];
    let all = control(0, MEMORY as u32);
    assert_eq!(list(&memory, all, &mut text), Ok(LONGEST_LISTING));
    let short = &mut text[1..];
    assert_eq!(list(&memory, all, short), refused(ending::TEXT_TOO_SHORT));
}

/// Each call has every fault from its own number on, so that the order is seen too.
#[test]
fn listings_are_refused_in_the_order_1_3_6_24_23() {
    let crossed = Stretch {
        state: 2,
        ..control(1, 0)
    };
    let above = Stretch {
        mode: 8,
        ..control(0, 32_769)
    };
    let far = Stretch {
        mode: 8,
        ..control(65_536, 65_537)
    };
    let started = |state, mode| Stretch {
        state,
        mode,
        ..control(0, 1)
    };
    for (stretch, length, word, number) in [
        (crossed, MEMORY - 1, 4_096, ending::MEMORY_LENGTH),
        (crossed, MEMORY + 1, 4_096, ending::MEMORY_LENGTH),
        (crossed, 0, 4_096, ending::MEMORY_LENGTH),
        (crossed, MEMORY, 4_096, ending::BAD_LOAN),
        (above, MEMORY, 4_096, ending::BAD_LOAN),
        (far, MEMORY, 4_096, ending::BAD_LOAN),
        (started(2, 0), MEMORY, 4_096, ending::OPERAND_OUT_OF_RANGE),
        (started(0, 8), MEMORY, 4_096, ending::OPERAND_OUT_OF_RANGE),
        (started(256, 0), MEMORY, 4_096, ending::OPERAND_OUT_OF_RANGE),
        (
            started(0, u32::MAX),
            MEMORY,
            4_096,
            ending::OPERAND_OUT_OF_RANGE,
        ),
        (started(1, 7), MEMORY, 4_096, ending::WIDE_WORD_IN_RANGE),
        (started(1, 7), MEMORY, 4_095, ending::TEXT_TOO_SHORT),
    ] {
        let memory = vec![word; length];
        let mut text = [b'?'; 10];
        assert_eq!(list(&memory, stretch, &mut text), refused(number));
        assert_eq!(text, [b'?'; 10]);
    }
}

/// A refused reading changes no word, also none of the lines in form before the first that is not.
#[test]
fn readings_are_refused_in_the_order_1_3_6_7() {
    let crossed = Stretch {
        state: 2,
        ..control(1, 0)
    };
    let mode_8 = Stretch {
        mode: 8,
        ..control(0, 2)
    };
    let text = b"00000 1400 STOP\n00001 1400\n";
    for (stretch, length, answer) in [
        (crossed, MEMORY - 1, refused(ending::MEMORY_LENGTH)),
        (crossed, MEMORY, refused(ending::BAD_LOAN)),
        (mode_8, MEMORY, refused(ending::OPERAND_OUT_OF_RANGE)),
        (control(0, 2), MEMORY, not_in_form(2)),
        (control(0, 1), MEMORY, not_in_form(2)),
        (control(0, 0), MEMORY, not_in_form(1)),
        (control(1, 2), MEMORY, not_in_form(1)),
    ] {
        let mut memory = vec![7; length];
        assert_eq!(read(text, &mut memory, stretch), answer);
        assert_eq!(memory, vec![7; length]);
    }
}

#[test]
fn a_refusal_says_its_number_and_its_line() {
    let text = |number, line| Refusal { number, line }.to_string();
    assert_eq!(text(ending::TEXT_TOO_SHORT, 0), "refused as 23");
    assert_eq!(
        text(ending::LINE_NOT_IN_FORM, 4),
        "refused as 7: line 4 is not in form"
    );
}
