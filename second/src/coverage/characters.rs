//! What is reached of 02, No. 6: character words, table words, routines, and characters that a call
//! is given or a run leaves unfinished.

use super::points::entry;
use super::stops::{state_of, states};
use super::{peek, table_place, Coverage, Turn, OPERATIONS};
use crate::refusals_and_endings::{Answer, Ending};
use crate::registers::{
    address_after, byte_escapes, byte_moves, byte_of, Bytes, Character, Line, Motion, Registers,
    Routine, Side, Stage, State, ADDRESSES, GREATEST_MAGNITUDE, SECTOR,
};
use crate::words::{bit, field, GREATEST_WORD};

pub const ENTRY_DIFFERS: &str =
    "point of a routine with another entry than its beam, look and routine word (should be 0)";
pub const ROUTINE_DIFFERS: &str =
    "routine that goes on with another word than the next (should be 0)";

/// How far an unfinished character is.
const STAGES: [&str; 6] = [
    BEFORE_TABLE,
    "before an increment word",
    "before a short vector",
    "in a left byte",
    "in a right byte",
    "in a line",
];
const BEFORE_TABLE: &str = "before its table word";

/// Which character of its word it is. A right one of seven bits can only be handed in.
const CHARACTERS: [&str; 4] = [
    "left of six bits",
    "right of six bits",
    "of seven bits",
    "right of seven bits",
];

/// The forms of a table word.
const FORMS: [&str; 6] = [
    "dispatch to increment words",
    "dispatch to short vectors",
    "parameter character",
    "table character",
    "miscellaneous character",
    "unused form",
];

/// What a character may be refused for.
const FAULTS: [&str; 16] = [
    "a starting address register of 64",
    "a starting address register above 64",
    "a character word",
    "the next routine word of 32,768",
    "the next routine word above 32,768",
    "an increment word",
    "no moves left",
    "too many moves left",
    "the address of an increment word",
    "a magnitude of y",
    "a magnitude of x",
    "n above the larger magnitude",
    "n below the larger magnitude",
    "n of 0",
    "k not below n",
    "the address of a short vector",
];

/// The bits of operation 31's word, and those that operation 30 does not take.
const READ_BITS: [u16; 4] = [0, 1, 3, 4];
const OTHER_BITS: [u16; 4] = [0, 1, 2, 5];

pub fn row_names() -> Vec<String> {
    let mut names = call_row_names();
    names.extend(operation_row_names());
    names.extend(word_row_names());
    names.extend(control_row_names());
    names.extend(routine_row_names());
    names.extend(ending_row_names());
    names
}

fn call_row_names() -> Vec<String> {
    let mut names = Vec::new();
    for call in ["operation", "run"] {
        for stage in STAGES {
            names.push(format!("{call} with a character {stage}"));
        }
        for character in CHARACTERS {
            names.push(format!("{call} with a character, {character}"));
        }
        for state in states() {
            names.push(format!("{call} with a character in {state}"));
        }
        for what in [
            "in a right byte behind a left one that escapes",
            "in a line with a magnitude above 15",
            "of another code size than the register's",
            "and a held word",
            "and a stop request",
        ] {
            names.push(format!("{call} with a character {what}"));
        }
        for fault in FAULTS {
            names.push(format!("{call} refused 4 for {fault}"));
        }
    }
    names
}

fn operation_row_names() -> Vec<String> {
    let mut names = Vec::new();
    for operation in OPERATIONS {
        names.push(format!("operation {operation} with a character unfinished"));
    }
    names.push("resume of a stopped display with a character unfinished".into());
    names.push("pen light stopping a display with a character unfinished".into());
    for case in [0, 1] {
        for size in ["six", "seven"] {
            names.push(format!("operation 30 setting case {case}, {size} bits"));
        }
    }
    for stage in STAGES {
        names.push(format!("operation 30 with a character {stage}"));
        names.push(format!("operation 31 with a character {stage}"));
    }
    for place in OTHER_BITS {
        names.push(format!("operation 30 refused 6 for bit {place}"));
    }
    names.push("operation 30 refused 6 above 4,095".into());
    names.push("operation 31 refused 6".into());
    for place in READ_BITS {
        for value in ["off", "on"] {
            names.push(format!("operation 31 with bit {place} {value}"));
        }
    }
    names.push("operation 31 in a right character without bit 0".into());
    names.push("operation 31 in control state, mode 5".into());
    names.push("status 2 with the byte bit on in a routine".into());
    names.push("status 2 with the byte bit off in a right character".into());
    names
}

fn word_row_names() -> Vec<String> {
    let mut names = Vec::new();
    for size in ["six", "seven"] {
        for origin in ["fetched", "held"] {
            names.push(format!("character word of {size} bits {origin}"));
            names.push(format!("character word of {size} bits {origin} at 77777o"));
        }
    }
    for form in FORMS {
        for character in CHARACTERS {
            names.push(format!("{form}, {character}"));
        }
    }
    for case in [0, 1] {
        for size in ["six", "seven"] {
            names.push(format!("table word of {size} bits, case {case}"));
        }
    }
    for address in ["0o", "77177o"] {
        names.push(format!("table word at {address}"));
    }
    for word in ["off", "on"] {
        for register in ["off", "on"] {
            names.push(format!(
                "dispatch with the shared bit {word} in the word and {register} in the register"
            ));
        }
    }
    for what in ["case", "register"] {
        names.push(format!(
            "right character behind a left one that set the {what}"
        ));
    }
    names.push("right character of six bits behind a left one that set seven".into());
    names
}

fn control_row_names() -> Vec<String> {
    let mut names = Vec::new();
    for what in ["scale", "pen", "intensity"] {
        names.push(format!("parameter character with {what}"));
        names.push(format!("parameter character without {what}"));
    }
    for what in [
        "with bit 5 and without bit 6",
        "turning the pen off",
        "turning the pen on",
        "turning the pen off under hold",
    ] {
        names.push(format!("parameter character {what}"));
    }
    for before in [0, 1] {
        for after in [0, 1] {
            names.push(format!("table character, case {before} to {after}"));
        }
    }
    for digits in ["no", "the upper", "the lower", "both"] {
        names.push(format!("table character for {digits} digits"));
    }
    names.push("table character with digits and for none".into());
    for before in ["six", "seven"] {
        for after in ["six", "seven"] {
            names.push(format!("miscellaneous character, {before} to {after} bits"));
        }
    }
    for what in [
        "with bit 4 and without bit 3",
        "with the return in sector 0",
        "with the return in another sector",
        "counting the scale up",
        "counting the scale down",
        "counting the scale up at its end",
        "counting the scale down at its end",
        "counting the intensity up",
        "counting the intensity down",
        "counting the intensity up at its end",
        "counting the intensity down at its end",
        "with a count's direction and no count",
        "with the spare bit",
        "with the escape and all else",
    ] {
        names.push(format!("miscellaneous character {what}"));
    }
    for character in CHARACTERS {
        names.push(format!("escape by a character, {character}"));
    }
    for mode in 0..=7 {
        names.push(format!("escape by a character in data state, mode {mode}"));
    }
    names.push("escape by a character in control state".into());
    for what in [
        "on the last beat of the budget",
        "with a stop request",
        "with pen hold",
        "leaving the right character",
        "leaving nothing",
    ] {
        names.push(format!("unused form {what}"));
    }
    names
}

fn routine_row_names() -> Vec<String> {
    let mut names = Vec::new();
    for what in [
        "increment word without an escape",
        "increment word with an escape in the left byte",
        "increment word with an escape in the right byte",
        "zero vector without an escape",
        "zero vector with an escape",
        "short vector without an escape",
        "short vector with an escape",
    ] {
        names.push(format!("routine's {what}"));
        names.push(format!("routine's {what}, at 77777o"));
    }
    for stage in &STAGES[3..] {
        for what in [
            "",
            ", the character ended",
            ", the character word ended",
            ", lit",
            ", lit by condition bit 8 alone",
            ", lit by a word at 0o",
            ", lit by a word at 77777o",
            ", lit by a word handed in",
            ", lit by a word that is fetched",
            ", over an edge that stops",
            ", over an edge that bit 9 ignores",
            ", over an edge that stops, the character ended",
        ] {
            names.push(format!("move of a routine {stage}{what}"));
        }
    }
    for stage in &STAGES[4..] {
        names.push(format!("move of a routine {stage}, the routine going on"));
        names.push(format!(
            "move of a routine {stage}, the routine going on at 0o"
        ));
    }
    for state in states() {
        names.push(format!("character beat in {state}"));
        names.push(format!("move of a routine in {state}"));
    }
    names.push("line of a routine ended in data state, mode 3".into());
    names.push("line of a routine over an edge in data state, mode 3".into());
    for bits in ["neither", "bit 8", "bit 9", "bits 8 and 9"] {
        names.push(format!("move of a routine, {bits} of the conditions on"));
    }
    for fetch in ["character word", "table word", "routine word"] {
        names.push(format!("pen hold ended by a {fetch}"));
        names.push(format!("word above 4,095 at a {fetch}"));
    }
    names.push("pen hold kept by a move of a routine".into());
    names.push("fenced at character word".into());
    for (touch, last) in [("table word", 0o77177), ("routine word", 0o77777)] {
        names.push(format!("fenced at {touch}"));
        names.push(format!("fenced at {touch}, word {last:o}o"));
        names.push(format!("fenced at {touch}, word 0o"));
    }
    names
}

fn ending_row_names() -> Vec<String> {
    let mut names = Vec::new();
    for (ending, stages) in [
        (11, &STAGES[..]),
        (14, &STAGES[..]),
        (15, &STAGES[..1]),
        (16, &STAGES[..3]),
        (17, &STAGES[..3]),
        (18, &STAGES[3..]),
    ] {
        for stage in stages {
            names.push(format!("character {stage} left by ending {ending}"));
        }
    }
    for ending in [11, 13, 14, 15, 16, 17] {
        names.push(format!("ending {ending} behind a character word"));
    }
    names.push("ending 12 behind a character word and no other word".into());
    names.push("stop request waiting in a character".into());
    names.push("stop behind the escape of a left character".into());
    names.push("held word kept by a character's fetch".into());
    names
}

/// One of `STAGES`.
fn stage_of(stage: &Stage) -> &'static str {
    match stage {
        Stage::TableWord => STAGES[0],
        Stage::RoutineWord(routine) if !routine.short_vectors => STAGES[1],
        Stage::RoutineWord(_) => STAGES[2],
        Stage::Bytes(bytes) if bytes.side == Side::Left => STAGES[3],
        Stage::Bytes(_) => STAGES[4],
        Stage::Line(_) => STAGES[5],
    }
}

/// One of `CHARACTERS`.
fn character_of(character: &Character) -> &'static str {
    let right = usize::from(character.side == Side::Right);
    CHARACTERS[right + if character.seven_bits { 2 } else { 0 }]
}

fn size(seven_bits: bool) -> &'static str {
    if seven_bits {
        "seven"
    } else {
        "six"
    }
}

fn on_or_off(on: bool) -> &'static str {
    if on {
        "on"
    } else {
        "off"
    }
}

/// The unfinished character, if there is one.
fn character_in(registers: &Registers) -> Option<Character> {
    match registers.motion {
        Motion::Character(character) => Some(character),
        Motion::Nothing | Motion::Line(_) | Motion::Bytes(_) => None,
    }
}

// ---------------------------------------------------------------- calls

/// The registers that an accepted call was given.
pub fn registers_reached(coverage: &mut Coverage, call: &str, given: &Registers) {
    let Some(character) = character_in(given) else {
        return;
    };
    let escaping_left =
        |bytes: &Bytes| bytes.side == Side::Right && byte_escapes(byte_of(bytes.word, Side::Left));
    let behind_an_escape = matches!(&character.stage, Stage::Bytes(bytes) if escaping_left(bytes));
    let long = matches!(&character.stage, Stage::Line(line) if line.moves > 15);
    for (reached, what) in [
        (true, format!(" {}", stage_of(&character.stage))),
        (true, format!(", {}", character_of(&character))),
        (true, format!(" in {}", state_of(given))),
        (
            behind_an_escape,
            " in a right byte behind a left one that escapes".into(),
        ),
        (long, " in a line with a magnitude above 15".into()),
        (
            character.seven_bits != given.seven_bit_codes,
            " of another code size than the register's".into(),
        ),
        (given.word_is_held, " and a held word".into()),
        (given.stop_request, " and a stop request".into()),
    ] {
        coverage.count_if(reached, &format!("{call} with a character{what}"));
    }
}

/// The registers that a call was refused for. They have no more than one fault.
pub fn refusal_reached(coverage: &mut Coverage, call: &str, given: &Registers, refusal: Ending) {
    if refusal != Ending::RegistersOutOfRange {
        return;
    }
    let fault = match given.starting_address {
        0..=63 => character_in(given).and_then(|character| fault_of(&character)),
        64 => Some(FAULTS[0]),
        _ => Some(FAULTS[1]),
    };
    if let Some(fault) = fault {
        coverage.count(&format!("{call} refused 4 for {fault}"));
    }
}

/// One of `FAULTS`.
fn fault_of(character: &Character) -> Option<&'static str> {
    if character.word > GREATEST_WORD {
        return Some(FAULTS[2]);
    }
    let place = match character.stage {
        Stage::TableWord => return None,
        Stage::RoutineWord(routine) if routine.next == ADDRESSES => 3,
        Stage::RoutineWord(_) => 4,
        Stage::Bytes(bytes) if bytes.word > GREATEST_WORD => 5,
        Stage::Bytes(bytes) if bytes.moves_left == 0 => 6,
        Stage::Bytes(bytes) if bytes.moves_left > byte_moves(bytes.byte()) => 7,
        Stage::Bytes(_) => 8,
        Stage::Line(line) if line.y_magnitude > GREATEST_MAGNITUDE => 9,
        Stage::Line(line) if line.x_magnitude > GREATEST_MAGNITUDE => 10,
        Stage::Line(line) if line.moves > line.y_magnitude.max(line.x_magnitude) => 11,
        Stage::Line(line) if line.moves < line.y_magnitude.max(line.x_magnitude) => 12,
        Stage::Line(line) if line.moves == 0 => 13,
        Stage::Line(line) if line.done >= line.moves => 14,
        Stage::Line(_) => 15,
    };
    Some(FAULTS[place])
}

pub fn operation_refused(coverage: &mut Coverage, operation: u32, operand: u32, refusal: Ending) {
    if refusal != Ending::OperandOutOfRange {
        return;
    }
    match operation {
        30 if operand > u32::from(GREATEST_WORD) => {
            coverage.count("operation 30 refused 6 above 4,095");
        }
        30 => {
            for place in OTHER_BITS {
                let alone = operand & !0o0677 == 0o4000 >> place;
                coverage.count_if(alone, &format!("operation 30 refused 6 for bit {place}"));
            }
        }
        31 => coverage.count("operation 31 refused 6"),
        _ => {}
    }
}

pub fn operation_reached(
    coverage: &mut Coverage,
    before: &Registers,
    after: &Registers,
    operation: u32,
    word: u16,
) {
    match operation {
        30 => {
            let (case, size) = (u16::from(after.upper_case), size(after.seven_bit_codes));
            coverage.count(&format!("operation 30 setting case {case}, {size} bits"));
        }
        31 => {
            for place in READ_BITS {
                let value = on_or_off(bit(word, place));
                coverage.count(&format!("operation 31 with bit {place} {value}"));
            }
            coverage.count_if(
                bit(word, 1) && !bit(word, 0),
                "operation 31 in a right character without bit 0",
            );
            coverage.count_if(
                before.state == State::Control && before.mode == 5,
                "operation 31 in control state, mode 5",
            );
        }
        _ => {}
    }
    let Some(character) = character_in(before) else {
        return;
    };
    coverage.count(&format!(
        "operation {operation} with a character unfinished"
    ));
    let stage = stage_of(&character.stage);
    coverage.count(&format!("operation {operation} with a character {stage}"));
    for (reached, what) in [
        (
            operation == 4 && !before.running,
            "resume of a stopped display with a character unfinished",
        ),
        (
            operation == 7 && before.running && !after.running,
            "pen light stopping a display with a character unfinished",
        ),
        (
            operation == 25 && bit(word, 0),
            "status 2 with the byte bit on in a routine",
        ),
        (
            operation == 25 && !bit(word, 0) && character.side == Side::Right,
            "status 2 with the byte bit off in a right character",
        ),
    ] {
        coverage.count_if(reached, what);
    }
}

// ---------------------------------------------------------------- turns

/// A turn that made a beat; `is_last` tells that it spent the budget.
pub fn beat_reached(
    coverage: &mut Coverage,
    turn: &Turn,
    memory: &[u16],
    answer: Answer,
    is_last: bool,
) {
    let (before, after) = (turn.before, turn.after);
    let Some(character) = character_in(before) else {
        if before.motion == Motion::Nothing && before.state == State::Data && before.mode == 5 {
            character_word_reached(coverage, before);
        }
        return;
    };
    let state = state_of(before);
    coverage.count(&format!("character beat in {state}"));
    coverage.count_if(before.stop_request, "stop request waiting in a character");
    let fetch = match character.stage {
        Stage::TableWord => {
            let word = peek(memory, table_place(before, &character));
            table_word_reached(coverage, turn, &character, word);
            unused_form_reached(coverage, turn, word, is_last);
            Some("table word")
        }
        Stage::RoutineWord(routine) => {
            routine_word_reached(coverage, turn, routine, peek(memory, routine.next));
            Some("routine word")
        }
        Stage::Bytes(bytes) => {
            move_reached(coverage, turn, &character, bytes.last_word, answer);
            None
        }
        Stage::Line(line) => {
            move_reached(coverage, turn, &character, line.last_word, answer);
            line_reached(coverage, turn, &line);
            None
        }
    };
    match fetch {
        Some(fetch) => {
            let ended = before.pen_hold && !after.pen_hold;
            coverage.count_if(ended, &format!("pen hold ended by a {fetch}"));
            coverage.count_if(after.word_is_held, "held word kept by a character's fetch");
        }
        None => coverage.count_if(after.pen_hold, "pen hold kept by a move of a routine"),
    }
}

fn character_word_reached(coverage: &mut Coverage, before: &Registers) {
    let size = size(before.seven_bit_codes);
    let origin = if before.word_is_held {
        "held"
    } else {
        "fetched"
    };
    coverage.count(&format!("character word of {size} bits {origin}"));
    let address = before.display_address;
    coverage.count(&format!(
        "character word of {size} bits {origin} at {address:o}o"
    ));
    coverage.count_if(before.pen_hold, "pen hold ended by a character word");
}

/// One of `FORMS`.
fn form_of(word: u16) -> usize {
    match field(word, 0, 2) {
        0 | 1 => 0,
        2 | 3 => 1,
        form => usize::from(form) - 2,
    }
}

fn table_word_reached(coverage: &mut Coverage, turn: &Turn, character: &Character, word: u16) {
    let before = turn.before;
    let form = form_of(word);
    let which = character_of(character);
    coverage.count(&format!("{}, {which}", FORMS[form]));
    let (size, case) = (size(character.seven_bits), u16::from(before.upper_case));
    coverage.count(&format!("table word of {size} bits, case {case}"));
    let address = table_place(before, character);
    coverage.count(&format!("table word at {address:o}o"));
    match form {
        0 | 1 => {
            let in_word = on_or_off(bit(word, 2));
            let in_register = on_or_off(before.starting_address % 2 == 1);
            coverage.count(&format!(
                "dispatch with the shared bit {in_word} in the word and {in_register} in the register"
            ));
        }
        2 => parameter_reached(coverage, before, word),
        3 => table_character_reached(coverage, before, turn.after, word),
        4 => miscellaneous_reached(coverage, before, turn.after, word, which),
        _ => {}
    }
    let right_to_come = character_in(turn.after).is_some_and(|next| next.side != character.side);
    if right_to_come {
        let after = turn.after;
        for (reached, what) in [
            (after.upper_case != before.upper_case, "that set the case"),
            (
                after.starting_address != before.starting_address,
                "that set the register",
            ),
        ] {
            coverage.count_if(
                reached,
                &format!("right character behind a left one {what}"),
            );
        }
        coverage.count_if(
            after.seven_bit_codes && !before.seven_bit_codes,
            "right character of six bits behind a left one that set seven",
        );
    }
}

fn parameter_reached(coverage: &mut Coverage, before: &Registers, word: u16) {
    for (place, what) in [(3, "scale"), (6, "pen"), (8, "intensity")] {
        let with = if bit(word, place) { "with" } else { "without" };
        coverage.count(&format!("parameter character {with} {what}"));
    }
    let turned_off = bit(word, 6) && !bit(word, 7);
    for (reached, what) in [
        (
            bit(word, 5) && !bit(word, 6),
            "with bit 5 and without bit 6",
        ),
        (turned_off && before.pen_enable, "turning the pen off"),
        (
            bit(word, 6) && bit(word, 7) && !before.pen_enable,
            "turning the pen on",
        ),
        (
            turned_off && before.pen_hold,
            "turning the pen off under hold",
        ),
    ] {
        coverage.count_if(reached, &format!("parameter character {what}"));
    }
}

fn table_character_reached(
    coverage: &mut Coverage,
    before: &Registers,
    after: &Registers,
    word: u16,
) {
    let (old, new) = (u16::from(before.upper_case), u16::from(after.upper_case));
    coverage.count(&format!("table character, case {old} to {new}"));
    let digits = match (bit(word, 4), bit(word, 5)) {
        (false, false) => "no",
        (true, false) => "the upper",
        (false, true) => "the lower",
        (true, true) => "both",
    };
    coverage.count(&format!("table character for {digits} digits"));
    coverage.count_if(
        digits == "no" && field(word, 6, 11) > 0,
        "table character with digits and for none",
    );
}

fn miscellaneous_reached(
    coverage: &mut Coverage,
    before: &Registers,
    after: &Registers,
    word: u16,
    which: &str,
) {
    if bit(word, 3) {
        let (old, new) = (size(before.seven_bit_codes), size(after.seven_bit_codes));
        coverage.count(&format!("miscellaneous character, {old} to {new} bits"));
    }
    for (counts, down, value, greatest, what) in [
        (7, 8, before.scale, 3, "scale"),
        (9, 10, before.intensity, 7, "intensity"),
    ] {
        if bit(word, counts) {
            let (way, end) = if bit(word, down) {
                ("down", 0)
            } else {
                ("up", greatest)
            };
            let at_its_end = if value == end { " at its end" } else { "" };
            coverage.count(&format!(
                "miscellaneous character counting the {what} {way}{at_its_end}"
            ));
        }
    }
    let no_count = |counts, down| bit(word, down) && !bit(word, counts);
    for (reached, what) in [
        (
            bit(word, 4) && !bit(word, 3),
            "with bit 4 and without bit 3",
        ),
        (
            bit(word, 5) && before.x < SECTOR,
            "with the return in sector 0",
        ),
        (
            bit(word, 5) && before.x >= SECTOR,
            "with the return in another sector",
        ),
        (
            no_count(7, 8) || no_count(9, 10),
            "with a count's direction and no count",
        ),
        (bit(word, 11), "with the spare bit"),
        (
            [3, 5, 6, 7, 9].iter().all(|&place| bit(word, place)),
            "with the escape and all else",
        ),
    ] {
        coverage.count_if(reached, &format!("miscellaneous character {what}"));
    }
    if bit(word, 6) {
        let state = state_of(before);
        coverage.count(&format!("escape by a character, {which}"));
        coverage.count(&format!("escape by a character in {state}"));
    }
}

fn unused_form_reached(coverage: &mut Coverage, turn: &Turn, word: u16, is_last: bool) {
    if form_of(word) != 5 {
        return;
    }
    let leaves = turn.after.motion != Motion::Nothing;
    for (reached, what) in [
        (is_last, "on the last beat of the budget"),
        (turn.after.stop_request, "with a stop request"),
        (turn.before.pen_hold, "with pen hold"),
        (leaves, "leaving the right character"),
        (!leaves, "leaving nothing"),
    ] {
        coverage.count_if(reached, &format!("unused form {what}"));
    }
}

fn routine_word_reached(coverage: &mut Coverage, turn: &Turn, routine: Routine, word: u16) {
    let escapes = |side| byte_escapes(byte_of(word, side));
    let zero = field(word, 2, 5) == 0 && field(word, 8, 11) == 0;
    let what = match (routine.short_vectors, zero, bit(word, 6)) {
        (false, _, _) if escapes(Side::Left) => "increment word with an escape in the left byte",
        (false, _, _) if escapes(Side::Right) => "increment word with an escape in the right byte",
        (false, _, _) => "increment word without an escape",
        (true, true, false) => "zero vector without an escape",
        (true, true, true) => "zero vector with an escape",
        (true, false, false) => "short vector without an escape",
        (true, false, true) => "short vector with an escape",
    };
    coverage.count(&format!("routine's {what}"));
    let address = routine.next;
    coverage.count(&format!("routine's {what}, at {address:o}o"));
    let left = routine_address_of(turn.after);
    coverage.count_if(
        left.is_some_and(|left| left != Ok(address) && left != Err(address_after(address, 1))),
        ROUTINE_DIFFERS,
    );
}

/// Where the routine of an unfinished character is: in the moves of a word, or before one.
fn routine_address_of(registers: &Registers) -> Option<Result<u16, u16>> {
    match character_in(registers)?.stage {
        Stage::TableWord => None,
        Stage::RoutineWord(routine) => Some(Err(routine.next)),
        Stage::Bytes(bytes) => Some(Ok(bytes.last_word)),
        Stage::Line(line) => Some(Ok(line.last_word)),
    }
}

/// A move of a routine word at this address.
fn move_reached(
    coverage: &mut Coverage,
    turn: &Turn,
    character: &Character,
    address: u16,
    answer: Answer,
) {
    let (before, after) = (turn.before, turn.after);
    let stage = stage_of(&character.stage);
    let left = routine_address_of(after);
    let next = address_after(address, 1);
    coverage.count_if(
        left.is_some_and(|left| left != Ok(address) && left != Err(next)),
        ROUTINE_DIFFERS,
    );
    if let Some(point) = turn.point {
        coverage.count_if(point != entry(after, address), ENTRY_DIFFERS);
    }
    // No move is longer than 8.
    let violated = before.x.abs_diff(after.x) > 8 || before.y.abs_diff(after.y) > 8;
    let asked = match character.stage {
        Stage::Bytes(bytes) => bytes.byte() >= 0o40,
        Stage::Line(line) => line.lit,
        Stage::TableWord | Stage::RoutineWord(_) => false,
    };
    let lit = answer.points == 1;
    let ended = left.is_none();
    let stops = violated && !after.running;
    for (reached, what) in [
        (true, ""),
        (ended, ", the character ended"),
        (
            after.motion == Motion::Nothing,
            ", the character word ended",
        ),
        (left == Some(Err(next)), ", the routine going on"),
        (left == Some(Err(0)), ", the routine going on at 0o"),
        (lit, ", lit"),
        (lit && !asked, ", lit by condition bit 8 alone"),
        (lit && address == 0, ", lit by a word at 0o"),
        (lit && address == 0o77777, ", lit by a word at 77777o"),
        (lit && turn.handed_in, ", lit by a word handed in"),
        (lit && !turn.handed_in, ", lit by a word that is fetched"),
        (stops, ", over an edge that stops"),
        (
            stops && ended,
            ", over an edge that stops, the character ended",
        ),
        (violated && !stops, ", over an edge that bit 9 ignores"),
    ] {
        coverage.count_if(reached, &format!("move of a routine {stage}{what}"));
    }
    let bits = match (before.condition(8), before.condition(9)) {
        (false, false) => "neither",
        (true, false) => "bit 8",
        (false, true) => "bit 9",
        (true, true) => "bits 8 and 9",
    };
    coverage.count(&format!("move of a routine, {bits} of the conditions on"));
    let state = state_of(before);
    coverage.count(&format!("move of a routine in {state}"));
}

/// A move of a routine's line, which is no vector continue in mode 3 either.
fn line_reached(coverage: &mut Coverage, turn: &Turn, line: &Line) {
    let (before, after) = (turn.before, turn.after);
    if before.state == State::Data && before.mode == 3 {
        coverage.count_if(
            line.done + 1 == line.moves && !matches!(after.motion, Motion::Line(_)),
            "line of a routine ended in data state, mode 3",
        );
        let stopped = after.vertical_edge_flag && !before.vertical_edge_flag
            || after.horizontal_edge_flag && !before.horizontal_edge_flag;
        coverage.count_if(
            stopped && !after.running,
            "line of a routine over an edge in data state, mode 3",
        );
    }
}

/// The last turn of a run. `behind` tells that the turn before it, or itself if it made a beat, ended
/// a character word.
pub fn ending_reached(coverage: &mut Coverage, turn: &Turn, ending: Ending, behind: bool) {
    let number = ending.number();
    if let Some(character) = character_in(turn.after) {
        let stage = stage_of(&character.stage);
        coverage.count(&format!("character {stage} left by ending {number}"));
    } else if behind {
        coverage.count(&format!("ending {number} behind a character word"));
    }
    coverage.count_if(
        ending == Ending::InternalStop && turn.behind_a_character,
        "ending 12 behind a character word and no other word",
    );
    coverage.count_if(
        ending == Ending::ExternalStop && turn.behind_a_character && turn.behind_an_escape,
        "stop behind the escape of a left character",
    );
}

/// A fetch of mode 5 or of a character that could not be made.
pub fn barred_fetch_reached(coverage: &mut Coverage, before: &Registers, ending: Ending) {
    let in_mode_5 = before.state == State::Data && before.mode == 5;
    let fetch = match before.motion {
        Motion::Nothing if in_mode_5 && !before.stop_request => "character word",
        Motion::Character(character) => match character.stage {
            Stage::TableWord => "table word",
            Stage::RoutineWord(_) => "routine word",
            Stage::Bytes(_) | Stage::Line(_) => return,
        },
        _ => return,
    };
    coverage.count_if(
        ending == Ending::WordTooWide,
        &format!("word above 4,095 at a {fetch}"),
    );
    coverage.count_if(
        matches!(ending, Ending::FetchOutsideLoan(_)) && fetch == "character word",
        "fenced at character word",
    );
}
