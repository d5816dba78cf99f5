//! How often a stream of cases reaches each rule, seen from outside by runs of one beat each.

mod characters;
mod points;
mod stops;

use std::collections::HashMap;
use std::fmt;

use crate::data_words::{x_dimension, y_dimension};
use crate::generate::{
    next_case_and_change, Chance, DAMAGES, OTHER_MODE, OTHER_RANGE, OTHER_STATE, RIGHT,
};
use crate::host_operations::operate;
use crate::listing::{ListingRefusal, Part, Place, MNEMONICS};
use crate::refusals_and_endings::{Answer, Ending, Loan, MEMORY_LENGTH};
use crate::registers::{
    address_after, pointer_after, pointer_before, Character, Motion, Registers, Side, Stage, State,
};
use crate::replay::{Case, GivenMemory, ListCase, ReadCase, RunCase};
use crate::turn::run;
use crate::words::{bit, field, GREATEST_WORD};

/// The rows of the report, in the order in which they are printed.
pub struct Coverage {
    rows: Vec<(String, u64)>,
    places: HashMap<String, usize>,
}

impl Coverage {
    /// Every row from the start, so that one never reached shows as 0.
    fn new() -> Coverage {
        let mut coverage = Coverage {
            rows: Vec::new(),
            places: HashMap::new(),
        };
        for name in row_names() {
            coverage.places.insert(name.clone(), coverage.rows.len());
            coverage.rows.push((name, 0));
        }
        coverage
    }

    fn count(&mut self, name: &str) {
        if let Some(row) = self
            .places
            .get(name)
            .and_then(|&place| self.rows.get_mut(place))
        {
            row.1 += 1;
        }
    }

    fn count_if(&mut self, reached: bool, name: &str) {
        if reached {
            self.count(name);
        }
    }

    /// The names of the rows that were never reached, apart from those that should not be.
    pub fn never_reached(&self) -> Vec<&str> {
        self.names_where(|name, count| count == 0 && !SHOULD_BE_0.contains(&name))
    }

    /// The names of the rows that were reached and should not be.
    pub fn wrongly_reached(&self) -> Vec<&str> {
        self.names_where(|name, count| count > 0 && SHOULD_BE_0.contains(&name))
    }

    fn names_where(&self, wanted: impl Fn(&str, u64) -> bool) -> Vec<&str> {
        let rows = self.rows.iter().map(|row| (row.0.as_str(), row.1));
        rows.filter(|&(name, count)| wanted(name, count))
            .map(|(name, _)| name)
            .collect()
    }
}

impl fmt::Display for Coverage {
    fn fmt(&self, formatter: &mut fmt::Formatter) -> fmt::Result {
        for (name, count) in &self.rows {
            writeln!(formatter, "{count:>9}  {name}")?;
        }
        Ok(())
    }
}

const STEPWISE_DIFFERS: &str = "run differs from its beats one by one (should be 0)";
const TOLD_DIFFERS: &str = "fence tells another touch than the first barred one (should be 0)";
const NOT_READ_BACK: &str = "listing not read back to its words (should be 0)";
const NOT_LISTED_SO: &str = "reading accepted of a text that its words do not list (should be 0)";
const REFUSAL_WROTE: &str = "refused reading that changed a word (should be 0)";
const SHOULD_BE_0: [&str; 10] = [
    STEPWISE_DIFFERS,
    TOLD_DIFFERS,
    stops::STOP_DIFFERS,
    points::ENTRY_DIFFERS,
    points::MOTION_DIFFERS,
    characters::ENTRY_DIFFERS,
    characters::ROUTINE_DIFFERS,
    NOT_READ_BACK,
    NOT_LISTED_SO,
    REFUSAL_WROTE,
];

const OPERATIONS: [u32; 21] = [
    1, 2, 3, 4, 5, 6, 7, 8, 9, 10, 11, 12, 20, 21, 22, 23, 24, 25, 26, 30, 31,
];

const CONTROL_WORDS: [&str; 13] = [
    "0", "1", "2 jump", "2 push", "3", "4", "5", "60", "61", "62", "63", "64-67", "7",
];

/// The touches of stops and command beats, each with the last address that it has before it wraps
/// to 0.
const TOUCHES: [(&str, u16); 7] = [
    (STOPS_FETCH, 0o77777),
    ("first fetch", 0o77777),
    ("second word", 0o77777),
    ("pop's first cell", 0o7777),
    ("pop's second cell", 0o7777),
    ("push's first write", 0o7777),
    ("push's second write", 0o7777),
];

/// 02, No. 4: "The fetch is a touch".
const STOPS_FETCH: &str = "stop's fetch";

const LOANS: [&str; 6] = [
    "all",
    "file empty",
    "list empty",
    "both empty",
    "tiny",
    "overlapping",
];

fn row_names() -> Vec<String> {
    let mut names: Vec<String> = ["cases", "operations", "runs", "listings", "readings"]
        .map(String::from)
        .to_vec();
    for refusal in 4..=6 {
        names.push(format!("operation refused {refusal}"));
    }
    for refusal in 1..=4 {
        names.push(format!("run refused {refusal}"));
    }
    for ending in 10..=19 {
        names.push(format!("ending {ending}"));
    }
    names.push("beats".into());
    for kind in CONTROL_WORDS {
        names.push(format!("control word {kind}"));
    }
    for kind in ["4", "5", "60", "61", "62", "7"] {
        names.push(format!("skip taken by control word {kind}"));
        names.push(format!("no skip by control word {kind}"));
    }
    for mode in [0, 1, 2, 3, 4, 6] {
        names.push(format!("data command, mode {mode}"));
        names.push(format!("data command, mode {mode}, escaped at once"));
    }
    names.retain(|name| !name.ends_with("mode 1, escaped at once"));
    for mode in [2, 3, 4] {
        names.push(format!("move of a line, mode {mode}"));
        names.push(format!("command ended by a move of a line, mode {mode}"));
    }
    names.retain(|name| name != "command ended by a move of a line, mode 3");
    names.push("line moved by both axes at once".into());
    names.push("vector continue starting over".into());
    names.push("vector continue, last still beat".into());
    for side in ["left", "right"] {
        names.push(format!("move of bytes, {side}"));
        names.push(format!("escape by a {side} byte"));
    }
    names.push("left byte's escape dropping the right".into());
    for axis in ["x", "y"] {
        for dimension in 10..=13 {
            for what in ["stopping", "ignored by bit 9"] {
                names.push(format!("edge of {axis}, {dimension} bits, {what}"));
            }
        }
    }
    names.push("both axes violated in one beat".into());
    names.push("violation in a graphplot".into());
    names.push("edge stop with the motion unfinished".into());
    names.push("edge stop with an escape".into());
    for pointer in ["7776", "7777", "0"] {
        names.push(format!("push with the pointer at {pointer}o"));
        names.push(format!("pop with the pointer at {pointer}o"));
    }
    names.retain(|name| name != "pop with the pointer at 7776o");
    names.push("pop with the pointer at 1o".into());
    names.push("push storing over its own words".into());
    names.push("pop entering data state".into());
    names.push("display address counted over 77777o".into());
    names.push("second word at 0 after 77777o".into());
    for (kind, last) in TOUCHES {
        names.push(format!("fenced at {kind}"));
        names.push(format!("fenced at {kind}, word {last:o}o"));
        names.push(format!("fenced at {kind}, word 0o"));
    }
    for kind in ["pop's first cell", "push's first write"] {
        names.push(format!("fenced at {kind}, the second lent"));
        names.push(format!("fenced at {kind}, the second not lent"));
    }
    names.push("fenced at second word, a push's writes not lent".into());
    names.push("fenced at a fetch of a word above 4,095".into());
    names.push("fenced at a write into the file range".into());
    names.push("word above 4,095 at a stop's fetch".into());
    names.push("word above 4,095 at the display address".into());
    names.push("word above 4,095 at a later fetch".into());
    for kind in LOANS {
        names.push(format!("loan {kind}"));
    }
    for room in [0, 1] {
        names.push(format!("room {room}"));
    }
    names.push("point lit".into());
    names.push("point lit by condition bit 8 alone".into());
    names.push("default word above 4,095".into());
    names.push("pen hold ended".into());
    names.push("pen hold kept by a move beat".into());
    for place in [8, 9] {
        for value in ["off", "on"] {
            names.push(format!("beat with condition bit {place} {value}"));
        }
    }
    for operation in OPERATIONS {
        names.push(format!("operation {operation} accepted"));
    }
    for what in [
        "resume of a stopped display",
        "resume with hold going on",
        "resume with the pen off for good",
        "pen light stopping the display",
        "status 1 with bit 8 on",
        "status 2 with the byte bit on",
    ] {
        names.push(what.into());
    }
    names.extend(stops::row_names());
    names.extend(points::row_names());
    names.extend(characters::row_names());
    names.extend(listing_row_names());
    names.extend(reading_row_names());
    names.extend(SHOULD_BE_0.map(String::from));
    names
}

fn listing_row_names() -> Vec<String> {
    let mut names = vec!["listing accepted".into()];
    for refusal in [1, 3, 6, 24, 23] {
        names.push(format!("listing refused {refusal}"));
    }
    for what in [
        "3, low above high",
        "3, high above 32,768",
        "6, state above 1",
        "6, mode above 7",
        "23, one byte short",
        "23, text list of no bytes",
    ] {
        names.push(format!("listing refused {what}"));
    }
    for what in [
        "of no words",
        "of one word",
        "of a page of 128 words",
        "of 4,096 words",
        "up to the end of memory",
        "with a text list that just fits",
        "with a longer text list",
        "with a word above 4,095 outside the range",
    ] {
        names.push(format!("listing {what}"));
    }
    for state in ["control", "data"] {
        for mode in 0..=7 {
            names.push(format!("listing from {state} state, mode {mode}"));
        }
    }
    for kind in CONTROL_WORDS {
        names.push(format!("control word {kind} listed"));
    }
    for mnemonic in MNEMONICS {
        names.push(format!("mnemonic {} listed", mnemonic.name));
    }
    for what in [
        "control word with names and a rest",
        "control word with a rest alone",
        "control word with neither name nor rest",
        "second word of a jump",
    ] {
        names.push(format!("{what} listed"));
    }
    for mode in 0..=7 {
        names.push(format!("data word listed, mode {mode}"));
    }
    for mode in [0, 2, 3] {
        names.push(format!("second data word listed, mode {mode}"));
    }
    for mode in [0, 1, 2, 3, 4, 6] {
        names.push(format!("escape in a listing, mode {mode}"));
    }
    names
}

fn reading_row_names() -> Vec<String> {
    let mut names = vec!["reading accepted".into()];
    for refusal in [1, 3, 6, 7] {
        names.push(format!("reading refused {refusal}"));
    }
    for change in [RIGHT, OTHER_STATE, OTHER_MODE] {
        names.push(format!("reading accepted, {change}"));
    }
    names.push("reading accepted, damaged".into());
    for change in [OTHER_STATE, OTHER_MODE, OTHER_RANGE] {
        names.push(format!("reading refused 7, {change}"));
    }
    for (damage, _) in DAMAGES {
        names.push(format!("reading refused 7, {damage}"));
    }
    for what in [
        "the first line",
        "a later line",
        "a missing line",
        "an unfinished line",
        "a line too many",
    ] {
        names.push(format!("reading refused 7 at {what}"));
    }
    for what in [
        "of no words",
        "over a word above 4,095",
        "of a word that was there already",
    ] {
        names.push(format!("reading {what}"));
    }
    names
}

/// The coverage of the first `count` cases of a seed.
pub fn coverage(seed: u64, count: u64) -> Coverage {
    let mut coverage = Coverage::new();
    let mut chance = Chance::new(seed);
    for _ in 0..count {
        coverage.count("cases");
        let (case, change) = next_case_and_change(&mut chance);
        match case {
            Case::Operation {
                registers,
                operation,
                operand,
            } => {
                operation_reached(&mut coverage, registers, operation, operand);
            }
            Case::Run(case) => run_reached(&mut coverage, &case),
            Case::List(case) => listing_reached(&mut coverage, &case),
            Case::Read(case) => reading_reached(&mut coverage, &case, change.unwrap_or(RIGHT)),
        }
    }
    coverage
}

fn operation_reached(coverage: &mut Coverage, before: Registers, operation: u32, operand: u32) {
    coverage.count("operations");
    let (after, ending, word) = operate(before, operation, operand);
    if ending != Ending::Done {
        coverage.count(&format!("operation refused {}", ending.number()));
        stops::refusal_reached(coverage, "operation", &before, ending);
        points::refusal_reached(coverage, "operation", &before, ending);
        characters::refusal_reached(coverage, "operation", &before, ending);
        characters::operation_refused(coverage, operation, operand, ending);
        return;
    }
    coverage.count(&format!("operation {operation} accepted"));
    stops::registers_reached(coverage, "operation", &before);
    stops::operation_reached(coverage, &before, &after, operation);
    points::registers_reached(coverage, "operation", &before);
    points::operation_reached(coverage, &before, &after, operation);
    characters::registers_reached(coverage, "operation", &before);
    characters::operation_reached(coverage, &before, &after, operation, word);
    match operation {
        4 if !before.running => {
            coverage.count("resume of a stopped display");
            let pen = before.pen_flag && before.condition(2);
            coverage.count_if(
                pen && !before.pen_hold && after.pen_hold,
                "resume with hold going on",
            );
            coverage.count_if(
                pen && before.condition(3),
                "resume with the pen off for good",
            );
        }
        7 => coverage.count_if(
            before.running && !after.running,
            "pen light stopping the display",
        ),
        24 => coverage.count_if(bit(word, 8), "status 1 with bit 8 on"),
        25 => coverage.count_if(bit(word, 0), "status 2 with the byte bit on"),
        _ => {}
    }
}

fn run_reached(coverage: &mut Coverage, case: &RunCase) {
    coverage.count("runs");
    let whole = case.outcome(|registers, memory, points| {
        run(registers, memory, case.loan, case.budget, points)
    });
    let answer = whole.answer;
    if answer.ending.number() < 10 {
        coverage.count(&format!("run refused {}", answer.ending.number()));
        stops::refusal_reached(coverage, "run", &case.registers, answer.ending);
        points::refusal_reached(coverage, "run", &case.registers, answer.ending);
        characters::refusal_reached(coverage, "run", &case.registers, answer.ending);
        return;
    }
    coverage.count(&format!("ending {}", answer.ending.number()));
    stops::registers_reached(coverage, "run", &case.registers);
    stops::run_reached(coverage, case, &whole);
    points::registers_reached(coverage, "run", &case.registers);
    characters::registers_reached(coverage, "run", &case.registers);
    loan_reached(coverage, case.loan);
    coverage.count_if(case.room == 0, "room 0");
    coverage.count_if(case.room == 1, "room 1");
    coverage.count_if(
        case.given.default > GREATEST_WORD,
        "default word above 4,095",
    );

    let stepwise = case.outcome(|registers, memory, points| {
        beat_by_beat(coverage, case, registers, memory, points)
    });
    coverage.count_if(stepwise != whole, STEPWISE_DIFFERS);
}

fn loan_reached(coverage: &mut Coverage, loan: Loan) {
    let words = |range: crate::LoanRange| range.high - range.low;
    let (file, list) = (words(loan.file), words(loan.list));
    coverage.count_if(loan == Loan::all(), "loan all");
    coverage.count_if(file == 0, "loan file empty");
    coverage.count_if(list == 0, "loan list empty");
    coverage.count_if(file == 0 && list == 0, "loan both empty");
    coverage.count_if(file.max(list) > 0 && file.max(list) <= 3, "loan tiny");
    let shared_low = loan.file.low.max(loan.list.low);
    let shared_high = loan.file.high.min(loan.list.high);
    let overlapping = shared_low < shared_high && loan != Loan::all();
    coverage.count_if(overlapping, "loan overlapping");
}

/// One turn of a run, seen from outside.
struct Turn<'a> {
    loan: Loan,
    before: &'a Registers,
    after: &'a Registers,
    /// The word of memory at the display address before the turn.
    own: u16,
    /// The first word of the next command, held or else in memory.
    first: u16,
    /// Whether the turn before it went on with a motion, and whether that escaped to control state.
    behind_a_move: bool,
    behind_an_escape: bool,
    /// Whether the turn before it ended a character word.
    behind_a_character: bool,
    /// Whether the routine word, if there is one, was not fetched by the run.
    handed_in: bool,
    /// The command that it is a part of. There is none as long as a motion goes on that the run was
    /// given.
    command: Option<Command>,
    /// The entry of the point that it lit.
    point: Option<u64>,
}

/// A command that a run makes itself.
#[derive(Clone, Copy)]
struct Command {
    address: u16,
    is_held: bool,
}

/// The same run again, each beat with a budget of its own, so that each can be looked at.
fn beat_by_beat(
    coverage: &mut Coverage,
    case: &RunCase,
    registers: &mut Registers,
    memory: &mut [u16],
    points: &mut [u64],
) -> Answer {
    let mut beats = 0;
    let mut lit = 0;
    let mut behind_a_move = false;
    let mut behind_an_escape = false;
    let mut behind_a_character = false;
    let mut handed_in = true;
    let mut command = None;
    while beats < case.budget {
        let before = *registers;
        if before.motion == Motion::Nothing {
            command = Some(Command {
                address: before.display_address,
                is_held: before.word_is_held,
            });
        }
        // The word of memory at the display address, and the words of the command.
        let own = peek(memory, before.display_address);
        let words = [
            before.held().unwrap_or(own),
            peek(memory, address_after(before.display_address, 1)),
        ];
        let rest = &mut points[lit as usize..];
        let answer = run(registers, memory, case.loan, 1, rest);
        beats += answer.beats;
        lit += answer.points;
        let turn = Turn {
            loan: case.loan,
            before: &before,
            after: registers,
            own,
            first: words[0],
            behind_a_move,
            behind_an_escape,
            behind_a_character,
            handed_in,
            command,
            point: rest.first().copied().filter(|_| answer.points == 1),
        };
        let is_last = beats == case.budget;
        let mut ended_a_character = behind_a_character;
        if answer.beats == 1 {
            beat_reached(coverage, &before, turn.after, words, answer);
            stops::beat_reached(coverage, &turn);
            points::beat_reached(coverage, &turn, memory);
            characters::beat_reached(coverage, &turn, memory, answer, is_last);
            ended_a_character = matches!(before.motion, Motion::Character(_))
                && turn.after.motion == Motion::Nothing;
        }
        if answer.ending != Ending::BudgetSpent || is_last {
            points::ending_reached(coverage, &turn, answer.ending);
            characters::ending_reached(coverage, &turn, answer.ending, ended_a_character);
        }
        if answer.ending != Ending::BudgetSpent {
            if answer.beats == 0 {
                barred_touch_reached(coverage, case.loan, &before, memory, answer.ending);
                stops::ending_reached(coverage, &turn, answer.ending);
                characters::barred_fetch_reached(coverage, &before, answer.ending);
            }
            return Answer {
                ending: answer.ending,
                beats,
                points: lit,
            };
        }
        behind_a_move = before.motion != Motion::Nothing;
        let escaped = before.state == State::Data && registers.state == State::Control;
        behind_an_escape = behind_a_move && escaped;
        behind_a_character = ended_a_character;
        handed_in &= !fetches_a_routine_word(&before);
    }
    let ending = if registers.running {
        Ending::BudgetSpent
    } else {
        Ending::NotRunning
    };
    Answer {
        ending,
        beats,
        points: lit,
    }
}

fn fetches_a_routine_word(before: &Registers) -> bool {
    match before.motion {
        Motion::Character(character) => matches!(character.stage, Stage::RoutineWord(_)),
        Motion::Nothing | Motion::Line(_) | Motion::Bytes(_) => false,
    }
}

/// Looking is the report's own: no run looks at a word that its loan does not allow.
fn peek(memory: &[u16], address: u16) -> u16 {
    memory
        .get(usize::from(address) % MEMORY_LENGTH)
        .copied()
        .unwrap_or(0)
}

fn beat_reached(
    coverage: &mut Coverage,
    before: &Registers,
    after: &Registers,
    words: [u16; 2],
    answer: Answer,
) {
    coverage.count("beats");
    coverage.count_if(before.pen_hold && !after.pen_hold, "pen hold ended");
    coverage.count_if(
        before.pen_hold && after.pen_hold,
        "pen hold kept by a move beat",
    );
    for place in [8, 9] {
        let value = if before.condition(place) { "on" } else { "off" };
        coverage.count(&format!("beat with condition bit {place} {value}"));
    }
    let asked = match (before.motion, before.state) {
        (Motion::Nothing, State::Control) => {
            control_word_reached(coverage, before, after, words);
            true
        }
        (Motion::Nothing, State::Data) => {
            data_command_reached(coverage, before, after, words);
            before.mode == 6 || bit(words[0], 0)
        }
        (Motion::Line(line), _) => {
            line_move_reached(coverage, before, after);
            line.lit
        }
        (Motion::Bytes(bytes), _) => {
            byte_move_reached(coverage, before, after);
            bytes.byte() >= 0o40
        }
        (Motion::Character(character), _) => match character.stage {
            Stage::Line(line) => line.lit,
            Stage::Bytes(bytes) => bytes.byte() >= 0o40,
            Stage::TableWord | Stage::RoutineWord(_) => false,
        },
    };
    if answer.points == 1 {
        coverage.count("point lit");
        coverage.count_if(!asked, "point lit by condition bit 8 alone");
    }
    if before.motion == Motion::Nothing && after.display_address < before.display_address {
        let counted = before.state == State::Data || !matches!(field(words[0], 0, 2), 2 | 3);
        coverage.count_if(counted, "display address counted over 77777o");
    }
    if moves(before) {
        edges_reached(coverage, before, after, words[0]);
    }
}

/// Whether the next beat of a display moves, as a motion or as a graphplot.
fn moves(before: &Registers) -> bool {
    match before.motion {
        Motion::Nothing => before.state == State::Data && before.mode == 6,
        Motion::Line(_) | Motion::Bytes(_) => true,
        Motion::Character(character) => {
            matches!(character.stage, Stage::Line(_) | Stage::Bytes(_))
        }
    }
}

/// One of `CONTROL_WORDS`.
fn control_word_kind(word: u16) -> &'static str {
    match (field(word, 0, 2), field(word, 3, 5)) {
        (0, _) => "0",
        (1, _) => "1",
        (2, _) if bit(word, 8) => "2 push",
        (2, _) => "2 jump",
        (3, _) => "3",
        (4, _) => "4",
        (5, _) => "5",
        (6, 0) => "60",
        (6, 1) => "61",
        (6, 2) => "62",
        (6, 3) => "63",
        (6, _) => "64-67",
        _ => "7",
    }
}

fn control_word_reached(
    coverage: &mut Coverage,
    before: &Registers,
    after: &Registers,
    words: [u16; 2],
) {
    let word = words[0];
    let kind = control_word_kind(word);
    coverage.count(&format!("control word {kind}"));
    let skipped = after.display_address == address_after(before.display_address, 3);
    let taken = if skipped { "skip taken" } else { "no skip" };
    coverage.count(&format!("{taken} by control word {kind}"));
    let pointer = before.pushdown_pointer;
    match kind {
        "2 push" => {
            coverage.count(&format!("push with the pointer at {pointer:o}o"));
            let own = [
                before.display_address,
                address_after(before.display_address, 1),
            ];
            let over = own.contains(&pointer) || own.contains(&pointer_after(pointer, 1));
            coverage.count_if(over, "push storing over its own words");
        }
        "3" => {
            coverage.count(&format!("pop with the pointer at {pointer:o}o"));
            coverage.count_if(bit(word, 11), "pop entering data state");
        }
        _ => {}
    }
    let two_words = kind == "2 push" || kind == "2 jump";
    let at_end = before.display_address == 0o77777;
    coverage.count_if(two_words && at_end, "second word at 0 after 77777o");
}

fn data_command_reached(
    coverage: &mut Coverage,
    before: &Registers,
    after: &Registers,
    words: [u16; 2],
) {
    let mode = before.mode;
    coverage.count(&format!("data command, mode {mode}"));
    if after.state == State::Control {
        coverage.count(&format!("data command, mode {mode}, escaped at once"));
    }
    let at_end = before.display_address == 0o77777 && matches!(mode, 0 | 2 | 3);
    coverage.count_if(
        at_end && words[1] <= GREATEST_WORD,
        "second word at 0 after 77777o",
    );
}

fn line_move_reached(coverage: &mut Coverage, before: &Registers, after: &Registers) {
    let mode = before.mode;
    let still = before.x == after.x && before.y == after.y;
    if mode == 3 && still {
        coverage.count("vector continue, last still beat");
        return;
    }
    coverage.count(&format!("move of a line, mode {mode}"));
    coverage.count_if(
        before.x != after.x && before.y != after.y,
        "line moved by both axes at once",
    );
    match after.motion {
        Motion::Nothing => {
            coverage.count(&format!("command ended by a move of a line, mode {mode}"))
        }
        Motion::Line(line) => {
            coverage.count_if(mode == 3 && line.done == 0, "vector continue starting over");
        }
        Motion::Bytes(_) | Motion::Character(_) => {}
    }
}

fn byte_move_reached(coverage: &mut Coverage, before: &Registers, after: &Registers) {
    let Motion::Bytes(bytes) = before.motion else {
        return;
    };
    let side = if bytes.side == Side::Left {
        "left"
    } else {
        "right"
    };
    coverage.count(&format!("move of bytes, {side}"));
    if after.state == State::Control {
        coverage.count(&format!("escape by a {side} byte"));
        coverage.count_if(
            bytes.side == Side::Left,
            "left byte's escape dropping the right",
        );
    }
}

/// No move is longer than 8, so a coordinate that changed by more has passed an end.
fn edges_reached(coverage: &mut Coverage, before: &Registers, after: &Registers, word: u16) {
    let graphplot = before.motion == Motion::Nothing;
    let y_moves = !graphplot || bit(word, 1);
    let x_moves = !graphplot || !bit(word, 1);
    let y_violated = y_moves && before.y.abs_diff(after.y) > 8;
    let x_violated = x_moves && before.x.abs_diff(after.x) > 8;
    let what = if before.condition(9) {
        "ignored by bit 9"
    } else {
        "stopping"
    };
    if y_violated {
        let dimension = y_dimension(before.conditions);
        coverage.count(&format!("edge of y, {dimension} bits, {what}"));
    }
    if x_violated {
        let dimension = x_dimension(before.conditions);
        coverage.count(&format!("edge of x, {dimension} bits, {what}"));
    }
    coverage.count_if(y_violated && x_violated, "both axes violated in one beat");
    let violated = y_violated || x_violated;
    coverage.count_if(violated && graphplot, "violation in a graphplot");
    if violated && !after.running {
        let unfinished = after.motion != Motion::Nothing;
        coverage.count_if(unfinished, "edge stop with the motion unfinished");
        coverage.count_if(after.state == State::Control, "edge stop with an escape");
    }
}

/// Which touch ended the run with 16, 17 or 19. The report may look at all words.
fn barred_touch_reached(
    coverage: &mut Coverage,
    loan: Loan,
    before: &Registers,
    memory: &[u16],
    ending: Ending,
) {
    let own = peek(memory, before.display_address);
    let first = before.held().unwrap_or(own);
    match ending {
        // A character's is told apart.
        Ending::WordTooWide if before.motion != Motion::Nothing => {}
        Ending::WordTooWide => {
            let name = if before.stop_request {
                "word above 4,095 at a stop's fetch"
            } else if first > GREATEST_WORD {
                "word above 4,095 at the display address"
            } else {
                "word above 4,095 at a later fetch"
            };
            coverage.count(name);
        }
        Ending::FetchOutsideLoan(_) | Ending::WriteOutsideLoan(_) => {
            let barred: Vec<Touch> = touches(before, first)
                .into_iter()
                .filter(|touch| touch.told(loan).is_some())
                .collect();
            fence_reached(coverage, loan, memory, &barred, ending);
        }
        _ => {}
    }
}

/// One touch of a stop or a command beat.
struct Touch {
    kind: &'static str,
    address: u16,
    writes: bool,
}

impl Touch {
    fn fetch(kind: &'static str, address: u16) -> Touch {
        Touch {
            kind,
            address,
            writes: false,
        }
    }

    fn write(kind: &'static str, address: u16) -> Touch {
        Touch {
            writes: true,
            ..Touch::fetch(kind, address)
        }
    }

    /// The ending that the loan gives this touch, if it does not allow it.
    fn told(&self, loan: Loan) -> Option<Ending> {
        if self.writes {
            (!loan.allows_write(self.address)).then_some(Ending::WriteOutsideLoan(self.address))
        } else {
            (!loan.allows_fetch(self.address)).then_some(Ending::FetchOutsideLoan(self.address))
        }
    }
}

/// 01, one turn of a run: the touches of a stop, or of a command beat in their order, by its first
/// word. 02, No. 4: a held word is not fetched again.
fn touches(before: &Registers, first: u16) -> Vec<Touch> {
    if let Motion::Character(character) = before.motion {
        return match character.stage {
            Stage::TableWord => vec![Touch::fetch("table word", table_place(before, &character))],
            Stage::RoutineWord(routine) => vec![Touch::fetch("routine word", routine.next)],
            Stage::Bytes(_) | Stage::Line(_) => Vec::new(),
        };
    }
    let pointer = before.pushdown_pointer;
    let second_word = Touch::fetch("second word", address_after(before.display_address, 1));
    let mut touches = Vec::new();
    if !before.word_is_held {
        let kind = if before.stop_request {
            STOPS_FETCH
        } else {
            "first fetch"
        };
        touches.push(Touch::fetch(kind, before.display_address));
    }
    if before.stop_request {
        return touches;
    }
    match (before.state, field(first, 0, 2)) {
        (State::Control, 2) => {
            touches.push(second_word);
            if bit(first, 8) {
                let next = pointer_after(pointer, 1);
                touches.push(Touch::write("push's first write", pointer));
                touches.push(Touch::write("push's second write", next));
            }
        }
        (State::Control, 3) => {
            let cells = [pointer_before(pointer, 2), pointer_before(pointer, 1)];
            touches.push(Touch::fetch("pop's first cell", cells[0]));
            touches.push(Touch::fetch("pop's second cell", cells[1]));
        }
        (State::Data, _) if matches!(before.mode, 0 | 2 | 3) => touches.push(second_word),
        _ => {}
    }
    touches
}

/// Manual, appendix 1: the table word's address by the bits of the CHAC.
fn table_place(registers: &Registers, character: &Character) -> u16 {
    let code = match (character.seven_bits, character.side) {
        (true, _) => character.word & 0o177,
        (false, Side::Left) => character.word >> 6 | u16::from(registers.upper_case) << 6,
        (false, Side::Right) => character.word & 0o77 | u16::from(registers.upper_case) << 6,
    };
    u16::from(registers.starting_address) << 9 | code
}

/// The touches of a beat that the loan does not allow, and the ending that tells of them.
fn fence_reached(
    coverage: &mut Coverage,
    loan: Loan,
    memory: &[u16],
    barred: &[Touch],
    ending: Ending,
) {
    let [touch, later @ ..] = barred else {
        coverage.count(TOLD_DIFFERS);
        return;
    };
    coverage.count_if(touch.told(loan) != Some(ending), TOLD_DIFFERS);
    let (kind, address) = (touch.kind, touch.address);
    coverage.count(&format!("fenced at {kind}"));
    coverage.count(&format!("fenced at {kind}, word {address:o}o"));
    let second = if later.is_empty() { "lent" } else { "not lent" };
    coverage.count(&format!("fenced at {kind}, the second {second}"));
    coverage.count_if(
        kind == "second word" && !later.is_empty(),
        "fenced at second word, a push's writes not lent",
    );
    coverage.count_if(
        !touch.writes && peek(memory, address) > GREATEST_WORD,
        "fenced at a fetch of a word above 4,095",
    );
    coverage.count_if(
        touch.writes && loan.allows_fetch(address),
        "fenced at a write into the file range",
    );
}

// ---------------------------------------------------------------- listings

fn listing_reached(coverage: &mut Coverage, case: &ListCase) {
    coverage.count("listings");
    match case.outcome() {
        Ok(text) => {
            coverage.count("listing accepted");
            listing_accepted(coverage, case, &text);
        }
        Err(refusal) => {
            coverage.count(&format!("listing refused {}", refusal.number()));
            listing_refused(coverage, case, refusal);
        }
    }
}

fn listing_refused(coverage: &mut Coverage, case: &ListCase, refusal: ListingRefusal) {
    match refusal {
        ListingRefusal::BadRange => {
            let high_above = case.range.high > 32_768;
            coverage.count_if(!high_above, "listing refused 3, low above high");
            coverage.count_if(high_above, "listing refused 3, high above 32,768");
        }
        ListingRefusal::StateOrMode => {
            coverage.count_if(case.state > 1, "listing refused 6, state above 1");
            coverage.count_if(case.mode > 7, "listing refused 6, mode above 7");
        }
        ListingRefusal::TextListTooShort => {
            let one_more = ListCase {
                room: case.room + 1,
                ..case.clone()
            };
            let is_one_short = one_more.outcome().is_ok();
            coverage.count_if(is_one_short, "listing refused 23, one byte short");
            coverage.count_if(case.room == 0, "listing refused 23, text list of no bytes");
        }
        _ => {}
    }
}

fn listing_accepted(coverage: &mut Coverage, case: &ListCase, text: &[u8]) {
    let range = case.range;
    match range.high - range.low {
        0 => coverage.count("listing of no words"),
        1 => coverage.count("listing of one word"),
        128 => coverage.count("listing of a page of 128 words"),
        4_096 => coverage.count("listing of 4,096 words"),
        _ => {}
    }
    coverage.count_if(range.high == 32_768, "listing up to the end of memory");
    let just_fits = text.len() == case.room;
    coverage.count_if(just_fits, "listing with a text list that just fits");
    coverage.count_if(!just_fits, "listing with a longer text list");
    let memory = case.given.words();
    coverage.count_if(
        memory.iter().any(|&word| word > GREATEST_WORD),
        "listing with a word above 4,095 outside the range",
    );
    let state = if case.state == 0 { "control" } else { "data" };
    let mode = case.mode;
    coverage.count(&format!("listing from {state} state, mode {mode}"));

    let words = &memory[usize::from(range.low)..usize::from(range.high)];
    let text = String::from_utf8_lossy(text);
    let mut place = Place::at_start(case.state, case.mode);
    for (&word, line) in words.iter().zip(text.lines()) {
        place = place.map(|place| {
            line_reached(coverage, place, word, line);
            place.after(word)
        });
    }

    let reading = ReadCase {
        range,
        state: case.state,
        mode: case.mode,
        given: GivenMemory {
            length: MEMORY_LENGTH,
            default: 65_535,
            pairs: Vec::new(),
        },
        text: text.as_bytes().to_vec(),
    };
    let (answer, read) = reading.outcome();
    let same = &read[usize::from(range.low)..usize::from(range.high)] == words;
    coverage.count_if(answer.is_err() || !same, NOT_READ_BACK);
}

fn line_reached(coverage: &mut Coverage, place: Place, word: u16, line: &str) {
    let mode = place.mode;
    match place.part {
        Part::ControlWord => {
            let kind = control_word_kind(word);
            coverage.count(&format!("control word {kind} listed"));
            let fields: Vec<&str> = line.split(' ').skip(2).collect();
            let names = fields
                .iter()
                .filter(|field| field.starts_with(char::is_alphabetic));
            let has_name = names.clone().next().is_some();
            for name in names {
                coverage.count(&format!("mnemonic {name} listed"));
            }
            let has_rest = fields
                .last()
                .is_some_and(|field| field.starts_with(char::is_numeric));
            match (has_name, has_rest) {
                (true, true) => coverage.count("control word with names and a rest listed"),
                (false, true) => coverage.count("control word with a rest alone listed"),
                (false, false) => {
                    coverage.count("control word with neither name nor rest listed");
                }
                (true, false) => {}
            }
        }
        Part::SecondOfJump => coverage.count("second word of a jump listed"),
        Part::DataWord => coverage.count(&format!("data word listed, mode {mode}")),
        Part::SecondOfData => coverage.count(&format!("second data word listed, mode {mode}")),
    }
    let in_data_state = matches!(place.part, Part::DataWord | Part::SecondOfData);
    if in_data_state && place.after(word).part == Part::ControlWord {
        coverage.count(&format!("escape in a listing, mode {mode}"));
    }
}

fn reading_reached(coverage: &mut Coverage, case: &ReadCase, change: &str) {
    coverage.count("readings");
    let before = case.given.words();
    let (answer, after) = case.outcome();
    match answer {
        Ok(()) => {
            coverage.count("reading accepted");
            coverage.count(&format!("reading accepted, {change}"));
            let damaged = DAMAGES.iter().any(|&(damage, _)| damage == change);
            coverage.count_if(damaged, "reading accepted, damaged");
            reading_accepted(coverage, case, &before, &after);
        }
        Err(refusal) => {
            coverage.count(&format!("reading refused {}", refusal.number()));
            coverage.count_if(before != after, REFUSAL_WROTE);
            if let ListingRefusal::LineNotInForm(line) = refusal {
                coverage.count(&format!("reading refused 7, {change}"));
                line_not_in_form_reached(coverage, case, line);
            }
        }
    }
}

fn reading_accepted(coverage: &mut Coverage, case: &ReadCase, before: &[u16], after: &[u16]) {
    let range = usize::from(case.range.low)..usize::from(case.range.high);
    let (old, new) = (&before[range.clone()], &after[range]);
    coverage.count_if(old.is_empty(), "reading of no words");
    let over_wide = old.iter().any(|&word| word > GREATEST_WORD);
    coverage.count_if(over_wide, "reading over a word above 4,095");
    let was_there = old.iter().zip(new).any(|(old, new)| old == new);
    coverage.count_if(was_there, "reading of a word that was there already");

    let listing = ListCase {
        range: case.range,
        state: case.state,
        mode: case.mode,
        room: case.text.len(),
        given: GivenMemory {
            length: MEMORY_LENGTH,
            default: 65_535,
            pairs: (case.range.low..).zip(new.iter().copied()).collect(),
        },
    };
    let same = listing.outcome().is_ok_and(|text| text == case.text);
    coverage.count_if(!same, NOT_LISTED_SO);
}

fn line_not_in_form_reached(coverage: &mut Coverage, case: &ReadCase, line: u32) {
    let words = u32::from(case.range.high - case.range.low);
    let finished = case.text.iter().filter(|&&byte| byte == b'\n').count() as u32;
    let has_unfinished = case.text.last().is_some_and(|&byte| byte != b'\n');
    let what = if line > words {
        "a line too many"
    } else if line <= finished && line == 1 {
        "the first line"
    } else if line <= finished {
        "a later line"
    } else if has_unfinished {
        "an unfinished line"
    } else {
        "a missing line"
    };
    coverage.count(&format!("reading refused 7 at {what}"));
}

#[cfg(test)]
mod tests {
    use super::*;

    #[test]
    fn twenty_thousand_cases_reach_every_row() {
        let coverage = coverage(1, 20_000);
        assert_eq!(coverage.never_reached(), Vec::<&str>::new());
        assert_eq!(coverage.wrongly_reached(), Vec::<&str>::new());
    }
}
