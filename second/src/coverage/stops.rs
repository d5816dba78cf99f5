//! What is reached of 02, No. 4: external stops, the words that they hold, and what uses, keeps and
//! drops these.

use super::{control_word_kind, touches, Coverage, Turn, CONTROL_WORDS, OPERATIONS};
use crate::refusals_and_endings::Ending;
use crate::registers::{address_after, pointer_after, pointer_before, Motion, Registers, State};
use crate::replay::{Outcome, RunCase};
use crate::words::GREATEST_WORD;

pub const STOP_DIFFERS: &str =
    "external stop that holds another word or changes another register (should be 0)";

/// What may stand at the address of a held word by now.
const OWN_WORDS: [&str; 4] = ["the same", "another", "above 4,095", "not lent"];

/// The commands with a second word.
const TWO_WORDS: [&str; 5] = [
    "control word 2 jump",
    "control word 2 push",
    "data word, mode 0",
    "data word, mode 2",
    "data word, mode 3",
];

pub fn row_names() -> Vec<String> {
    let mut names = Vec::new();
    for call in ["operation", "run"] {
        names.push(format!("{call} refused 4 for a held word above 4,095"));
        names.push(format!("{call} refused 4 for a word where none is held"));
        for state in states() {
            names.push(format!("{call} with a held word in {state}"));
        }
        for what in [
            "of 0o",
            "of 7777o",
            "and no motion",
            "and a line unfinished",
            "and bytes unfinished",
            "and a character unfinished",
            "on a stopped display",
            "on a running display",
            "and a stop request",
            "and no stop request",
        ] {
            names.push(format!("{call} with a held word {what}"));
        }
    }
    for operation in OPERATIONS {
        names.push(format!("operation {operation} with a held word"));
    }
    names.push("resume of a stopped display with a held word".into());
    names.push("pen light stopping a display with a held word".into());
    names.extend(stop_row_names());
    names.extend(use_row_names());
    names
}

fn stop_row_names() -> Vec<String> {
    let mut names = Vec::new();
    for stop in ["first", "second"] {
        for state in states() {
            names.push(format!("{stop} stop in {state}"));
        }
        for what in [
            "at word 77777o",
            "behind a motion",
            "behind an escape",
            "with pen hold kept",
        ] {
            names.push(format!("{stop} stop {what}"));
        }
        names.push(format!("budget 0 before a {stop} stop"));
        names.push(format!("budget spent by the motion before a {stop} stop"));
    }
    for word in ["0o", "7777o"] {
        names.push(format!("first stop holding {word}"));
    }
    for own in OWN_WORDS {
        names.push(format!("second stop, the word at the address {own}"));
    }
    for mode in [5, 7] {
        for ending in [16, 17] {
            names.push(format!("stop not made in mode {mode}, ending {ending}"));
        }
    }
    names.push("stop not made at word 77777o, ending 17".into());
    names.push("stop not made behind a motion".into());
    names.push("stop fenced from a word above 4,095".into());
    names
}

fn use_row_names() -> Vec<String> {
    let mut names = Vec::new();
    for kind in CONTROL_WORDS {
        names.push(format!("held control word {kind} used"));
    }
    for kind in ["4", "5", "60", "61", "62", "7"] {
        names.push(format!("skip taken by held control word {kind}"));
        names.push(format!("no skip by held control word {kind}"));
    }
    for mode in 0..=6 {
        names.push(format!("held data word, mode {mode} used"));
    }
    for state in ["control", "data"] {
        for own in OWN_WORDS {
            names.push(format!(
                "held word used in {state} state, the word at the address {own}"
            ));
        }
    }
    names.push("held word 0 used".into());
    names.push("held word 7777o used".into());
    names.push("held word used with pen hold ended".into());
    names.push("held word used behind a motion".into());
    names.push("held word used behind an escape".into());
    names.push("held word kept by a move beat".into());
    names.push("held push storing over the word at the address".into());
    names.push("held pop fetching the word at the address".into());
    for command in TWO_WORDS {
        names.push(format!("held {command} used at 77777o"));
        names.push(format!("held {command} fenced at second word"));
        names.push(format!("held {command} fenced at second word, word 0o"));
        names.push(format!("held {command} before a word above 4,095"));
    }
    for touch in ["pop's first cell", "pop's second cell"] {
        names.push(format!("held control word 3 fenced at {touch}"));
    }
    names.push("held control word 3 before a word above 4,095".into());
    for touch in ["push's first write", "push's second write"] {
        names.push(format!("held control word 2 push fenced at {touch}"));
    }
    for mode in [0, 6] {
        names.push(format!("held data word, mode {mode} with the list full"));
    }
    for ending in [10, 11, 13, 14, 15, 16, 17, 18, 19] {
        names.push(format!("held word kept by ending {ending}"));
    }
    for mode in [5, 7] {
        names.push(format!("held word kept by ending 15, mode {mode}"));
    }
    for ending in [11, 12, 14, 15, 16, 17, 18, 19] {
        names.push(format!("held word used before ending {ending}"));
    }
    names
}

/// Control state, and data state in each mode.
pub fn states() -> Vec<String> {
    let data = (0..=7).map(|mode| format!("data state, mode {mode}"));
    std::iter::once("control state".into())
        .chain(data)
        .collect()
}

/// One of `states`.
pub fn state_of(registers: &Registers) -> String {
    match registers.state {
        State::Control => "control state".into(),
        State::Data => format!("data state, mode {}", registers.mode),
    }
}

/// A command by its first word: a control word of its kind, or a data word of the mode.
fn command_of(registers: &Registers, first: u16) -> String {
    match registers.state {
        State::Control => format!("control word {}", control_word_kind(first)),
        State::Data => format!("data word, mode {}", registers.mode),
    }
}

/// Whether the next stop of a display is a first or a second one.
fn stop_of(registers: &Registers) -> &'static str {
    if registers.word_is_held {
        "second"
    } else {
        "first"
    }
}

// ---------------------------------------------------------------- calls

/// The registers that an accepted call was given.
pub fn registers_reached(coverage: &mut Coverage, call: &str, given: &Registers) {
    let Some(word) = given.held() else {
        return;
    };
    let state = state_of(given);
    let motion = match given.motion {
        Motion::Nothing => "no motion",
        Motion::Line(_) => "a line unfinished",
        Motion::Bytes(_) => "bytes unfinished",
        Motion::Character(_) => "a character unfinished",
    };
    let display = if given.running { "running" } else { "stopped" };
    let request = if given.stop_request { "a" } else { "no" };
    for what in [
        format!("in {state}"),
        format!("of {word:o}o"),
        format!("and {motion}"),
        format!("on a {display} display"),
        format!("and {request} stop request"),
    ] {
        coverage.count(&format!("{call} with a held word {what}"));
    }
}

/// The registers that a call was refused for. They have no more than one fault.
pub fn refusal_reached(coverage: &mut Coverage, call: &str, given: &Registers, refusal: Ending) {
    if refusal != Ending::RegistersOutOfRange {
        return;
    }
    coverage.count_if(
        given.word_is_held && given.held_word > GREATEST_WORD,
        &format!("{call} refused 4 for a held word above 4,095"),
    );
    coverage.count_if(
        !given.word_is_held && given.held_word > 0,
        &format!("{call} refused 4 for a word where none is held"),
    );
}

pub fn operation_reached(
    coverage: &mut Coverage,
    before: &Registers,
    after: &Registers,
    operation: u32,
) {
    if !before.word_is_held {
        return;
    }
    coverage.count(&format!("operation {operation} with a held word"));
    coverage.count_if(
        operation == 4 && !before.running,
        "resume of a stopped display with a held word",
    );
    coverage.count_if(
        operation == 7 && before.running && !after.running,
        "pen light stopping a display with a held word",
    );
}

/// A whole run: what became of the word that it was given, and whether its budget came before a
/// stop.
pub fn run_reached(coverage: &mut Coverage, case: &RunCase, outcome: &Outcome) {
    let (given, left) = (&case.registers, &outcome.registers);
    let ending = outcome.answer.ending;
    if given.word_is_held {
        let became = if left.word_is_held {
            "kept by"
        } else {
            "used before"
        };
        let (number, mode) = (ending.number(), left.mode);
        coverage.count(&format!("held word {became} ending {number}"));
        coverage.count(&format!("held word {became} ending {number}, mode {mode}"));
    }
    let stop_is_next = given.stop_request && left.motion == Motion::Nothing;
    if ending == Ending::BudgetSpent && stop_is_next {
        let spent = if outcome.answer.beats == 0 {
            "budget 0"
        } else {
            "budget spent by the motion"
        };
        let stop = stop_of(left);
        coverage.count(&format!("{spent} before a {stop} stop"));
    }
}

// ---------------------------------------------------------------- turns

impl Turn<'_> {
    /// One of `OWN_WORDS`.
    fn own_word(&self) -> &'static str {
        if !self.loan.allows_fetch(self.before.display_address) {
            "not lent"
        } else if self.own > GREATEST_WORD {
            "above 4,095"
        } else if self.own == self.first {
            "the same"
        } else {
            "another"
        }
    }

    fn at_the_end(&self) -> bool {
        self.before.display_address == 0o77777
    }
}

/// A turn that made a beat.
pub fn beat_reached(coverage: &mut Coverage, turn: &Turn) {
    if !turn.before.word_is_held {
        return;
    }
    if turn.before.motion == Motion::Nothing {
        use_reached(coverage, turn);
    } else {
        coverage.count_if(turn.after.word_is_held, "held word kept by a move beat");
    }
}

/// A command beat with a held word.
fn use_reached(coverage: &mut Coverage, turn: &Turn) {
    let before = turn.before;
    let command = command_of(before, turn.first);
    coverage.count(&format!("held {command} used"));
    coverage.count_if(turn.at_the_end(), &format!("held {command} used at 77777o"));
    let state = match before.state {
        State::Control => "control",
        State::Data => "data",
    };
    let own = turn.own_word();
    coverage.count(&format!(
        "held word used in {state} state, the word at the address {own}"
    ));
    coverage.count_if(turn.first == 0, "held word 0 used");
    coverage.count_if(turn.first == 0o7777, "held word 7777o used");
    coverage.count_if(before.pen_hold, "held word used with pen hold ended");
    coverage.count_if(turn.behind_a_move, "held word used behind a motion");
    coverage.count_if(turn.behind_an_escape, "held word used behind an escape");
    let skipped = turn.after.display_address == address_after(before.display_address, 3);
    let taken = if skipped { "skip taken" } else { "no skip" };
    coverage.count(&format!("{taken} by held {command}"));
    let (address, pointer) = (before.display_address, before.pushdown_pointer);
    let stored = [pointer, pointer_after(pointer, 1)];
    coverage.count_if(
        command == "control word 2 push" && stored.contains(&address),
        "held push storing over the word at the address",
    );
    let fetched = [pointer_before(pointer, 2), pointer_before(pointer, 1)];
    coverage.count_if(
        command == "control word 3" && fetched.contains(&address),
        "held pop fetching the word at the address",
    );
}

/// A turn that ended the run without a beat. A move that has no room for its point has to do with
/// neither a stop nor a held word.
pub fn ending_reached(coverage: &mut Coverage, turn: &Turn, ending: Ending) {
    if turn.before.motion != Motion::Nothing {
        return;
    }
    if ending == Ending::ExternalStop {
        stop_reached(coverage, turn);
    } else if turn.before.stop_request {
        stop_not_made_reached(coverage, turn, ending);
    } else if turn.before.word_is_held {
        command_not_made_reached(coverage, turn, ending);
    }
}

fn stop_reached(coverage: &mut Coverage, turn: &Turn) {
    let before = turn.before;
    let stop = stop_of(before);
    let state = state_of(before);
    coverage.count(&format!("{stop} stop in {state}"));
    for (reached, what) in [
        (turn.at_the_end(), "at word 77777o"),
        (turn.behind_a_move, "behind a motion"),
        (turn.behind_an_escape, "behind an escape"),
        (turn.after.pen_hold, "with pen hold kept"),
    ] {
        coverage.count_if(reached, &format!("{stop} stop {what}"));
    }
    let (own, word) = (turn.own_word(), turn.first);
    coverage.count(&format!("{stop} stop holding {word:o}o"));
    coverage.count(&format!("{stop} stop, the word at the address {own}"));
    let right = Registers {
        stop_request: false,
        external_stop_flag: true,
        running: false,
        word_is_held: true,
        held_word: word,
        ..*before
    };
    coverage.count_if(*turn.after != right, STOP_DIFFERS);
}

fn stop_not_made_reached(coverage: &mut Coverage, turn: &Turn, ending: Ending) {
    let before = turn.before;
    let (address, number) = (before.display_address, ending.number());
    if before.state == State::Data {
        let mode = before.mode;
        coverage.count(&format!("stop not made in mode {mode}, ending {number}"));
    }
    coverage.count(&format!(
        "stop not made at word {address:o}o, ending {number}"
    ));
    coverage.count_if(turn.behind_a_move, "stop not made behind a motion");
    coverage.count_if(
        number == 16 && turn.own > GREATEST_WORD,
        "stop fenced from a word above 4,095",
    );
    coverage.count_if(turn.after != before, STOP_DIFFERS);
}

fn command_not_made_reached(coverage: &mut Coverage, turn: &Turn, ending: Ending) {
    let command = command_of(turn.before, turn.first);
    match ending {
        Ending::FetchOutsideLoan(address) | Ending::WriteOutsideLoan(address) => {
            let told = touches(turn.before, turn.first)
                .into_iter()
                .find(|touch| touch.told(turn.loan) == Some(ending));
            if let Some(touch) = told {
                let kind = touch.kind;
                coverage.count(&format!("held {command} fenced at {kind}"));
                coverage.count(&format!(
                    "held {command} fenced at {kind}, word {address:o}o"
                ));
            }
        }
        Ending::WordTooWide => {
            coverage.count(&format!("held {command} before a word above 4,095"));
        }
        Ending::PointListFull => {
            coverage.count(&format!("held {command} with the list full"));
        }
        _ => {}
    }
}
