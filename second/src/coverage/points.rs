//! What is reached of 02, No. 5: points and motions that tell the last word of their command.

use super::{peek, Coverage, Turn, OPERATIONS};
use crate::refusals_and_endings::Ending;
use crate::registers::{address_after, Motion, Registers, Side, ADDRESSES};
use crate::words::GREATEST_WORD;

pub const ENTRY_DIFFERS: &str =
    "point with another entry than its beam, look and last word (should be 0)";
pub const MOTION_DIFFERS: &str = "motion left with another last word (should be 0)";

/// The motions that are handed in.
const MOTIONS: [&str; 2] = ["a line", "bytes"];

/// Where the last word of such a motion lies.
const PLACES: [&str; 5] = [
    "0o",
    "77777o",
    "before the display address",
    "at the display address",
    "far from the display address",
];

/// Where a point or a motion comes from.
const FETCHED: &str = "its command fetched";
const HELD: &str = "its command held";
const HANDED_IN: &str = "its motion handed in";

/// The addresses of commands at both ends of memory. The second word of one at 77777o is word 0.
const ENDS: [u16; 3] = [0o77776, 0o77777, 0];

/// The entries 2^39 - 1 and 0.
const ENTRIES: [(&str, u64); 2] = [("greatest", 549_755_813_887), ("least", 0)];

pub fn row_names() -> Vec<String> {
    let mut names = Vec::new();
    for motion in MOTIONS {
        for call in ["operation", "run"] {
            for word in ["of 32,768", "above 32,768"] {
                names.push(format!("{call} refused 4 for a last word {word}, {motion}"));
            }
            for place in PLACES {
                names.push(format!(
                    "{call} with {motion} unfinished, its last word {place}"
                ));
            }
        }
        for operation in OPERATIONS {
            names.push(format!("operation {operation} with {motion} unfinished"));
        }
        names.push(format!(
            "resume of a stopped display with {motion} unfinished"
        ));
        names.push(format!(
            "pen light stopping a display with {motion} unfinished"
        ));
    }
    names.extend(point_row_names());
    names.extend(motion_row_names());
    names
}

fn point_row_names() -> Vec<String> {
    let mut names = Vec::new();
    for mode in [0, 1, 2, 3, 4, 6] {
        for origin in [FETCHED, HELD] {
            names.push(format!("point of mode {mode}, {origin}"));
            for address in ENDS {
                names.push(format!("point of mode {mode}, {origin} at {address:o}o"));
            }
        }
    }
    for mode in [1, 2, 3, 4] {
        names.push(format!("point of mode {mode}, {HANDED_IN}"));
        for place in PLACES {
            names.push(format!(
                "point of mode {mode}, {HANDED_IN}, its last word {place}"
            ));
        }
    }
    for side in ["left", "right"] {
        for origin in [FETCHED, HELD, HANDED_IN] {
            names.push(format!("point of a {side} byte, {origin}"));
        }
    }
    for word in ["not lent", "above 4,095"] {
        for origin in [HELD, HANDED_IN] {
            names.push(format!("point telling a word {word}, {origin}"));
        }
    }
    for (entry, _) in ENTRIES {
        for origin in [FETCHED, HANDED_IN] {
            names.push(format!("point with the {entry} entry, {origin}"));
        }
    }
    names
}

fn motion_row_names() -> Vec<String> {
    let mut names = Vec::new();
    for mode in [1, 2, 3, 4] {
        for origin in [FETCHED, HELD, HANDED_IN] {
            for ending in [11, 14, 18] {
                names.push(format!(
                    "motion of mode {mode} left by ending {ending}, {origin}"
                ));
            }
        }
        for address in ENDS {
            names.push(format!(
                "motion of mode {mode} left, {FETCHED} at {address:o}o"
            ));
        }
    }
    // A vector continue ends before the edge.
    names.retain(|name| !name.contains("mode 3 left by ending 14"));
    names
}

/// One of `MOTIONS` and its last word, if there is such a motion.
fn motion_of(registers: &Registers) -> Option<(&'static str, u16)> {
    match registers.motion {
        Motion::Nothing | Motion::Character(_) => None,
        Motion::Line(line) => Some(("a line", line.last_word)),
        Motion::Bytes(bytes) => Some(("bytes", bytes.last_word)),
    }
}

/// Those of `PLACES` where a word lies. Far is a break field or more, either way round memory.
fn places_of(word: u16, display_address: u16) -> Vec<&'static str> {
    let ahead = (word + ADDRESSES - display_address) % ADDRESSES;
    let lies = [
        word == 0,
        word == 0o77777,
        ahead == ADDRESSES - 1,
        ahead == 0,
        (4_096..=ADDRESSES - 4_096).contains(&ahead),
    ];
    let places = PLACES.into_iter().zip(lies);
    places
        .filter_map(|(place, lies)| lies.then_some(place))
        .collect()
}

// ---------------------------------------------------------------- calls

/// The registers that an accepted call was given.
pub fn registers_reached(coverage: &mut Coverage, call: &str, given: &Registers) {
    let Some((motion, word)) = motion_of(given) else {
        return;
    };
    for place in places_of(word, given.display_address) {
        coverage.count(&format!(
            "{call} with {motion} unfinished, its last word {place}"
        ));
    }
}

/// The registers that a call was refused for. They have no more than one fault.
pub fn refusal_reached(coverage: &mut Coverage, call: &str, given: &Registers, refusal: Ending) {
    if refusal != Ending::RegistersOutOfRange {
        return;
    }
    if let Some((motion, word @ ADDRESSES..)) = motion_of(given) {
        let word = if word == ADDRESSES {
            "of 32,768"
        } else {
            "above 32,768"
        };
        coverage.count(&format!(
            "{call} refused 4 for a last word {word}, {motion}"
        ));
    }
}

pub fn operation_reached(
    coverage: &mut Coverage,
    before: &Registers,
    after: &Registers,
    operation: u32,
) {
    let Some((motion, word)) = motion_of(before) else {
        return;
    };
    coverage.count(&format!("operation {operation} with {motion} unfinished"));
    coverage.count_if(
        operation == 4 && !before.running,
        &format!("resume of a stopped display with {motion} unfinished"),
    );
    coverage.count_if(
        operation == 7 && before.running && !after.running,
        &format!("pen light stopping a display with {motion} unfinished"),
    );
    let left = motion_of(after);
    coverage.count_if(left.is_some_and(|left| left.1 != word), MOTION_DIFFERS);
}

// ---------------------------------------------------------------- turns

/// Where the point or the motion of a turn comes from, and the address of the last word: a command's
/// second one in modes 0, 2 and 3, else its only one, or what a motion was handed in with. Characters
/// are looked at apart.
fn origin_of(turn: &Turn) -> Option<(&'static str, u16)> {
    if matches!(turn.before.motion, Motion::Character(_)) {
        return None;
    }
    let Some(command) = turn.command else {
        return motion_of(turn.before).map(|(_, word)| (HANDED_IN, word));
    };
    let origin = if command.is_held { HELD } else { FETCHED };
    let word = match turn.before.mode {
        0 | 2 | 3 => address_after(command.address, 1),
        _ => command.address,
    };
    Some((origin, word))
}

/// 01, what the simulator covers, and 02, No. 5: the entry of a point, by the bits of its parts.
pub fn entry(lit: &Registers, last_word: u16) -> u64 {
    u64::from(lit.x)
        | u64::from(lit.y) << 10
        | u64::from(lit.intensity) << 20
        | u64::from(lit.blink) << 23
        | u64::from(last_word) << 24
}

/// A turn that made a beat.
pub fn beat_reached(coverage: &mut Coverage, turn: &Turn, memory: &[u16]) {
    let Some((origin, word)) = origin_of(turn) else {
        return;
    };
    let left = motion_of(turn.after);
    coverage.count_if(left.is_some_and(|left| left.1 != word), MOTION_DIFFERS);
    if let Some(point) = turn.point {
        coverage.count_if(point != entry(turn.after, word), ENTRY_DIFFERS);
        point_reached(coverage, turn, origin, word);
        let is_wide = peek(memory, word) > GREATEST_WORD;
        for (reached, what) in [
            (!turn.loan.allows_fetch(word), "telling a word not lent"),
            (is_wide, "telling a word above 4,095"),
        ] {
            coverage.count_if(reached, &format!("point {what}, {origin}"));
        }
        for (name, number) in ENTRIES {
            coverage.count_if(
                point == number,
                &format!("point with the {name} entry, {origin}"),
            );
        }
    }
}

fn point_reached(coverage: &mut Coverage, turn: &Turn, origin: &str, word: u16) {
    let before = turn.before;
    let mode = before.mode;
    coverage.count(&format!("point of mode {mode}, {origin}"));
    match turn.command {
        Some(command) => {
            let address = command.address;
            coverage.count(&format!("point of mode {mode}, {origin} at {address:o}o"));
        }
        None => {
            for place in places_of(word, before.display_address) {
                coverage.count(&format!(
                    "point of mode {mode}, {origin}, its last word {place}"
                ));
            }
        }
    }
    if let Motion::Bytes(bytes) = before.motion {
        let side = match bytes.side {
            Side::Left => "left",
            Side::Right => "right",
        };
        coverage.count(&format!("point of a {side} byte, {origin}"));
    }
}

/// The last turn of a run.
pub fn ending_reached(coverage: &mut Coverage, turn: &Turn, ending: Ending) {
    if motion_of(turn.after).is_none() {
        return;
    }
    let (mode, number) = (turn.after.mode, ending.number());
    if let Some((origin, _)) = origin_of(turn) {
        coverage.count(&format!(
            "motion of mode {mode} left by ending {number}, {origin}"
        ));
        if let Some(command) = turn.command {
            let address = command.address;
            coverage.count(&format!(
                "motion of mode {mode} left, {origin} at {address:o}o"
            ));
        }
    }
}
