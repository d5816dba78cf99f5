//! The numbers of `../eveglome.h` under the same names, without the prefix.

/// How many words a memory has.
pub const MEMORY: usize = 32_768;

/// How many bytes are room for any listing: the words of all memory, with the longest line, which
/// has 43 bytes.
pub const LONGEST_LISTING: usize = 1_409_024;

/// A module of constants, and in tests the list of them.
macro_rules! names {
    ($(#[$about:meta])* $module:ident: $type:ty {
        $($(#[$limit:meta])* $name:ident = $number:literal,)*
    }) => {
        $(#[$about])*
        pub mod $module {
            $($(#[$limit])* pub const $name: $type = $number;)*

            #[cfg(test)]
            pub(crate) const ALL: &[(&str, $type)] = &[$((stringify!($name), $number)),*];
        }
    };
}

names! {
    /// The places of a row of registers: 30 registers, the kind of motion, and the motion's
    /// numbers.
    ///
    /// Each place has its limits here; a number outside them is refusal 4. Refused together, as 4
    /// too, are only a word where none is held, a line or bytes with a state or a mode that they
    /// cannot have, and numbers of a motion that do not agree, as said with them. Any other
    /// registers go together: a display may run with a flag on that stops it, a stopped one may
    /// have a stop request, a word may be held beside a motion, a character may be unfinished in
    /// any state and mode, and the words of a motion may lie anywhere.
    place: usize {
        /// The display address, up to 32,767.
        ADDRESS = 0,
        /// The pushdown pointer, up to 4,095.
        POINTER = 1,
        /// Up to 8,191; on the screen, in sector 0, up to 1,023.
        X = 2,
        /// Up to 8,191; on the screen, in sector 0, up to 1,023.
        Y = 3,
        /// 0 control, 1 data; 1 with a line or bytes.
        STATE = 4,
        /// Up to 7; with a line 2, 3 or 4, with bytes 1.
        MODE = 5,
        /// Up to 3.
        SCALE = 6,
        /// Up to 7.
        INTENSITY = 7,
        /// 0 or 1.
        PEN_ENABLE = 8,
        /// 0 or 1.
        PEN_HOLD = 9,
        /// 0 or 1; LPSI.
        PEN_SENSE = 10,
        /// 0 or 1.
        BLINK = 11,
        /// 0 or 1.
        IDLE = 12,
        /// Up to 4,095: 12 bits, button 0 the leftmost.
        BUTTONS = 13,
        /// 0 or 1; the hit flag of bank 1, buttons 0 to 5.
        HIT_1 = 14,
        /// 0 or 1; the hit flag of bank 2, buttons 6 to 11.
        HIT_2 = 15,
        /// 0 or 1.
        INTERNAL_STOP_FLAG = 16,
        /// 0 or 1.
        EXTERNAL_STOP_FLAG = 17,
        /// 0 or 1.
        VERTICAL_EDGE_FLAG = 18,
        /// 0 or 1.
        HORIZONTAL_EDGE_FLAG = 19,
        /// 0 or 1.
        PEN_FLAG = 20,
        /// 0 or 1.
        MANUAL_INTERRUPT_FLAG = 21,
        /// Up to 4,095: the 12 initial-condition bits, bit 0 the leftmost.
        CONDITIONS = 22,
        /// 0 or 1.
        RUNNING = 23,
        /// 0 or 1.
        STOP_REQUEST = 24,
        /// 0 or 1; whether a word is held, as from an external stop to the next command.
        HELD = 25,
        /// The held word, up to 4,095; 0 if none is held.
        HELD_WORD = 26,
        /// 0 or 1; the character generator's case: with 1 a code of six bits is looked up 64 words
        /// further on.
        CASE = 27,
        /// 0 or 1: the next character word has two codes of six bits, or one of seven.
        CODE_SIZE = 28,
        /// Up to 63; the character generator's starting address register: its table begins at 512
        /// times this number.
        STARTING_ADDRESS = 29,
        /// 0 nothing; 1 a line, only in data state and modes 2, 3, 4; 2 bytes of an increment
        /// word, only in data state and mode 1; 3 an unfinished character, in any state and mode.
        /// What its kind does not use is not looked at, and written 0.
        MOTION = 30,
        /// 0 or 1.
        LINE_MINUS_Y = 31,
        /// 0 or 1.
        LINE_MINUS_X = 32,
        /// Up to 1,023; not 0 if the other magnitude is.
        LINE_MAGNITUDE_Y = 33,
        /// Up to 1,023; not 0 if the other magnitude is.
        LINE_MAGNITUDE_X = 34,
        /// 01's n: just the larger magnitude, so 1 to 1,023.
        LINE_MOVES = 35,
        /// 01's k: below n, so up to 1,022.
        LINE_DONE = 36,
        /// 0 or 1.
        LINE_LIT = 37,
        /// 0 or 1.
        LINE_ESCAPE = 38,
        /// The address of the last word of the line's command, up to 32,767; the points of its
        /// moves tell it.
        LINE_LAST_WORD = 39,
        /// Up to 4,095. Bits 1 and 2 of each of its bytes say the byte's moves: 00 one, and the
        /// byte escapes; 01, 10, 11 one, two, three.
        BYTES_WORD = 31,
        /// 0 the left byte, 1 the right one, which only if the left byte does not escape.
        BYTES_SIDE = 32,
        /// 1 to 3, and no more than the moves of that byte.
        BYTES_MOVES_LEFT = 33,
        /// The address of the increment word, up to 32,767; the points of its moves tell it.
        BYTES_LAST_WORD = 34,
        /// The character word, up to 4,095. Of one with two codes the left one comes first, and the
        /// right one as soon as the left one is done.
        CHARACTER_WORD = 31,
        /// 0 or 1: it has codes of six bits or of seven, whatever [`CODE_SIZE`] is by now.
        CHARACTER_SIZE = 32,
        /// 0 the left character or the only one, 1 the right one, which is the last in either size.
        CHARACTER_SIDE = 33,
        /// What comes next: 0 its table word; 1 a word of its routine; 2 a move of an increment
        /// word of its routine, with the limits of bytes, but the side may be right where the left
        /// byte escapes, too; 3 a move of a short vector word, with the limits of a line. What its
        /// stage does not use is not looked at, and written 0.
        CHARACTER_STAGE = 34,
        /// 0 increment words, 1 short vector words.
        ROUTINE_KIND = 35,
        /// The address of the word that comes next, up to 32,767.
        ROUTINE_NEXT = 36,
        /// Up to 4,095.
        ROUTINE_BYTES_WORD = 35,
        /// 0 the left byte, 1 the right one.
        ROUTINE_BYTES_SIDE = 36,
        /// 1 to 3, and no more than the moves of that byte.
        ROUTINE_BYTES_MOVES_LEFT = 37,
        /// The address of the routine word, up to 32,767; the points of its moves tell it.
        ROUTINE_BYTES_LAST_WORD = 38,
        /// 0 or 1.
        ROUTINE_LINE_MINUS_Y = 35,
        /// 0 or 1.
        ROUTINE_LINE_MINUS_X = 36,
        /// Up to 1,023; not 0 if the other magnitude is.
        ROUTINE_LINE_MAGNITUDE_Y = 37,
        /// Up to 1,023; not 0 if the other magnitude is.
        ROUTINE_LINE_MAGNITUDE_X = 38,
        /// 01's n: just the larger magnitude, so 1 to 1,023.
        ROUTINE_LINE_MOVES = 39,
        /// 01's k: below n, so up to 1,022.
        ROUTINE_LINE_DONE = 40,
        /// 0 or 1.
        ROUTINE_LINE_LIT = 41,
        /// 0 or 1; the escape ends the character.
        ROUTINE_LINE_ESCAPE = 42,
        /// The address of the routine word, up to 32,767; the points of its moves tell it.
        ROUTINE_LINE_LAST_WORD = 43,
        /// How many places there are.
        ROW = 44,
    }
}

names! {
    /// The places of a loan. [`crate::Loan`] has its limits.
    loan: usize {
        FILE_LOW = 0,
        FILE_HIGH = 1,
        LIST_LOW = 2,
        LIST_HIGH = 3,
        LOAN = 4,
    }
}

names! {
    /// The places of an operation's or a run's answer.
    answer: usize {
        ENDING = 0,
        WORD = 1,
        BEATS = 2,
        POINTS = 3,
        FENCE_ADDRESS = 4,
        ANSWER = 5,
    }
}

names! {
    /// The places of a listing's or a reading's answer.
    listing_answer: usize {
        LISTING_REFUSAL = 0,
        LISTING_LINE = 1,
        LISTING_LENGTH = 2,
        LISTING_ANSWER = 3,
    }
}

names! {
    /// How a call ended: 0 for an operation, a listing or a reading that was done, 1 to 7, 23 and
    /// 24 refused, 10 to 19 how a run ended. A run ends at the fence with 16 or 19.
    ending: u32 {
        /// An operation, a listing or a reading was done.
        DONE = 0,
        /// Memory is not 32,768 long.
        MEMORY_LENGTH = 1,
        /// Budget above 65,535.
        BUDGET_TOO_LARGE = 2,
        /// Low above high, or high above 32,768, of a loan or of the range that is listed or read.
        BAD_LOAN = 3,
        /// Outside the limits that stand in [`crate::place`].
        REGISTERS_OUT_OF_RANGE = 4,
        /// None of [`crate::operation`].
        UNKNOWN_OPERATION = 5,
        /// None that the operation takes; of a listing or a reading, a state above 1 or a mode
        /// above 7.
        OPERAND_OUT_OF_RANGE = 6,
        /// A text that is no listing of that range from that state and mode; its first wrong line
        /// is told.
        LINE_NOT_IN_FORM = 7,
        /// Not running at entry.
        NOT_RUNNING = 10,
        /// Still running.
        BUDGET_SPENT = 11,
        /// Stopped by a word.
        INTERNAL_STOP = 12,
        /// Stopped by a stop request. Unless a word is held already, the word at the display
        /// address is fetched and held; the address stays.
        EXTERNAL_STOP = 13,
        /// Stopped by a move past an edge.
        EDGE = 14,
        /// Stopped in data state and mode 7, before a beat; or by a control character of the unused
        /// fourth form, whose beat counts and ends that character.
        UNUSABLE_MODE = 15,
        /// Still running, before a fetch outside both ranges; if the fetch is a stop's, the request
        /// stays.
        FETCH_OUTSIDE_LOAN = 16,
        /// Still running, before a word above 4,095; if a stop would hold it, the request stays.
        WIDE_WORD = 17,
        /// Still running, before a point that has no room.
        POINTS_FULL = 18,
        /// Still running, before a push's write outside the list range.
        WRITE_OUTSIDE_LOAN = 19,
        /// The text list has fewer bytes than the listing.
        TEXT_TOO_SHORT = 23,
        /// A word of the range that is to be listed is above 4,095.
        WIDE_WORD_IN_RANGE = 24,
    }
}

names! {
    /// The host operations.
    ///
    /// One that is done answers [`crate::ending::DONE`], and word 0 unless it is a read. Its
    /// operand is 0 unless one stands here; another number is refusal 6. A number that is no
    /// operation is refusal 5. The flags that stop are those of internal stop, external stop, both
    /// edges and the pen. Bits of a word count from 0 at the left.
    operation: u32 {
        /// Operand: an address up to 32,767. Runs from it in control state and mode 0; clears the
        /// flags that stop, stop request, pen hold, held word and motion.
        START = 1,
        /// Operand: the pushdown pointer, up to 4,095.
        SET_POINTER = 2,
        /// Operand: the 12 initial-condition bits, up to 4,095.
        SET_CONDITIONS = 3,
        /// If stopped, clears the flags that stop, and runs; a held word stays for the next
        /// command. If the pen flag was on and condition bit 2 is 1, pen enable goes off, and pen
        /// hold goes on if bit 3 is 0.
        RESUME = 4,
        /// Stops in control state and mode 0; clears the flags that stop, stop request, pen hold,
        /// held word, motion and the low 12 bits of the address.
        CLEAR = 5,
        /// If running, a stop request: a run ends by it as soon as no motion is left, and the next
        /// word is held.
        ASK_TO_STOP = 6,
        /// The pen sees light: pen sense on; if running and pen enable is on, pen flag on and
        /// stopped.
        PEN_LIGHT = 7,
        /// Operand: a button, up to 11. Complements it and sets the hit flag of its bank.
        PRESS_BUTTON = 8,
        /// Operand: 0 for buttons 0 to 5, 1 for 6 to 11. Clears these buttons; the hit flags stay.
        CLEAR_GROUP = 9,
        /// Sets the manual interrupt flag, which stops nothing.
        MANUAL_INTERRUPT_ON = 10,
        /// Clears the manual interrupt flag.
        MANUAL_INTERRUPT_OFF = 11,
        /// Sets idle.
        IDLE_ON = 12,
        /// Answers the pushdown pointer.
        READ_POINTER = 20,
        /// Answers the low 12 bits of x; the high one is in status 2.
        READ_X = 21,
        /// Answers the low 12 bits of y; the high one is in status 2.
        READ_Y = 22,
        /// Answers the low 12 bits of the display address; the high three are in status 1.
        READ_ADDRESS = 23,
        /// Answers status 1, then clears both hit flags. Bits 0 to 8: pen flag, vertical edge,
        /// horizontal edge, internal stop, in sector 0, control state, manual interrupt, either
        /// hit flag, interrupt; 9 to 11: the high bits of the address.
        READ_STATUS_1 = 24,
        /// Answers status 2. Bit 0: in a right byte, of a routine too; 1: pen enable; 2, 3: the
        /// high bits of y and x; 4, 5: scale; 6 to 8: mode; 9 to 11: intensity.
        READ_STATUS_2 = 25,
        /// Answers the 12 buttons, button 0 in bit 0, the leftmost.
        READ_BUTTONS = 26,
        /// Operand: the character generator's case in bit 3, code size in bit 4, starting address
        /// register in bits 6 to 11; any other bit, so what is not inside 0677 octal, is refusal 6.
        /// Sets these three, at any time: case and register hold from the next table word on, the
        /// size from the next character word on.
        SET_GENERATOR = 30,
        /// Answers the character generator's word. Bit 0: data state and mode 5; 1: in a right
        /// character; 3: case; 4: code size; 6 to 11: starting address register.
        READ_GENERATOR = 31,
    }
}

#[cfg(test)]
mod tests {
    use std::fmt::Display;

    /// The enumerators that the header has between two marks.
    fn header(enumeration: &str) -> Vec<String> {
        let text = include_str!("../../eveglome.h");
        let (_, rest) = text.split_once(enumeration).unwrap();
        let (body, _) = rest.split_once("};").unwrap();
        body.lines()
            .filter_map(|line| line.trim().strip_prefix("EVEGLOME_"))
            .map(|line| line.split(['/', ',']).next().unwrap().trim().to_string())
            .collect()
    }

    fn here<N: Display>(names: &[(&str, N)]) -> Vec<String> {
        names
            .iter()
            .map(|(name, number)| format!("{name} = {number}"))
            .collect()
    }

    #[test]
    fn the_header_has_the_same_numbers() {
        assert_eq!(header("enum eveglome_place {"), here(super::place::ALL));
        assert_eq!(header("enum eveglome_loan {"), here(super::loan::ALL));
        assert_eq!(header("enum eveglome_answer {"), here(super::answer::ALL));
        let listing = header("enum eveglome_listing_answer {");
        assert_eq!(listing, here(super::listing_answer::ALL));
        assert_eq!(header("enum eveglome_ending {"), here(super::ending::ALL));
        let operations = header("enum eveglome_operation {");
        assert_eq!(operations, here(super::operation::ALL));
    }

    #[test]
    fn the_header_has_the_same_lengths() {
        let text = include_str!("../../eveglome.h");
        for (name, number) in [
            ("MEMORY", super::MEMORY),
            ("LONGEST_LISTING", super::LONGEST_LISTING),
        ] {
            let line = format!("#define EVEGLOME_{name} {number}");
            assert!(text.lines().any(|found| found == line), "{line}");
        }
    }
}
