//! 02, No. 2: a listing of a class's words by the manual's mnemonics, and reading it back.
//!
//! The lister takes the names that a word asks for out of the table and leaves the rest over. The
//! reader never lists: it takes a line apart and judges each field, the rest by the manual's layout
//! of the word. So a slip in one direction shows in the other.

use std::cmp::Reverse;

use crate::refusals_and_endings::{LoanRange, MEMORY_LENGTH};
use crate::registers::{byte_escapes, byte_of, Side};
use crate::words::{bit, field, octal, GREATEST_WORD};

/// 02, No. 2: "Refusals, in order: 1; 3 for the range; 6 for state or mode; 24, a word above 4,095;
/// 23, text list too short; 7, a line not in form". Only the last tells a line, counted from 1.
#[derive(Clone, Copy, Debug, PartialEq, Eq)]
pub enum ListingRefusal {
    MemoryLength,
    BadRange,
    StateOrMode,
    WordTooWide,
    TextListTooShort,
    LineNotInForm(u32),
}

impl ListingRefusal {
    pub fn number(self) -> u32 {
        match self {
            ListingRefusal::MemoryLength => 1,
            ListingRefusal::BadRange => 3,
            ListingRefusal::StateOrMode => 6,
            ListingRefusal::WordTooWide => 24,
            ListingRefusal::TextListTooShort => 23,
            ListingRefusal::LineNotInForm(_) => 7,
        }
    }

    /// 02, No. 2: "any line not in this form is refused with its number". The others tell 0.
    pub fn line(self) -> u32 {
        match self {
            ListingRefusal::LineNotInForm(line) => line,
            _ => 0,
        }
    }
}

// ---------------------------------------------------------------- the mnemonics

/// The control words by their layouts in the manual's 2.1.
#[derive(Clone, Copy, Debug, PartialEq, Eq)]
pub enum Kind {
    /// Manual 2.1.1.
    Parameter,
    /// Manual 2.1.2.
    Mode,
    /// Manual 2.1.3.
    Jump,
    /// Manual 2.1.4.
    Pop,
    /// Manual 2.1.5.
    SkipBank1,
    /// Manual 2.1.6.
    SkipBank2,
    /// Manual 2.1.7.1.
    CompareBank1,
    /// Manual 2.1.7.2.
    CompareBank2,
    /// Manual 2.1.7.3.
    SkipOnFlags,
    /// Manual 2.1.7.4.
    Count,
    /// Manual 2.1.7.5.
    Slaves,
    /// Manual 2.1.8.
    Synchronization,
}

impl Kind {
    pub const ALL: [Kind; 12] = [
        Kind::Parameter,
        Kind::Mode,
        Kind::Jump,
        Kind::Pop,
        Kind::SkipBank1,
        Kind::SkipBank2,
        Kind::CompareBank1,
        Kind::CompareBank2,
        Kind::SkipOnFlags,
        Kind::Count,
        Kind::Slaves,
        Kind::Synchronization,
    ];

    /// The first three bits choose, and the next three in a miscellaneous word (manual 2.1.7).
    pub fn of(word: u16) -> Kind {
        match (field(word, 0, 2), field(word, 3, 5)) {
            (0, _) => Kind::Parameter,
            (1, _) => Kind::Mode,
            (2, _) => Kind::Jump,
            (3, _) => Kind::Pop,
            (4, _) => Kind::SkipBank1,
            (5, _) => Kind::SkipBank2,
            (6, 0) => Kind::CompareBank1,
            (6, 1) => Kind::CompareBank2,
            (6, 2) => Kind::SkipOnFlags,
            (6, 3) => Kind::Count,
            (6, _) => Kind::Slaves,
            _ => Kind::Synchronization,
        }
    }

    /// 02, No. 2: "base name first". No mnemonic of the manual is 0000, 1000, 6200, 6300 or 7000,
    /// so these words have modifiers only, or no names at all.
    fn has_base_name(self) -> bool {
        !matches!(
            self,
            Kind::Parameter | Kind::Mode | Kind::SkipOnFlags | Kind::Count | Kind::Synchronization
        )
    }
}

/// One row of the manual's table A3-3.
#[derive(Clone, Copy, Debug, PartialEq, Eq)]
pub struct Mnemonic {
    pub name: &'static str,
    pub code: u16,
    /// The bits of a word that decide on this name: it stands where they are those of the code.
    /// 02, No. 2: "used only when its enable bit is 1", so an enable bit is always among them.
    decided_by: u16,
    kinds: &'static [Kind],
    is_base: bool,
}

impl Mnemonic {
    pub fn is_of(&self, kind: Kind) -> bool {
        self.kinds.contains(&kind)
    }

    fn is_asked_by(&self, word: u16) -> bool {
        word & self.decided_by == self.code & self.decided_by
    }

    /// 02, No. 2: "base name first, modifiers by falling bit". The code without its op code falls
    /// with its leftmost bit. The two names of a slave unit share that bit, and the next decides.
    pub fn line_order(&self) -> (bool, Reverse<u16>) {
        (!self.is_base, Reverse(self.code & 0o0777))
    }
}

const fn base(name: &'static str, code: u16, decided_by: u16, kinds: &'static [Kind]) -> Mnemonic {
    Mnemonic {
        is_base: true,
        ..modifier(name, code, decided_by, kinds)
    }
}

const fn modifier(
    name: &'static str,
    code: u16,
    decided_by: u16,
    kinds: &'static [Kind],
) -> Mnemonic {
    Mnemonic {
        name,
        code,
        decided_by,
        kinds,
        is_base: false,
    }
}

const SCALE_AND_PEN: &[Kind] = &[Kind::Parameter, Kind::Jump, Kind::Pop];
const PARAMETER: &[Kind] = &[Kind::Parameter];
const MODE: &[Kind] = &[Kind::Mode];
const JUMP: &[Kind] = &[Kind::Jump];
const POP: &[Kind] = &[Kind::Pop];
const SKIP_BANK_1: &[Kind] = &[Kind::SkipBank1];
const SKIP_BANK_2: &[Kind] = &[Kind::SkipBank2];
const BOTH_SKIPS: &[Kind] = &[Kind::SkipBank1, Kind::SkipBank2];
const COMPARE_BANK_1: &[Kind] = &[Kind::CompareBank1];
const COMPARE_BANK_2: &[Kind] = &[Kind::CompareBank2];
const FLAGS: &[Kind] = &[Kind::SkipOnFlags];
const COUNT: &[Kind] = &[Kind::Count];
const SLAVES: &[Kind] = &[Kind::Slaves];

/// Manual, table A3-3, in its order. 02, No. 2: "a table kept once". Names are one each; values are
/// so only inside one kind of word (LPOF and SU0 are both 0040).
pub const MNEMONICS: [Mnemonic; 55] = [
    modifier("LPOF", 0o0040, 0o0060, SCALE_AND_PEN),
    modifier("LPON", 0o0060, 0o0060, SCALE_AND_PEN),
    modifier("SC1", 0o0400, 0o0700, SCALE_AND_PEN),
    modifier("SC2", 0o0500, 0o0700, SCALE_AND_PEN),
    modifier("SC4", 0o0600, 0o0700, SCALE_AND_PEN),
    modifier("SC8", 0o0700, 0o0700, SCALE_AND_PEN),
    // Manual 2.1.1: "INT only enables the change of intensity"; the number is not its own.
    modifier("INT", 0o0010, 0o0010, PARAMETER),
    modifier("EDS", 0o1001, 0o0001, MODE),
    modifier("CCB", 0o1002, 0o0002, MODE),
    modifier("CSB", 0o1004, 0o0004, MODE),
    modifier("POINT", 0o1100, 0o0170, MODE),
    modifier("INCR", 0o1110, 0o0170, MODE),
    modifier("VEC", 0o1120, 0o0170, MODE),
    modifier("VECON", 0o1130, 0o0170, MODE),
    modifier("SVEC", 0o1140, 0o0170, MODE),
    modifier("CHAR", 0o1150, 0o0170, MODE),
    modifier("GRAPH", 0o1160, 0o0170, MODE),
    modifier("CLDF", 0o1200, 0o0200, MODE),
    modifier("STOP", 0o1400, 0o0400, MODE),
    base("JUMP", 0o2000, 0o0010, JUMP),
    base("PJMP", 0o2010, 0o0010, JUMP),
    base("POP", 0o3000, 0o7000, POP),
    modifier("PEDS", 0o3001, 0o0001, POP),
    modifier("PNI", 0o3002, 0o0002, POP),
    modifier("PNLS", 0o3004, 0o0004, POP),
    modifier("PNM", 0o3010, 0o0010, POP),
    // Manual 2.1.5 prints SKI, table A3-3 has SK1.
    base("SK1", 0o4000, 0o7000, SKIP_BANK_1),
    modifier("INV", 0o0400, 0o0400, BOTH_SKIPS),
    modifier("CLAT", 0o0200, 0o0200, BOTH_SKIPS),
    modifier("COAT", 0o0100, 0o0100, BOTH_SKIPS),
    base("SK2", 0o5000, 0o7000, SKIP_BANK_2),
    base("SK3", 0o6000, 0o7700, COMPARE_BANK_1),
    base("SK4", 0o6100, 0o7700, COMPARE_BANK_2),
    modifier("SKIP", 0o6240, 0o0040, FLAGS),
    modifier("SNSZ", 0o6220, 0o0020, FLAGS),
    modifier("SPB1", 0o6210, 0o0010, FLAGS),
    modifier("SPB2", 0o6204, 0o0004, FLAGS),
    modifier("SLPSI", 0o6202, 0o0002, FLAGS),
    modifier("CLPSI", 0o6201, 0o0001, FLAGS),
    modifier("SCUP", 0o6340, 0o0060, COUNT),
    modifier("SCDN", 0o6360, 0o0060, COUNT),
    modifier("INTUP", 0o6310, 0o0014, COUNT),
    modifier("INTDN", 0o6314, 0o0014, COUNT),
    modifier("BKON", 0o6302, 0o0002, COUNT),
    modifier("BKOF", 0o6301, 0o0001, COUNT),
    base("SG0", 0o6400, 0o7700, SLAVES),
    base("SG1", 0o6500, 0o7700, SLAVES),
    base("SG2", 0o6600, 0o7700, SLAVES),
    base("SG3", 0o6700, 0o7700, SLAVES),
    // SU0 is "light pen and intensity off", so it stands only where neither is on.
    modifier("SU0", 0o0040, 0o0070, SLAVES),
    modifier("LP0", 0o0060, 0o0060, SLAVES),
    modifier("IT0", 0o0050, 0o0050, SLAVES),
    modifier("SU1", 0o0004, 0o0007, SLAVES),
    modifier("LP1", 0o0006, 0o0006, SLAVES),
    modifier("IT1", 0o0005, 0o0005, SLAVES),
];

// ---------------------------------------------------------------- state along the words

/// What the next word of a listing is.
#[derive(Clone, Copy, Debug, PartialEq, Eq)]
pub enum Part {
    ControlWord,
    SecondOfJump,
    DataWord,
    SecondOfData,
}

/// The next word's part, and the mode that data words are in or will be in.
#[derive(Clone, Copy, Debug, PartialEq, Eq)]
pub struct Place {
    pub part: Part,
    pub mode: u8,
}

impl Place {
    /// The place of the range's first word: from data state it is the first word of a command.
    /// There is none where state or mode is refusal 6.
    pub fn at_start(state: u8, mode: u8) -> Option<Place> {
        let part = match state {
            0 => Part::ControlWord,
            1 => Part::DataWord,
            _ => return None,
        };
        (mode <= 7).then_some(Place { part, mode })
    }

    /// 02, No. 2: "data state begins at an enter-data bit and lasts to the escape, with no jump
    /// followed".
    pub fn after(self, word: u16) -> Place {
        let part = match self.part {
            Part::ControlWord => return self.after_control_word(word),
            Part::SecondOfJump => Part::ControlWord,
            Part::DataWord => self.part_after_data_word(word),
            // Manual 2.2.1, 2.2.3, 2.2.4: bit 0 of the second word is the escape.
            Part::SecondOfData if bit(word, 0) => Part::ControlWord,
            Part::SecondOfData => Part::DataWord,
        };
        Place { part, ..self }
    }

    fn after_control_word(self, word: u16) -> Place {
        let enters = |enters: bool| {
            if enters {
                Part::DataWord
            } else {
                Part::ControlWord
            }
        };
        match Kind::of(word) {
            // Manual 2.1.2: bit 5 enables the mode change, bit 11 enters data state.
            Kind::Mode => Place {
                part: enters(bit(word, 11)),
                mode: if bit(word, 5) {
                    field(word, 6, 8) as u8
                } else {
                    self.mode
                },
            },
            Kind::Jump => Place {
                part: Part::SecondOfJump,
                ..self
            },
            // Manual 2.1.4: bit 11 enters data state. The mode that the pop would bring back is on
            // the pushdown list, which no listing sees.
            Kind::Pop => Place {
                part: enters(bit(word, 11)),
                ..self
            },
            _ => self,
        }
    }

    fn part_after_data_word(self, word: u16) -> Part {
        let escapes = match self.mode {
            0 | 2 | 3 => return Part::SecondOfData,
            1 => {
                byte_escapes(byte_of(word, Side::Left)) || byte_escapes(byte_of(word, Side::Right))
            }
            // Manual 2.2.5.
            4 => bit(word, 6),
            // Manual 2.2.7.
            6 => bit(word, 0),
            // 02, No. 2: "in data modes 5 and 7 the rest is octal".
            _ => false,
        };
        if escapes {
            Part::ControlWord
        } else {
            Part::DataWord
        }
    }
}

/// The tests that the lister and the reader make alike: 1; 3; 6. 01's refusal 3 for "the range".
fn place_at_start(
    memory: &[u16],
    range: LoanRange,
    state: u8,
    mode: u8,
) -> Result<Place, ListingRefusal> {
    if memory.len() != MEMORY_LENGTH {
        return Err(ListingRefusal::MemoryLength);
    }
    if !range.is_in_form() {
        return Err(ListingRefusal::BadRange);
    }
    Place::at_start(state, mode).ok_or(ListingRefusal::StateOrMode)
}

// ---------------------------------------------------------------- the lister

/// 02, No. 2: the words of a range as lines of text, from a starting state and a mode. The answer is
/// the bytes of the text; what stands behind them in the text list stays as it was. A refusal writes
/// nothing.
pub fn list_words(
    memory: &[u16],
    range: LoanRange,
    state: u8,
    mode: u8,
    text: &mut [u8],
) -> Result<usize, ListingRefusal> {
    let place = place_at_start(memory, range, state, mode)?;
    let words = &memory[usize::from(range.low)..usize::from(range.high)];
    if words.iter().any(|&word| word > GREATEST_WORD) {
        return Err(ListingRefusal::WordTooWide);
    }
    let listing = listing_of(words, range.low, place);
    // A text that just fits is taken, as 01's point list is filled to its last entry.
    match text.get_mut(..listing.len()) {
        Some(written) => {
            written.copy_from_slice(listing.as_bytes());
            Ok(listing.len())
        }
        None => Err(ListingRefusal::TextListTooShort),
    }
}

/// The lines of good words that begin at this address and place.
fn listing_of(words: &[u16], first: u16, mut place: Place) -> String {
    let mut listing = String::new();
    for (address, &word) in (first..).zip(words) {
        listing.push_str(&line(address, word, place));
        place = place.after(word);
    }
    listing
}

/// 02, No. 2: "the address in five octal digits, the word in four, then the manual's mnemonics ...,
/// one space between fields, a newline last. Second words of two-word commands and data words show
/// as octal only".
pub fn line(address: u16, word: u16, place: Place) -> String {
    let mut line = format!("{address:05o} {word:04o}");
    if place.part == Part::ControlWord {
        let mut rest = word;
        for mnemonic in mnemonics_of(word) {
            line.push(' ');
            line.push_str(mnemonic.name);
            rest &= !mnemonic.code;
        }
        // 02, No. 2: "Bits that no mnemonic covers end the line as one octal number, unless 0".
        if rest != 0 {
            line.push_str(&format!(" {rest:o}"));
        }
    }
    line.push('\n');
    line
}

/// The names of a control word, in the order of its line.
fn mnemonics_of(word: u16) -> Vec<&'static Mnemonic> {
    let kind = Kind::of(word);
    let mut mnemonics: Vec<&Mnemonic> = MNEMONICS
        .iter()
        .filter(|mnemonic| mnemonic.is_of(kind) && mnemonic.is_asked_by(word))
        .collect();
    mnemonics.sort_by_key(|mnemonic| mnemonic.line_order());
    mnemonics
}

// ---------------------------------------------------------------- the reader

/// 02, No. 2: "Reading a listing back must give the same words, and any line not in this form is
/// refused with its number". An accepted text sets the words of the range and no other. A refusal
/// writes nothing.
pub fn read_listing(
    memory: &mut [u16],
    range: LoanRange,
    state: u8,
    mode: u8,
    text: &[u8],
) -> Result<(), ListingRefusal> {
    let place = place_at_start(memory, range, state, mode)?;
    let words = words_of(text, range, place)?;
    memory[usize::from(range.low)..usize::from(range.high)].copy_from_slice(&words);
    Ok(())
}

/// The words that a text says for a range in form, from this place on.
fn words_of(text: &[u8], range: LoanRange, mut place: Place) -> Result<Vec<u16>, ListingRefusal> {
    let mut words = Vec::new();
    let mut unread = text;
    let mut line_number = 1;
    for address in range.low..range.high {
        let not_in_form = ListingRefusal::LineNotInForm(line_number);
        let (line, later) = finished_line(unread).ok_or(not_in_form)?;
        let word = read_line(line, address, place).ok_or(not_in_form)?;
        words.push(word);
        place = place.after(word);
        unread = later;
        line_number += 1;
    }
    // One line a word: whatever stands behind the last is a line too many, finished or not.
    if unread.is_empty() {
        Ok(words)
    } else {
        Err(ListingRefusal::LineNotInForm(line_number))
    }
}

/// The first line without its newline, and what follows it. There is none in a text that is at its
/// end or has no newline more.
fn finished_line(text: &[u8]) -> Option<(&[u8], &[u8])> {
    let end = text.iter().position(|&byte| byte == b'\n')?;
    Some((&text[..end], &text[end + 1..]))
}

/// The word of a line that is in form at this address and place.
fn read_line(line: &[u8], address: u16, place: Place) -> Option<u16> {
    // A space too many leaves an empty field, which is neither a number nor a name.
    let mut fields = line.split(|&byte| byte == b' ');
    if octal_of_width(fields.next()?, 5)? != address {
        return None;
    }
    let word = octal_of_width(fields.next()?, 4)?;
    let names_and_rest: Vec<&[u8]> = fields.collect();
    let fits = if place.part == Part::ControlWord {
        names_and_rest_fit(word, &names_and_rest)
    } else {
        names_and_rest.is_empty()
    };
    fits.then_some(word)
}

fn octal_of_width(digits: &[u8], width: usize) -> Option<u16> {
    if digits.len() == width {
        octal(digits)
    } else {
        None
    }
}

/// Whether these fields, and no others, stand behind a control word: the names in order, each true
/// of the word; the rest just the bits without a name; and both together the whole word.
fn names_and_rest_fit(word: u16, fields: &[&[u8]]) -> bool {
    let Some((names, rest)) = split_rest(fields) else {
        return false;
    };
    let kind = Kind::of(word);
    let mut assembled = rest;
    let mut last_order = None;
    for (index, &name) in names.iter().enumerate() {
        let Some(mnemonic) = mnemonic_named(name) else {
            return false;
        };
        let base_is_due = index == 0 && kind.has_base_name();
        let order = Some(mnemonic.line_order());
        if !mnemonic.is_of(kind)
            || !mnemonic.is_asked_by(word)
            || mnemonic.is_base != base_is_due
            || last_order >= order
        {
            return false;
        }
        assembled |= mnemonic.code;
        last_order = order;
    }
    // A base name that is missing leaves its op code out of both.
    rest == bits_without_a_name(word) && assembled == word
}

/// The names, and the number behind them, or 0 if there is none. No mnemonic begins with a digit,
/// so a last field that does is the number.
fn split_rest<'a, 'b>(fields: &'a [&'b [u8]]) -> Option<(&'a [&'b [u8]], u16)> {
    match fields.split_last() {
        Some((last, names)) if last.first().is_some_and(u8::is_ascii_digit) => {
            // 02, No. 2: "one octal number, unless 0". It is a part of a word, so four digits at
            // most, and a 0 in front would be a second way to write it.
            if last.len() > 4 || last[0] == b'0' {
                return None;
            }
            Some((names, octal(last)?))
        }
        _ => Some((fields, 0)),
    }
}

fn mnemonic_named(name: &[u8]) -> Option<&'static Mnemonic> {
    MNEMONICS
        .iter()
        .find(|mnemonic| mnemonic.name.as_bytes() == name)
}

/// The bits of a control word that no mnemonic covers, by the manual's layouts and not by the
/// table's codes.
fn bits_without_a_name(word: u16) -> u16 {
    // Manual 2.1.1, 2.1.3, 2.1.4: scale and pen have names only where bits 3 and 6 enable them.
    let scale_and_pen = only_if(!bit(word, 3), 0o0300) | only_if(!bit(word, 6), 0o0020);
    let nameless = match Kind::of(word) {
        // The intensity's number.
        Kind::Parameter => scale_and_pen | 0o0007,
        // Manual 2.1.2: bit 5 enables the mode, and mode 7 has no name.
        Kind::Mode => {
            let has_mode = bit(word, 5) && field(word, 6, 8) != 7;
            let has_name = has_mode || word & 0o0607 != 0;
            only_if(!has_mode, 0o0170) | only_if(!has_name, 0o1000)
        }
        // The break field.
        Kind::Jump => scale_and_pen | 0o0007,
        Kind::Pop => scale_and_pen,
        // The six buttons.
        Kind::SkipBank1 | Kind::SkipBank2 | Kind::CompareBank1 | Kind::CompareBank2 => 0o0077,
        // Manual 2.1.7.3: each of the six bits has a name, and without any the op code has none.
        Kind::SkipOnFlags => only_if(word & 0o0077 == 0, 0o6200),
        // Manual 2.1.7.4: bits 6 and 8 enable the counts, and their names cover bits 7 and 9.
        Kind::Count => {
            only_if(!bit(word, 6), 0o0020)
                | only_if(!bit(word, 8), 0o0004)
                | only_if(word & 0o0053 == 0, 0o6300)
        }
        // Manual 2.1.7.5: bits 6 and 9 enable the units.
        Kind::Slaves => only_if(!bit(word, 6), 0o0030) | only_if(!bit(word, 9), 0o0003),
        // Manual 2.1.8 has no mnemonics.
        Kind::Synchronization => 0o7777,
    };
    word & nameless
}

fn only_if(condition: bool, bits: u16) -> u16 {
    if condition {
        bits
    } else {
        0
    }
}

#[cfg(test)]
pub mod tests {
    use super::*;

    const FIRST: u16 = 0o200;
    /// No line is longer than this: `00200 6277 SKIP SNSZ SPB1 SPB2 SLPSI CLPSI`.
    const LONGEST_LINE: usize = 43;

    fn range(low: u16, high: u16) -> LoanRange {
        LoanRange { low, high }
    }

    /// The listing of words from 00200 on.
    fn listed(state: u8, mode: u8, words: &[u16]) -> String {
        listing_of(words, FIRST, Place::at_start(state, mode).unwrap())
    }

    /// The words that a text says in a range from 00200 on, or the refusal.
    fn read(state: u8, mode: u8, count: u16, text: &[u8]) -> Result<Vec<u16>, ListingRefusal> {
        let place = Place::at_start(state, mode).unwrap();
        words_of(text, range(FIRST, FIRST + count), place)
    }

    fn not_in_form(line: u32) -> Result<Vec<u16>, ListingRefusal> {
        Err(ListingRefusal::LineNotInForm(line))
    }

    /// What the reader is defined by: the texts that the lister writes for some words. The words
    /// can only be those that stand behind the addresses, so these are listed and compared.
    pub fn words_by_definition(
        text: &[u8],
        range: LoanRange,
        place: Place,
    ) -> Result<Vec<u16>, ListingRefusal> {
        let lines: Vec<&[u8]> = text.split_inclusive(|&byte| byte == b'\n').collect();
        let words: Vec<u16> = (0..usize::from(range.high - range.low))
            .map(|index| {
                let digits = lines.get(index).and_then(|line| line.get(6..10));
                digits.and_then(octal).unwrap_or(0)
            })
            .collect();
        let listing = listing_of(&words, range.low, place);
        let wanted: Vec<&[u8]> = listing
            .as_bytes()
            .split_inclusive(|&byte| byte == b'\n')
            .collect();
        for index in 0..wanted.len().max(lines.len()) {
            if wanted.get(index) != lines.get(index) {
                return not_in_form(index as u32 + 1);
            }
        }
        Ok(words)
    }

    /// The reader against its definition, on a range from 00200 on.
    fn check_by_definition(state: u8, mode: u8, count: u16, text: &[u8]) {
        let place = Place::at_start(state, mode).unwrap();
        assert_eq!(
            read(state, mode, count, text),
            words_by_definition(text, range(FIRST, FIRST + count), place),
            "{:?} from state {state}, mode {mode}",
            String::from_utf8_lossy(text)
        );
    }

    #[test]
    fn the_table_has_each_name_once_and_each_value_once_in_a_kind() {
        for (index, one) in MNEMONICS.iter().enumerate() {
            assert!((3..=5).contains(&one.name.len()), "{}", one.name);
            assert!(one.name.as_bytes()[0].is_ascii_uppercase());
            for other in &MNEMONICS[..index] {
                assert_ne!(one.name, other.name);
                let share_a_kind = one.kinds.iter().any(|&kind| other.is_of(kind));
                assert!(!share_a_kind || one.code != other.code, "{}", one.name);
            }
        }
    }

    #[test]
    fn base_names_and_their_kinds() {
        let bases: Vec<&str> = MNEMONICS
            .iter()
            .filter(|mnemonic| mnemonic.is_base)
            .map(|mnemonic| mnemonic.name)
            .collect();
        assert_eq!(
            bases,
            ["JUMP", "PJMP", "POP", "SK1", "SK2", "SK3", "SK4", "SG0", "SG1", "SG2", "SG3"]
        );
        for word in 0..=0o7777 {
            let asked = mnemonics_of(word);
            let asked_bases = asked.iter().filter(|mnemonic| mnemonic.is_base).count();
            assert_eq!(asked_bases, usize::from(Kind::of(word).has_base_name()));
            // A name that a word asks for says only bits that the word has.
            for mnemonic in asked {
                assert_eq!(mnemonic.code & !word, 0, "{} in {word:04o}", mnemonic.name);
            }
        }
    }

    /// 02, No. 2, and the manual's own lines.
    #[test]
    fn control_words_by_their_mnemonics() {
        let mut names_seen = std::collections::HashSet::new();
        for (word, fields) in [
            (0o0000, ""),
            (0o0010, " INT"),
            (0o0014, " INT 4"),
            (0o0114, " INT 104"),
            (0o0300, " 300"),
            (0o0400, " SC1"),
            (0o0515, " SC2 INT 5"),
            (0o0554, " SC2 LPOF INT 4"),
            (0o0663, " SC4 LPON 3"),
            (0o0777, " SC8 LPON INT 7"),
            (0o1000, " 1000"),
            (0o1071, " EDS 70"),
            (0o1107, " POINT CSB CCB EDS"),
            (0o1111, " INCR EDS"),
            (0o1121, " VEC EDS"),
            (0o1140, " SVEC"),
            (0o1151, " CHAR EDS"),
            (0o1160, " GRAPH"),
            (0o1170, " 1170"),
            (0o1171, " EDS 170"),
            (0o1200, " CLDF"),
            (0o1400, " STOP"),
            (0o1500, " STOP POINT"),
            (0o1737, " STOP CLDF VECON CSB CCB EDS"),
            (0o2000, " JUMP"),
            (0o2013, " PJMP 3"),
            (0o2543, " JUMP SC2 LPOF 3"),
            (0o2327, " JUMP 327"),
            (0o3000, " POP"),
            (0o3001, " POP PEDS"),
            (0o3020, " POP 20"),
            (0o3557, " POP SC2 LPOF PNM PNLS PNI PEDS"),
            (0o4240, " SK1 CLAT 40"),
            (0o4300, " SK1 CLAT COAT"),
            (0o5701, " SK2 INV CLAT COAT 1"),
            (0o6000, " SK3"),
            (0o6017, " SK3 17"),
            (0o6177, " SK4 77"),
            (0o6200, " 6200"),
            (0o6277, " SKIP SNSZ SPB1 SPB2 SLPSI CLPSI"),
            (0o6300, " 6300"),
            (0o6324, " 6324"),
            (0o6327, " BKON BKOF 24"),
            (0o6350, " SCUP INTUP"),
            (0o6377, " SCDN INTDN BKON BKOF"),
            (0o6400, " SG0"),
            (0o6540, " SG1 SU0"),
            (0o6550, " SG1 IT0"),
            (0o6560, " SG1 LP0"),
            (0o6570, " SG1 LP0 IT0"),
            (0o6644, " SG2 SU0 SU1"),
            (0o6707, " SG3 LP1 IT1"),
            (0o6733, " SG3 33"),
            (0o7000, " 7000"),
            (0o7001, " 7001"),
        ] {
            let line = format!("00200 {word:04o}{fields}\n");
            assert_eq!(listed(0, 0, &[word]), line);
            assert_eq!(read(0, 7, 1, line.as_bytes()), Ok(vec![word]));
            names_seen.extend(fields.split(' '));
        }
        for mnemonic in MNEMONICS {
            assert!(names_seen.contains(mnemonic.name), "{}", mnemonic.name);
        }
    }

    /// 01's example, the manual's letter A and its square with the corner cut, and mode 5.
    #[test]
    fn data_words_are_octal_only() {
        for (mode, words, listing) in [
            (
                0,
                vec![0o1101, 0o4144, 0o4310, 0o1400],
                "00200 1101 POINT EDS\n00201 4144\n00202 4310\n00203 1400 STOP\n",
            ),
            (
                0,
                vec![0o1111, 0o1672, 0o3762, 0o2701, 0o3000],
                "00200 1111 INCR EDS\n00201 1672\n00202 3762\n00203 2701\n00204 3000 POP\n",
            ),
            (
                0,
                vec![0o1121, 0o4000, 0o0001, 0o0000, 0o4001, 0o1400],
                "00200 1121 VEC EDS\n00201 4000\n00202 0001\n00203 0000\n00204 4001\n\
                 00205 1400 STOP\n",
            ),
            (
                0,
                vec![0o1151, 0o0104, 0o1400],
                "00200 1151 CHAR EDS\n00201 0104\n00202 1400\n",
            ),
            // A stop does not end the listing, nor keep it from data state.
            (
                4,
                vec![0o1401, 0o0000, 0o0040, 0o1400],
                "00200 1401 STOP EDS\n00201 0000\n00202 0040\n00203 1400 STOP\n",
            ),
            // A pop enters data state in the mode that the listing had.
            (
                6,
                vec![0o3001, 0o0040, 0o4000, 0o1400],
                "00200 3001 POP PEDS\n00201 0040\n00202 4000\n00203 1400 STOP\n",
            ),
            // A mode without its enable bit changes nothing.
            (
                6,
                vec![0o1041, 0o0040, 0o4000, 0o1400],
                "00200 1041 EDS 40\n00201 0040\n00202 4000\n00203 1400 STOP\n",
            ),
            // Mode 7 has no name, and its data state has no end.
            (
                0,
                vec![0o1170, 0o1001, 0o7777, 0o1400],
                "00200 1170 1170\n00201 1001 EDS\n00202 7777\n00203 1400\n",
            ),
        ] {
            assert_eq!(listed(0, mode, &words), listing);
            let count = words.len() as u16;
            assert_eq!(read(0, mode, count, listing.as_bytes()), Ok(words));
        }
    }

    #[test]
    fn no_jump_is_followed_and_its_second_word_is_octal() {
        assert_eq!(
            listed(0, 0, &[0o2010, 0o1101, 0o2543, 0o3001, 0o1400, 0o2000]),
            "00200 2010 PJMP\n00201 1101\n00202 2543 JUMP SC2 LPOF 3\n00203 3001\n\
             00204 1400 STOP\n00205 2000 JUMP\n"
        );
    }

    /// Every word as a data word of every mode, with a stop behind it that shows the state.
    #[test]
    fn each_mode_has_its_escape() {
        let stop = |words: &[u16], mode: u8| {
            let listing = listed(1, mode, words);
            for (index, line) in listing.lines().enumerate().take(words.len() - 1) {
                assert_eq!(line, format!("{:05o} {:04o}", 0o200 + index, words[index]));
            }
            listing.ends_with(" 1400 STOP\n")
        };
        for word in 0..=0o7777u16 {
            for mode in [0, 2, 3] {
                assert!(!stop(&[word, 0o1400], mode));
                assert_eq!(stop(&[0o4444, word, 0o1400], mode), word >= 0o4000);
            }
            let byte_escapes = word & 0o3000 == 0 || word & 0o0030 == 0;
            assert_eq!(stop(&[word, 0o1400], 1), byte_escapes);
            assert_eq!(stop(&[word, 0o1400], 4), word & 0o0040 != 0);
            assert_eq!(stop(&[word, 0o1400], 6), word >= 0o4000);
            assert!(!stop(&[word, 0o1400], 5));
            assert!(!stop(&[word, 0o1400], 7));
        }
    }

    /// Every word in control state, with words behind it that tell the states and modes apart.
    #[test]
    fn each_control_word_leaves_its_state_and_mode() {
        for word in 0..=0o7777u16 {
            for mode in 0..=7 {
                let place = Place::at_start(0, mode).unwrap().after(word);
                let sets_mode = word & 0o7100 == 0o1100;
                let mode_after = if sets_mode {
                    word >> 3 & 7
                } else {
                    mode.into()
                };
                assert_eq!(u16::from(place.mode), mode_after);
                let part = match word {
                    0o1000..=0o1777 | 0o3000..=0o3777 if word % 2 == 1 => Part::DataWord,
                    0o2000..=0o2777 => Part::SecondOfJump,
                    _ => Part::ControlWord,
                };
                assert_eq!(place.part, part);
            }
        }
    }

    #[test]
    fn every_word_is_read_back_and_assembles_to_itself() {
        let mut longest = 0;
        for word in 0..=0o7777u16 {
            let line = listed(0, 0, &[word]);
            longest = longest.max(line.len());
            let fields: Vec<&str> = line.trim_end().split(' ').skip(2).collect();
            let sum = fields.iter().fold(0, |sum, field| {
                let of_name = mnemonic_named(field.as_bytes()).map(|row| row.code);
                sum | of_name.unwrap_or_else(|| octal(field.as_bytes()).unwrap())
            });
            assert_eq!(sum, word);
            assert_eq!(read(0, 0, 1, line.as_bytes()), Ok(vec![word]));
            let octal_only = format!("00200 {word:04o}\n");
            for mode in 0..=7 {
                assert_eq!(listed(1, mode, &[word]), octal_only);
                assert_eq!(read(1, mode, 1, octal_only.as_bytes()), Ok(vec![word]));
                assert_eq!(read(1, mode, 1, line.as_bytes()).is_ok(), word == 0);
            }
        }
        assert_eq!(longest, LONGEST_LINE);
    }

    /// Each line that says a word by some names of its kind and the bits that they leave over
    /// assembles to the word. Only the lister's own is in form.
    #[test]
    fn other_lines_that_assemble_to_the_word_are_refused() {
        for word in 0..=0o7777u16 {
            let listing = listed(0, 0, &[word]);
            let mut inside: Vec<&Mnemonic> = MNEMONICS
                .iter()
                .filter(|row| row.is_of(Kind::of(word)) && row.code & !word == 0)
                .collect();
            inside.sort_by_key(|row| row.line_order());
            for chosen in 0u32..1 << inside.len() {
                let mut line = format!("00200 {word:04o}");
                let mut rest = word;
                for (index, row) in inside.iter().enumerate() {
                    if chosen >> index & 1 == 1 {
                        line += &format!(" {}", row.name);
                        rest &= !row.code;
                    }
                }
                if rest != 0 {
                    line += &format!(" {rest:o}");
                }
                line += "\n";
                let place = Place::at_start(0, 0).unwrap();
                let read = read_line(line.trim_end().as_bytes(), FIRST, place);
                assert_eq!(read.is_some(), line == listing, "{line}");
            }
        }
    }

    /// A line of a word, and what it becomes with one thing wrong.
    fn texts_about(line: &str, word: u16) -> Vec<String> {
        let mut reversed: Vec<&str> = line.split(' ').collect();
        reversed[2..].reverse();
        let mut texts = vec![
            format!("{line}\n"),
            format!("{line} \n"),
            format!("{line} 0\n"),
            format!("{line} 1\n"),
            format!("{line} {}\n", MNEMONICS[usize::from(word) % 55].name),
            format!(" {line}\n"),
            line.to_owned(),
            format!("{line}\r\n"),
            format!("{line}\n\n"),
            format!("{line}\n{line}\n"),
            format!("{}\n", line.to_lowercase()),
            format!("{}\n", line.replacen("00200", "00201", 1)),
            format!("{}\n", line.replacen("00200", "0200", 1)),
            format!("{}\n", line.replace(' ', "  ")),
            format!("{}\n", &line[..line.len() - 1]),
            format!("{}\n", reversed.join(" ")),
        ];
        if let Some((before, last)) = line.rsplit_once(' ') {
            texts.push(format!("{before}\n"));
            texts.push(format!("{before} 0{last}\n"));
            texts.push(format!("{before} {last} {last}\n"));
        }
        // Another word with the same names: each bit turned over in its turn.
        for place in 0..12 {
            let other = word ^ (1 << place);
            texts.push(format!("00200 {other:04o}{}\n", &line[10..]));
        }
        texts
    }

    /// Every word in control state, and in data state in every mode, against the definition.
    #[test]
    fn the_reader_accepts_what_the_lister_writes_and_nothing_else() {
        for word in 0..=0o7777u16 {
            let control = listed(0, 0, &[word]);
            let octal_only = format!("00200 {word:04o}");
            for text in texts_about(control.trim_end(), word) {
                check_by_definition(0, 0, 1, text.as_bytes());
            }
            for text in texts_about(&octal_only, word) {
                for mode in 0..=7 {
                    check_by_definition(1, mode, 1, text.as_bytes());
                }
                check_by_definition(0, 0, 1, text.as_bytes());
            }
            for mode in 0..=7 {
                check_by_definition(1, mode, 1, control.as_bytes());
            }
        }
    }

    #[test]
    fn the_state_after_a_line_follows_from_the_word_read() {
        assert_eq!(read(0, 4, 1, b"00200 1400\n"), not_in_form(1));
        assert_eq!(read(1, 4, 1, b"00200 1400\n"), Ok(vec![0o1400]));
        assert_eq!(read(0, 4, 1, b"00200 1400 STOP\n"), Ok(vec![0o1400]));
        assert_eq!(read(1, 4, 1, b"00200 1400 STOP\n"), not_in_form(1));
        let two = b"00200 0440\n00201 0400 SC1\n";
        assert_eq!(read(1, 4, 2, two), Ok(vec![0o0440, 0o0400]));
        assert_eq!(read(1, 6, 2, two), not_in_form(2));
        assert_eq!(read(0, 4, 2, two), not_in_form(1));
    }

    #[test]
    fn lines_are_counted_from_1() {
        let two = "00200 0000\n00201 1400 STOP\n";
        assert_eq!(read(0, 0, 2, two.as_bytes()), Ok(vec![0, 0o1400]));
        // Missing, unfinished, too many.
        assert_eq!(read(0, 0, 3, two.as_bytes()), not_in_form(3));
        assert_eq!(read(0, 0, 2, &two.as_bytes()[..26]), not_in_form(2));
        assert_eq!(read(0, 0, 2, &two.as_bytes()[..11]), not_in_form(2));
        assert_eq!(read(0, 0, 2, &two.as_bytes()[..12]), not_in_form(2));
        assert_eq!(read(0, 0, 1, two.as_bytes()), not_in_form(2));
        assert_eq!(read(0, 0, 2, format!("{two}0").as_bytes()), not_in_form(3));
        assert_eq!(read(0, 0, 2, format!("{two}\n").as_bytes()), not_in_form(3));
        assert_eq!(read(0, 0, 2, b""), not_in_form(1));
        assert_eq!(read(0, 0, 0, b""), Ok(vec![]));
        assert_eq!(read(0, 0, 0, b"\n"), not_in_form(1));
        assert_eq!(read(0, 0, 0, b"0"), not_in_form(1));
        // The first of two.
        assert_eq!(read(0, 0, 2, b"00200 0000 \n00201 1400\n"), not_in_form(1));
        // Bytes that are no text at all.
        assert_eq!(read(0, 0, 1, b"00200 000\xb0\n"), not_in_form(1));
        assert_eq!(read(0, 0, 1, b"00200 0000\0\n"), not_in_form(1));
    }

    /// Every single byte of a listing replaced by every other byte, dropped or doubled.
    #[test]
    fn a_byte_wrong_in_each_place() {
        let words = [
            0o6570, 0o1101, 0o4144, 0o4310, 0o2543, 0o0300, 0o3557, 0o7001,
        ];
        let listing = listed(0, 0, &words).into_bytes();
        for place in 0..listing.len() {
            let mut texts: Vec<Vec<u8>> = (0..=255)
                .map(|byte| {
                    let mut text = listing.clone();
                    text[place] = byte;
                    text
                })
                .collect();
            let mut dropped = listing.clone();
            dropped.remove(place);
            texts.push(dropped);
            let mut doubled = listing.clone();
            doubled.insert(place, listing[place]);
            texts.push(doubled);
            for text in texts {
                check_by_definition(0, 0, 8, &text);
            }
        }
    }

    #[test]
    fn refusals_of_the_lister_come_in_order() {
        let list = |memory: &[u16], range: LoanRange, state: u8, mode: u8, room: usize| {
            let mut text = vec![b'x'; room];
            let answer = list_words(memory, range, state, mode, &mut text);
            let written = answer.unwrap_or(0);
            assert!(text[written..].iter().all(|&byte| byte == b'x'));
            answer.map_err(ListingRefusal::number)
        };
        let mut memory = vec![0u16; MEMORY_LENGTH + 1];
        memory[5] = 0o10000;
        let good = &memory[..MEMORY_LENGTH];
        let backwards = range(1, 0);
        assert_eq!(list(&memory, backwards, 2, 0, 0), Err(1));
        assert_eq!(list(&good[1..], backwards, 2, 0, 0), Err(1));
        assert_eq!(list(&[], range(0, 0), 0, 0, 0), Err(1));
        assert_eq!(list(good, backwards, 2, 0, 0), Err(3));
        assert_eq!(list(good, range(0, 32_769), 2, 0, 0), Err(3));
        assert_eq!(list(good, range(65_535, 65_535), 2, 0, 0), Err(3));
        assert_eq!(list(good, range(5, 6), 2, 0, 0), Err(6));
        assert_eq!(list(good, range(5, 6), 255, 7, 0), Err(6));
        assert_eq!(list(good, range(5, 6), 1, 8, 0), Err(6));
        assert_eq!(list(good, range(5, 5), 0, 255, 0), Err(6));
        assert_eq!(list(good, range(5, 6), 0, 0, 0), Err(24));
        assert_eq!(list(good, range(0, 6), 0, 0, 0), Err(24));
        // A word outside the range has no say.
        assert_eq!(list(good, range(0, 5), 0, 0, 55), Ok(55));
        assert_eq!(list(good, range(6, 8), 0, 0, 21), Err(23));
        assert_eq!(list(good, range(6, 8), 0, 0, 22), Ok(22));
        assert_eq!(list(good, range(6, 8), 0, 0, 23), Ok(22));
        assert_eq!(list(good, range(5, 5), 0, 0, 0), Ok(0));
        assert_eq!(list(good, range(32_768, 32_768), 1, 7, 0), Ok(0));
        assert_eq!(list(good, range(32_767, 32_768), 1, 7, 11), Ok(11));
    }

    #[test]
    fn refusals_of_the_reader_come_in_order() {
        let refusal = |length: usize, range: LoanRange, state: u8, mode: u8| {
            let mut memory = vec![0o10000; length];
            let refusal = read_listing(&mut memory, range, state, mode, b"x").unwrap_err();
            assert!(memory.iter().all(|&word| word == 0o10000));
            (refusal.number(), refusal.line())
        };
        assert_eq!(refusal(32_767, range(1, 0), 2, 8), (1, 0));
        assert_eq!(refusal(32_769, range(1, 0), 2, 8), (1, 0));
        assert_eq!(refusal(32_768, range(1, 0), 2, 8), (3, 0));
        assert_eq!(refusal(32_768, range(0, 32_769), 2, 8), (3, 0));
        assert_eq!(refusal(32_768, range(0, 0), 2, 7), (6, 0));
        assert_eq!(refusal(32_768, range(0, 0), 1, 8), (6, 0));
        assert_eq!(refusal(32_768, range(0, 0), 1, 7), (7, 1));
        assert_eq!(refusal(32_768, range(0, 32_768), 0, 0), (7, 1));
    }

    #[test]
    fn an_accepted_text_sets_the_words_of_the_range_and_no_other() {
        // What was there is not looked at, too wide or not.
        let mut memory = vec![0o10000; MEMORY_LENGTH];
        let text = b"00200 2010 PJMP\n00201 0300\n00202 0000\n";
        let answer = read_listing(&mut memory, range(0o200, 0o203), 0, 0, text);
        assert_eq!(answer, Ok(()));
        let mut wanted = vec![0o10000; MEMORY_LENGTH];
        wanted[0o200..0o203].copy_from_slice(&[0o2010, 0o0300, 0o0000]);
        assert_eq!(memory, wanted);
        // A refusal of the last line leaves the words of the first.
        let text = b"00200 1400 STOP\n00201 1400 STOP\n00202 1400\n";
        let answer = read_listing(&mut memory, range(0o200, 0o203), 0, 0, text);
        assert_eq!(answer, Err(ListingRefusal::LineNotInForm(3)));
        assert_eq!(memory, wanted);
    }

    #[test]
    fn a_whole_memory_is_listed_and_read_back() {
        // Words that keep control state and have the longest line, and every word from data state.
        let longest = vec![0o6277; MEMORY_LENGTH];
        let every: Vec<u16> = (0..MEMORY_LENGTH)
            .map(|index| index as u16 % 0o10000)
            .collect();
        let whole = range(0, 32_768);
        for (state, mode, words) in [(0, 0, &longest), (1, 0, &every), (1, 1, &every)] {
            let mut text = vec![0; LONGEST_LINE * MEMORY_LENGTH];
            let length = list_words(words, whole, state, mode, &mut text).unwrap();
            assert_eq!(length == text.len(), state == 0);
            let mut memory = vec![0o10000; MEMORY_LENGTH];
            let answer = read_listing(&mut memory, whole, state, mode, &text[..length]);
            assert_eq!(answer, Ok(()));
            assert_eq!(&memory, words);
        }
    }
}
