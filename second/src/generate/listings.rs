//! Cases of 02, No. 2: words to list, and listings to read, right ones and damaged ones.

use super::{
    address, bad_range, beyond_eight_bits, default_word, kept_pairs, range, range_of, wild_word,
    write_data, write_main_file, Chance, File,
};
use crate::listing::{line, Kind, Mnemonic, Part, Place, MNEMONICS};
use crate::refusals_and_endings::{LoanRange, MEMORY_LENGTH};
use crate::replay::{Case, GivenMemory, ListCase, ReadCase};
use crate::words::{octal, GREATEST_WORD};

/// The bytes of `00200 6277 SKIP SNSZ SPB1 SPB2 SLPSI CLPSI` and its newline. No line is longer.
const LONGEST_LINE: usize = 43;
const WORD_OF_THE_LONGEST_LINE: u16 = 0o6277;

/// Words of a range with a starting state and a mode, of which none is refused.
struct Stretch {
    range: LoanRange,
    state: u8,
    mode: u8,
    words: Vec<u16>,
}

impl Stretch {
    fn pairs(&self) -> Vec<(u16, u16)> {
        (self.range.low..self.range.high)
            .zip(self.words.iter().copied())
            .collect()
    }

    /// The listing of the words into a text list that is never too short.
    fn listing_case(&self) -> ListCase {
        ListCase {
            range: self.range,
            state: self.state,
            mode: self.mode,
            room: LONGEST_LINE * self.words.len(),
            given: GivenMemory {
                length: MEMORY_LENGTH,
                default: 0,
                pairs: self.pairs(),
            },
        }
    }

    /// The reading of their listing into a memory of no words at all, so that each word read is one
    /// that changed.
    fn reading_case(&self) -> ReadCase {
        ReadCase {
            range: self.range,
            state: self.state,
            mode: self.mode,
            given: GivenMemory {
                length: MEMORY_LENGTH,
                default: 65_535,
                pairs: Vec::new(),
            },
            text: self.listing(),
        }
    }

    fn listing(&self) -> Vec<u8> {
        self.listing_case().outcome().unwrap_or_default()
    }
}

// ---------------------------------------------------------------- words to list

fn stretch(chance: &mut Chance) -> Stretch {
    let range = range_to_list(chance);
    Stretch {
        range,
        state: u8::from(chance.percent(35)),
        // Modes 5 and 7 are rarer, because nothing ends their data state.
        mode: chance.pick(&[0, 0, 1, 1, 2, 2, 3, 3, 4, 4, 5, 6, 6, 7]),
        words: words_to_list(chance, usize::from(range.high - range.low)),
    }
}

/// Mostly short ones, with the empty range, pages and fields of the PDP-8, and both ends of memory.
fn range_to_list(chance: &mut Chance) -> LoanRange {
    let words = match chance.between(0, 199) {
        0..=9 => 0,
        10..=29 => 1,
        30..=129 => chance.between(2, 12),
        130..=184 => chance.between(13, 60),
        185..=193 => chance.between(61, 100),
        194..=197 => return range_of(128 * chance.between(0, 255), 128),
        _ => return range_of(4_096 * chance.between(0, 7), 4_096),
    };
    let greatest_low = 32_768 - words;
    match chance.between(0, 9) {
        0..=1 => range_of(greatest_low, words),
        2 => range_of(0, words),
        _ => range_of(address(chance).min(greatest_low), words),
    }
}

fn words_to_list(chance: &mut Chance, count: usize) -> Vec<u16> {
    let mut file = File::new(0);
    let way = chance.between(0, 9);
    while file.words.len() < count {
        match way {
            // Files that mean something.
            0..=1 => {
                let subroutine = address(chance);
                let buttons = chance.good_word();
                let part = write_main_file(chance, 0, subroutine, buttons);
                file.words.extend(part.words);
            }
            2 => write_data(chance, &mut file),
            // Control words, most of which stay in control state, so that their names show.
            3..=7 => file.push(control_word(chance)),
            8 => file.push(wild_word(chance)),
            _ => file.push(chance.good_word()),
        }
    }
    file.words.truncate(count);
    file.words
}

/// A word of each kind as often as of any other, rarely one that enters data state.
fn control_word(chance: &mut Chance) -> u16 {
    let (op_code, greatest) = match chance.pick(&Kind::ALL) {
        Kind::Parameter => (0o0000, 0o777),
        Kind::Mode => (0o1000, 0o777),
        Kind::Jump => (0o2000, 0o777),
        Kind::Pop => (0o3000, 0o777),
        Kind::SkipBank1 => (0o4000, 0o777),
        Kind::SkipBank2 => (0o5000, 0o777),
        Kind::CompareBank1 => (0o6000, 0o77),
        Kind::CompareBank2 => (0o6100, 0o77),
        Kind::SkipOnFlags => (0o6200, 0o77),
        Kind::Count => (0o6300, 0o77),
        Kind::Slaves => (0o6400, 0o377),
        Kind::Synchronization => (0o7000, 0o777),
    };
    let bits = match chance.between(0, 19) {
        0 => 0,
        1 => greatest,
        _ => chance.between(0, greatest),
    };
    let word = op_code | bits;
    let enters = matches!(Kind::of(word), Kind::Mode | Kind::Pop);
    if enters && chance.percent(85) {
        word & 0o7776
    } else {
        word
    }
}

/// Bounds, states and modes that are refused, and memories of another length: now and then several
/// at once, so that the order of the refusals shows.
fn spoil_start(
    chance: &mut Chance,
    range: &mut LoanRange,
    state: &mut u8,
    mode: &mut u8,
    given: &mut GivenMemory,
) {
    if chance.percent(35) {
        given.length = chance.pick(&[0, 1, 100, 4_096, 32_767, 32_769]);
        given
            .pairs
            .retain(|&(address, _)| usize::from(address) < given.length);
    }
    if chance.percent(40) {
        *range = match chance.between(0, 3) {
            0 if range.low < range.high => LoanRange {
                low: range.high,
                high: range.low,
            },
            1 => LoanRange {
                high: 32_769,
                ..*range
            },
            _ => bad_range(chance),
        };
    }
    if chance.percent(40) {
        *state = beyond_eight_bits(chance, 2);
    }
    if chance.percent(40) {
        *mode = beyond_eight_bits(chance, 8);
    }
}

pub fn listing_case(chance: &mut Chance) -> ListCase {
    let stretch = stretch(chance);
    let fit = stretch.listing().len();
    let room = match chance.between(0, 19) {
        0..=6 => fit,
        7..=9 => fit.saturating_sub(1),
        10 => 0,
        11 => fit * usize::from(chance.between(0, 9)) / 10,
        12 => fit + 1,
        13 => 1_500_000,
        _ => fit + usize::from(chance.between(0, 500)),
    };
    let mut case = ListCase {
        range: stretch.range,
        state: stretch.state,
        mode: stretch.mode,
        room,
        given: GivenMemory {
            length: MEMORY_LENGTH,
            default: default_word(chance),
            pairs: stretch.pairs(),
        },
    };
    let is_spoiled = chance.percent(15);
    if chance.percent(if is_spoiled { 40 } else { 6 }) {
        spoil_a_listed_word(chance, &mut case.given.pairs);
    }
    if chance.percent(15) {
        put_wide_words_beside(chance, stretch.range, &mut case.given.pairs);
    }
    if is_spoiled {
        spoil_start(
            chance,
            &mut case.range,
            &mut case.state,
            &mut case.mode,
            &mut case.given,
        );
    }
    case
}

/// A word above 4,095 in the range, often the first or the last, is refusal 24.
fn spoil_a_listed_word(chance: &mut Chance, pairs: &mut [(u16, u16)]) {
    let last = pairs.len().saturating_sub(1) as u16;
    let middle = chance.between(0, last);
    let place = chance.pick(&[0, last, middle]);
    if let Some(pair) = pairs.get_mut(usize::from(place)) {
        pair.1 = chance.wide_word();
    }
}

/// A word above 4,095 outside the range is not looked at.
fn put_wide_words_beside(chance: &mut Chance, range: LoanRange, pairs: &mut Vec<(u16, u16)>) {
    if range.low > 0 {
        pairs.push((range.low - 1, chance.wide_word()));
    }
    if range.high < 32_768 {
        pairs.push((range.high, chance.wide_word()));
    }
}

// ---------------------------------------------------------------- listings to read

pub const RIGHT: &str = "right";
pub const OTHER_STATE: &str = "another start state";
pub const OTHER_MODE: &str = "another start mode";
pub const OTHER_RANGE: &str = "another range";

/// A listing, or one that something was done to, and what was done.
pub fn reading_case(chance: &mut Chance) -> (ReadCase, &'static str) {
    let stretch = stretch(chance);
    let mut case = ReadCase {
        range: stretch.range,
        state: stretch.state,
        mode: stretch.mode,
        given: memory_to_read_into(chance, &stretch),
        text: stretch.listing(),
    };
    let change = match chance.between(0, 99) {
        0..=27 => RIGHT,
        28..=33 => {
            case.state = 1 - case.state;
            OTHER_STATE
        }
        34..=41 => {
            case.mode = (case.mode + chance.between(1, 7) as u8) % 8;
            OTHER_MODE
        }
        42..=45 => {
            case.range = other_range(chance, case.range);
            OTHER_RANGE
        }
        _ => damage(chance, &mut case.text),
    };
    if chance.percent(10) {
        spoil_start(
            chance,
            &mut case.range,
            &mut case.state,
            &mut case.mode,
            &mut case.given,
        );
    }
    (case, change)
}

/// Some words are there already, some are too wide, and none of it is looked at.
fn memory_to_read_into(chance: &mut Chance, stretch: &Stretch) -> GivenMemory {
    let mut pairs = Vec::new();
    for (address, word) in stretch.pairs() {
        match chance.between(0, 19) {
            0..=1 => pairs.push((address, word)),
            2 => pairs.push((address, wild_word(chance))),
            _ => {}
        }
    }
    if chance.percent(10) {
        put_wide_words_beside(chance, stretch.range, &mut pairs);
    }
    GivenMemory {
        length: MEMORY_LENGTH,
        default: default_word(chance),
        pairs: kept_pairs(pairs, MEMORY_LENGTH),
    }
}

/// A range in form that has an end, or both, a word away.
fn other_range(chance: &mut Chance, given: LoanRange) -> LoanRange {
    let LoanRange { low, high } = given;
    let others = [
        range(low.saturating_sub(1), high),
        range(low, high + 1),
        range(low + 1, high),
        range(low, high.saturating_sub(1)),
        range(low + 1, high + 1),
        range(low.saturating_sub(1), high.saturating_sub(1)),
    ];
    let good: Vec<LoanRange> = others
        .into_iter()
        .filter(|other| other.is_in_form() && *other != given)
        .collect();
    // There is always one: no range has both ends where none of these is in form.
    chance.pick(&good)
}

// ---------------------------------------------------------------- damage

/// The text with something wrong, or `None` where it has nothing to do this to.
type Damage = fn(&mut Chance, &str) -> Option<Vec<u8>>;

/// What can be done to a listing, each with its name in the report.
pub const DAMAGES: [(&str, Damage); 35] = [
    ("a byte changed", byte_changed),
    ("a byte dropped", byte_dropped),
    ("a byte added", byte_added),
    ("a line dropped", line_dropped),
    ("a line doubled", line_doubled),
    ("two lines swapped", lines_swapped),
    ("a line too many", line_added),
    ("the last line unfinished", line_unfinished),
    ("the last newline dropped", newline_dropped),
    ("the text empty", text_dropped),
    ("another address", address_changed),
    ("another word", word_changed),
    ("a digit more or less", digit_added_or_dropped),
    ("two names swapped", names_swapped),
    ("a name dropped", name_dropped),
    ("a name doubled", name_doubled),
    ("a name added", name_added),
    ("a name replaced", name_replaced),
    ("a name in lower case", name_in_lower_case),
    ("all names and the rest dropped", names_and_rest_dropped),
    ("names given to an octal line", names_given),
    ("other names of the same sum", other_names_of_the_same_sum),
    ("a rest of 0", rest_of_zero),
    ("a rest with a leading zero", rest_with_leading_zero),
    ("the rest dropped", rest_dropped),
    ("another rest", rest_changed),
    ("the rest in two numbers", rest_in_two_numbers),
    ("the rest before the names", rest_before_names),
    ("a space doubled", space_doubled),
    ("a space dropped", space_dropped),
    ("a space at the start", space_at_start),
    ("a space at the end", space_at_end),
    ("a tab for a space", tab_for_space),
    ("a carriage return", carriage_return),
    ("an empty line", empty_line),
];

/// One kind of damage, the next in the table where the text has nothing for it, and its name.
fn damage(chance: &mut Chance, text: &mut Vec<u8>) -> &'static str {
    let listing = String::from_utf8_lossy(text).into_owned();
    let first = usize::from(chance.between(0, DAMAGES.len() as u16 - 1));
    for (name, damage) in DAMAGES.iter().cycle().skip(first).take(DAMAGES.len()) {
        if let Some(damaged) = damage(chance, &listing) {
            *text = damaged;
            return name;
        }
    }
    RIGHT
}

/// A place in a list that is not empty.
fn place_in(chance: &mut Chance, length: usize) -> Option<usize> {
    (length > 0).then(|| (chance.next() % length as u64) as usize)
}

/// Any byte that a line of the format can have in a text: a newline is written `|`, so there is no
/// other `|`.
fn any_byte(chance: &mut Chance) -> u8 {
    let byte = if chance.percent(30) {
        chance.between(0, 255) as u8
    } else {
        chance.pick(b"01234567890123456789 ABCDEFGIJKLMNOPRSTUVZ\n-;_\t\r\0")
    };
    if byte == b'|' {
        b'\n'
    } else {
        byte
    }
}

fn byte_changed(chance: &mut Chance, text: &str) -> Option<Vec<u8>> {
    let place = place_in(chance, text.len())?;
    let mut bytes = text.as_bytes().to_vec();
    bytes[place] = any_byte(chance);
    (bytes != text.as_bytes()).then_some(bytes)
}

fn byte_dropped(chance: &mut Chance, text: &str) -> Option<Vec<u8>> {
    let mut bytes = text.as_bytes().to_vec();
    bytes.remove(place_in(chance, text.len())?);
    Some(bytes)
}

fn byte_added(chance: &mut Chance, text: &str) -> Option<Vec<u8>> {
    let mut bytes = text.as_bytes().to_vec();
    let place = place_in(chance, text.len() + 1)?;
    bytes.insert(place, any_byte(chance));
    // The format has no way to say a text of one hyphen.
    (bytes != b"-").then_some(bytes)
}

/// The lines, each with its newline.
fn lines_of(text: &str) -> Vec<&str> {
    text.split_inclusive('\n').collect()
}

fn joined(lines: &[&str]) -> Option<Vec<u8>> {
    Some(lines.concat().into_bytes())
}

fn line_dropped(chance: &mut Chance, text: &str) -> Option<Vec<u8>> {
    let mut lines = lines_of(text);
    lines.remove(place_in(chance, lines.len())?);
    joined(&lines)
}

fn line_doubled(chance: &mut Chance, text: &str) -> Option<Vec<u8>> {
    let mut lines = lines_of(text);
    let place = place_in(chance, lines.len())?;
    lines.insert(place, lines[place]);
    joined(&lines)
}

fn lines_swapped(chance: &mut Chance, text: &str) -> Option<Vec<u8>> {
    let mut lines = lines_of(text);
    let one = place_in(chance, lines.len())?;
    let other = place_in(chance, lines.len())?;
    lines.swap(one, other);
    (one != other).then(|| joined(&lines))?
}

/// Something behind the last line, often what would be a good line of the next word.
fn line_added(chance: &mut Chance, text: &str) -> Option<Vec<u8>> {
    let last = lines_of(text).last().and_then(|line| line.get(..5));
    let next = last
        .and_then(|digits| octal(digits.as_bytes()))
        .unwrap_or(0)
        + 1;
    let added = match chance.between(0, 4) {
        0..=1 => format!("{next:05o} 0000\n"),
        2 => format!("{next:05o} 1400 STOP\n"),
        3 => "\n".to_owned(),
        _ => format!("{next:05o} 0000"),
    };
    joined(&[text, &added])
}

fn line_unfinished(chance: &mut Chance, text: &str) -> Option<Vec<u8>> {
    let last = lines_of(text).last()?.len() as u16;
    let dropped = chance.between(1, last - 1);
    joined(&[&text[..text.len() - usize::from(dropped)]])
}

fn newline_dropped(_: &mut Chance, text: &str) -> Option<Vec<u8>> {
    joined(&[text.strip_suffix('\n')?])
}

fn text_dropped(_: &mut Chance, text: &str) -> Option<Vec<u8>> {
    (!text.is_empty()).then(Vec::new)
}

fn empty_line(chance: &mut Chance, text: &str) -> Option<Vec<u8>> {
    let mut lines = lines_of(text);
    let place = place_in(chance, lines.len())?;
    lines.insert(place, "\n");
    joined(&lines)
}

/// Damage to one line (without its newline), the first from a place on that has something for it.
fn in_one_line(
    chance: &mut Chance,
    text: &str,
    damage: impl Fn(&mut Chance, &str) -> Option<String>,
) -> Option<Vec<u8>> {
    let mut lines = lines_of(text);
    let first = place_in(chance, lines.len())?;
    for count in 0..lines.len() {
        let place = (first + count) % lines.len();
        let line = lines[place].trim_end_matches('\n');
        if let Some(damaged) = damage(chance, line).filter(|damaged| damaged != line) {
            let damaged = damaged + "\n";
            lines[place] = &damaged;
            return joined(&lines);
        }
    }
    None
}

/// The parts of a good line. An empty rest is none.
struct Fields {
    address: String,
    word: String,
    names: Vec<String>,
    rest: String,
}

impl Fields {
    fn of(line: &str) -> Option<Fields> {
        let mut fields = line.split(' ').map(String::from);
        let address = fields.next()?;
        let word = fields.next()?;
        let mut names: Vec<String> = fields.collect();
        let is_rest = |field: &String| field.as_bytes().first().is_some_and(u8::is_ascii_digit);
        let rest = if names.last().is_some_and(is_rest) {
            names.pop()?
        } else {
            String::new()
        };
        Some(Fields {
            address,
            word,
            names,
            rest,
        })
    }

    fn written(&self) -> String {
        let mut line = format!("{} {}", self.address, self.word);
        for name in &self.names {
            line += &format!(" {name}");
        }
        if !self.rest.is_empty() {
            line += &format!(" {}", self.rest);
        }
        line
    }

    fn word(&self) -> u16 {
        octal(self.word.as_bytes()).unwrap_or(0)
    }

    fn rest(&self) -> u16 {
        octal(self.rest.as_bytes()).unwrap_or(0)
    }

    fn is_octal_only(&self) -> bool {
        self.names.is_empty() && self.rest.is_empty()
    }
}

fn in_one_lines_fields(
    chance: &mut Chance,
    text: &str,
    damage: impl Fn(&mut Chance, &mut Fields) -> Option<()>,
) -> Option<Vec<u8>> {
    in_one_line(chance, text, |chance, line| {
        let mut fields = Fields::of(line)?;
        damage(chance, &mut fields)?;
        Some(fields.written())
    })
}

fn address_changed(chance: &mut Chance, text: &str) -> Option<Vec<u8>> {
    in_one_lines_fields(chance, text, |chance, fields| {
        let address = octal(fields.address.as_bytes())?;
        let any = chance.between(0, 0o77777);
        let other = chance.pick(&[address ^ 1, (address + 1) % 32_768, any]);
        fields.address = format!("{other:05o}");
        Some(())
    })
}

fn word_changed(chance: &mut Chance, text: &str) -> Option<Vec<u8>> {
    in_one_lines_fields(chance, text, |chance, fields| {
        let other = fields.word() ^ (1 << chance.between(0, 11));
        fields.word = format!("{other:04o}");
        Some(())
    })
}

fn digit_added_or_dropped(chance: &mut Chance, text: &str) -> Option<Vec<u8>> {
    in_one_lines_fields(chance, text, |chance, fields| {
        let number = if chance.coin() {
            &mut fields.address
        } else {
            &mut fields.word
        };
        if chance.coin() {
            number.insert(0, '0');
        } else {
            number.remove(0);
        }
        Some(())
    })
}

fn names_swapped(chance: &mut Chance, text: &str) -> Option<Vec<u8>> {
    in_one_lines_fields(chance, text, |chance, fields| {
        let one = place_in(chance, fields.names.len())?;
        let other = place_in(chance, fields.names.len())?;
        fields.names.swap(one, other);
        Some(())
    })
}

fn name_dropped(chance: &mut Chance, text: &str) -> Option<Vec<u8>> {
    in_one_lines_fields(chance, text, |chance, fields| {
        let place = place_in(chance, fields.names.len())?;
        fields.names.remove(place);
        Some(())
    })
}

fn name_doubled(chance: &mut Chance, text: &str) -> Option<Vec<u8>> {
    in_one_lines_fields(chance, text, |chance, fields| {
        let place = place_in(chance, fields.names.len())?;
        fields.names.insert(place, fields.names[place].clone());
        Some(())
    })
}

fn name_added(chance: &mut Chance, text: &str) -> Option<Vec<u8>> {
    in_one_lines_fields(chance, text, |chance, fields| {
        let place = place_in(chance, fields.names.len() + 1)?;
        let name = chance.pick(&MNEMONICS).name;
        fields.names.insert(place, name.to_owned());
        Some(())
    })
}

fn name_replaced(chance: &mut Chance, text: &str) -> Option<Vec<u8>> {
    in_one_lines_fields(chance, text, |chance, fields| {
        let place = place_in(chance, fields.names.len())?;
        fields.names[place] = chance.pick(&MNEMONICS).name.to_owned();
        Some(())
    })
}

fn name_in_lower_case(chance: &mut Chance, text: &str) -> Option<Vec<u8>> {
    in_one_lines_fields(chance, text, |chance, fields| {
        let place = place_in(chance, fields.names.len())?;
        let name = &mut fields.names[place];
        let letters = if chance.coin() { name.len() } else { 1 };
        name[..letters].make_ascii_lowercase();
        Some(())
    })
}

fn names_and_rest_dropped(chance: &mut Chance, text: &str) -> Option<Vec<u8>> {
    in_one_lines_fields(chance, text, |_, fields| {
        fields.names.clear();
        fields.rest.clear();
        Some(())
    })
}

/// The line that the word of an octal line would have as a control word.
fn names_given(chance: &mut Chance, text: &str) -> Option<Vec<u8>> {
    in_one_line(chance, text, |_, octal_line| {
        let fields = Fields::of(octal_line)?;
        let address = octal(fields.address.as_bytes())?;
        let in_control_state = Place::at_start(0, 0)?;
        let control_line = line(address, fields.word(), in_control_state);
        fields
            .is_octal_only()
            .then(|| control_line.trim_end().to_owned())
    })
}

/// Some names of the word's kind and the bits that they leave over: an assembler would make the
/// same word of it.
fn other_names_of_the_same_sum(chance: &mut Chance, text: &str) -> Option<Vec<u8>> {
    in_one_lines_fields(chance, text, |chance, fields| {
        if fields.is_octal_only() {
            return None;
        }
        let word = fields.word();
        let mut chosen: Vec<&Mnemonic> = MNEMONICS
            .iter()
            .filter(|mnemonic| mnemonic.is_of(Kind::of(word)) && mnemonic.code & !word == 0)
            .filter(|_| chance.percent(70))
            .collect();
        chosen.sort_by_key(|mnemonic| mnemonic.line_order());
        let covered = chosen.iter().fold(0, |sum, mnemonic| sum | mnemonic.code);
        fields.names = chosen
            .iter()
            .map(|mnemonic| mnemonic.name.to_owned())
            .collect();
        fields.rest = match word & !covered {
            0 => String::new(),
            rest => format!("{rest:o}"),
        };
        Some(())
    })
}

fn rest_of_zero(chance: &mut Chance, text: &str) -> Option<Vec<u8>> {
    in_one_lines_fields(chance, text, |_, fields| {
        fields.rest.is_empty().then(|| fields.rest.push('0'))
    })
}

fn rest_with_leading_zero(chance: &mut Chance, text: &str) -> Option<Vec<u8>> {
    in_one_lines_fields(chance, text, |_, fields| {
        (!fields.rest.is_empty()).then(|| fields.rest.insert(0, '0'))
    })
}

fn rest_dropped(chance: &mut Chance, text: &str) -> Option<Vec<u8>> {
    in_one_lines_fields(chance, text, |_, fields| {
        fields.rest.clear();
        Some(())
    })
}

fn rest_changed(chance: &mut Chance, text: &str) -> Option<Vec<u8>> {
    in_one_lines_fields(chance, text, |chance, fields| {
        let other = fields.rest() ^ (1 << chance.between(0, 12));
        fields.rest = format!("{other:o}");
        Some(())
    })
}

fn rest_in_two_numbers(chance: &mut Chance, text: &str) -> Option<Vec<u8>> {
    in_one_lines_fields(chance, text, |_, fields| {
        let rest = fields.rest();
        let lowest = rest & rest.wrapping_neg();
        let others = rest ^ lowest;
        (others != 0).then(|| fields.rest = format!("{others:o} {lowest:o}"))
    })
}

fn rest_before_names(chance: &mut Chance, text: &str) -> Option<Vec<u8>> {
    in_one_lines_fields(chance, text, |_, fields| {
        if fields.rest.is_empty() {
            return None;
        }
        let rest = std::mem::take(&mut fields.rest);
        fields.names.insert(0, rest);
        Some(())
    })
}

/// One of a line's spaces written in another way.
fn space_as(chance: &mut Chance, text: &str, other: &str) -> Option<Vec<u8>> {
    in_one_line(chance, text, |chance, line| {
        let spaces: Vec<usize> = line.match_indices(' ').map(|(place, _)| place).collect();
        let space = spaces[place_in(chance, spaces.len())?];
        Some(format!("{}{other}{}", &line[..space], &line[space + 1..]))
    })
}

fn space_doubled(chance: &mut Chance, text: &str) -> Option<Vec<u8>> {
    space_as(chance, text, "  ")
}

fn space_dropped(chance: &mut Chance, text: &str) -> Option<Vec<u8>> {
    space_as(chance, text, "")
}

fn tab_for_space(chance: &mut Chance, text: &str) -> Option<Vec<u8>> {
    space_as(chance, text, "\t")
}

fn space_at_start(chance: &mut Chance, text: &str) -> Option<Vec<u8>> {
    in_one_line(chance, text, |_, line| Some(format!(" {line}")))
}

fn space_at_end(chance: &mut Chance, text: &str) -> Option<Vec<u8>> {
    in_one_line(chance, text, |_, line| Some(format!("{line} ")))
}

fn carriage_return(chance: &mut Chance, text: &str) -> Option<Vec<u8>> {
    in_one_line(chance, text, |_, line| Some(format!("{line}\r")))
}

// ---------------------------------------------------------------- every word

/// A stretch of every word's cases ends as soon as it has this many words.
const WORDS_A_STRETCH: usize = 64;

/// Words that tell the modes apart by where they escape: graphplot at the first, short vector at
/// the second, increment at the third, point and both vectors at the fourth, modes 5 and 7 never.
/// As control words all of them stay in control state.
const TELLING_MODES: [u16; 5] = [0o5010, 0o1050, 0o0010, 0o5010, 0o1400];
/// Words that escape from every mode but 5 and 7, and a stop that would show it.
const ESCAPING: [u16; 3] = [0o4040, 0o4040, 0o1400];
/// EDS, which goes back to the data state that an escape left.
const BACK_TO_DATA_STATE: u16 = 0o1001;

/// Every word as a control word and, in every mode, as a data word, and where commands have two
/// words as the second of them too: as a listing and as the reading of that listing. Behind each
/// word that leaves its state stand words that show it.
pub fn cases_of_every_word() -> Vec<Case> {
    let mut stretches = Stretches::new();
    stretches.quiet_control_words();
    stretches.jumps();
    stretches.words_that_enter_data_state();
    for mode in 0..=7 {
        stretches.data_words(mode);
    }
    let cases = stretches.done.iter().flat_map(|stretch| {
        let read = stretch.reading_case();
        let list = ListCase {
            room: read.text.len(),
            ..stretch.listing_case()
        };
        [Case::List(list), Case::Read(read)]
    });
    cases.collect()
}

/// All of memory in one range: the longest listing that there is, just fitting and one byte too
/// long, and a reading of data words.
pub fn cases_of_all_memory() -> Vec<Case> {
    let all = range_of(0, 32_768);
    let longest = ListCase {
        range: all,
        state: 0,
        mode: 0,
        room: LONGEST_LINE * MEMORY_LENGTH,
        given: GivenMemory {
            length: MEMORY_LENGTH,
            default: WORD_OF_THE_LONGEST_LINE,
            pairs: Vec::new(),
        },
    };
    let too_long = ListCase {
        room: longest.room - 1,
        ..longest.clone()
    };
    let data_words = Stretch {
        range: all,
        state: 1,
        mode: 7,
        words: (all.low..all.high)
            .map(|word| word & GREATEST_WORD)
            .collect(),
    };
    vec![
        Case::List(longest),
        Case::List(too_long),
        Case::Read(data_words.reading_case()),
    ]
}

/// Stretches one behind the other through all of memory, as often as it takes.
struct Stretches {
    done: Vec<Stretch>,
    next_low: u16,
}

impl Stretches {
    fn new() -> Stretches {
        Stretches {
            done: Vec::new(),
            next_low: 0,
        }
    }

    fn push(&mut self, state: u8, mode: u8, words: Vec<u16>) {
        if words.is_empty() {
            return;
        }
        let count = words.len() as u16;
        if self.next_low + count > 32_768 {
            self.next_low = 0;
        }
        let range = range_of(self.next_low, count);
        self.next_low = range.high;
        self.done.push(Stretch {
            range,
            state,
            mode,
            words,
        });
    }

    /// Groups of words that each end in the state where they began, put together.
    fn push_together(&mut self, state: u8, mode: u8, groups: impl Iterator<Item = Vec<u16>>) {
        let mut words = Vec::new();
        for group in groups {
            words.extend(group);
            if words.len() >= WORDS_A_STRETCH {
                self.push(state, mode, std::mem::take(&mut words));
            }
        }
        self.push(state, mode, words);
    }

    fn quiet_control_words(&mut self) {
        let words = words_before(Part::ControlWord);
        self.push_together(0, 0, words.map(|word| vec![word]));
    }

    /// Each with itself as its second word.
    fn jumps(&mut self) {
        let words = words_before(Part::SecondOfJump);
        self.push_together(0, 0, words.map(|word| vec![word, word]));
    }

    /// In the mode that the word sets, or else in each mode that the listing may have had.
    fn words_that_enter_data_state(&mut self) {
        let followed = |word: u16| [&[word], &TELLING_MODES[..]].concat();
        let mode_of = |word: u16| {
            // From mode 7, so that a mode that was not set shows.
            let place = Place {
                part: Part::ControlWord,
                mode: 7,
            };
            place.after(word).mode
        };
        let sets_mode = |word: &u16| word & 0o7100 == 0o1100;
        let ends = |mode: u8| mode != 5 && mode != 7;
        let setting = words_before(Part::DataWord).filter(sets_mode);
        let ending = setting.filter(|&word| ends(mode_of(word)));
        self.push_together(0, 7, ending.map(followed));
        for word in words_before(Part::DataWord).filter(sets_mode) {
            if !ends(mode_of(word)) {
                self.push(0, 0, [&[word], &ESCAPING[..]].concat());
            }
        }
        for mode in 0..=7 {
            let others = words_before(Part::DataWord).filter(|word| !sets_mode(word));
            if ends(mode) {
                self.push_together(0, mode, others.map(followed));
            } else {
                for word in others {
                    self.push(0, mode, [&[word], &ESCAPING[..]].concat());
                }
            }
        }
    }

    /// Each word as the first, and in modes of two words as the second of its command too.
    fn data_words(&mut self, mode: u8) {
        let groups = (0..=GREATEST_WORD).map(|word| {
            let start = Place {
                part: Part::DataWord,
                mode,
            };
            let mut words = vec![word];
            let mut place = start.after(word);
            if place.part == Part::SecondOfData {
                words.push(word);
                place = place.after(word);
            }
            if place.part == Part::ControlWord {
                words.push(BACK_TO_DATA_STATE);
            }
            words
        });
        self.push_together(1, mode, groups);
    }
}

/// The words that leave this part next, in control state.
fn words_before(part: Part) -> impl Iterator<Item = u16> {
    let control_state = Place {
        part: Part::ControlWord,
        mode: 0,
    };
    (0..=GREATEST_WORD).filter(move |&word| control_state.after(word).part == part)
}

#[cfg(test)]
mod tests {
    use super::*;
    use crate::listing::tests::words_by_definition;
    use crate::listing::ListingRefusal;
    use crate::replay::write_case;
    use std::collections::HashSet;

    /// The words of a list case with their places.
    fn places_of(case: &ListCase) -> Vec<(Place, u16)> {
        let words = case.given.words();
        let mut place = Place::at_start(case.state, case.mode).unwrap();
        let mut places = Vec::new();
        for &word in &words[usize::from(case.range.low)..usize::from(case.range.high)] {
            places.push((place, word));
            place = place.after(word);
        }
        places
    }

    #[test]
    fn every_word_stands_in_every_place() {
        let cases = cases_of_every_word();
        let mut seen = HashSet::new();
        let mut listed_addresses = HashSet::new();
        let mut bytes = 0;
        for pair in cases.chunks(2) {
            let [Case::List(list), Case::Read(read)] = pair else {
                panic!("a listing and its reading were expected");
            };
            bytes += write_case(&pair[0]).len() + write_case(&pair[1]).len() + 2;
            listed_addresses.extend(list.range.low..list.range.high);
            let text = list.outcome().unwrap();
            assert_eq!(text, read.text);
            let (answer, memory) = read.outcome();
            assert_eq!(answer, Ok(()));
            let places = places_of(list);
            let words: Vec<u16> = places.iter().map(|&(_, word)| word).collect();
            let range = usize::from(list.range.low)..usize::from(list.range.high);
            assert_eq!(memory[range], words);
            for (place, word) in places {
                let mode = match place.part {
                    Part::DataWord | Part::SecondOfData => place.mode,
                    _ => 0,
                };
                seen.insert((format!("{:?}", place.part), mode, word));
            }
        }
        for case in cases_of_all_memory() {
            bytes += write_case(&case).len() + 1;
        }
        // So that a comparison of all of it is soon made.
        assert!(bytes < 3_000_000, "{bytes}");
        assert_eq!(listed_addresses.len(), MEMORY_LENGTH);
        for word in 0..=GREATEST_WORD {
            assert!(seen.contains(&("ControlWord".into(), 0, word)));
            for mode in 0..=7 {
                assert!(seen.contains(&("DataWord".into(), mode, word)));
                let is_second = seen.contains(&("SecondOfData".into(), mode, word));
                assert_eq!(is_second, matches!(mode, 0 | 2 | 3));
            }
        }
    }

    /// Listings of many words, damaged in every way, against the definition of the reader.
    #[test]
    fn the_reader_keeps_to_its_definition() {
        let mut chance = Chance::new(8);
        let mut refused = 0;
        for _ in 0..4_000 {
            let (case, change) = reading_case(&mut chance);
            let (answer, memory) = case.outcome();
            let place = match (answer, Place::at_start(case.state, case.mode)) {
                (Ok(()) | Err(ListingRefusal::LineNotInForm(_)), Some(place)) => place,
                _ => continue,
            };
            let range = usize::from(case.range.low)..usize::from(case.range.high);
            let words = answer.map(|()| memory[range].to_vec());
            refused += u32::from(words.is_err());
            assert_eq!(
                words,
                words_by_definition(&case.text, case.range, place),
                "{change}: {}",
                String::from_utf8_lossy(&write_case(&Case::Read(case)))
            );
        }
        assert!((1_000..3_500).contains(&refused), "{refused}");
    }

    #[test]
    fn all_of_memory_at_once() {
        let cases = cases_of_all_memory();
        let [Case::List(longest), Case::List(too_long), Case::Read(read)] = &cases[..] else {
            panic!("two listings and a reading were expected");
        };
        assert_eq!(longest.outcome().unwrap().len(), longest.room);
        assert_eq!(too_long.outcome().unwrap_err().number(), 23);
        let (answer, memory) = read.outcome();
        assert_eq!(answer, Ok(()));
        assert_eq!(memory[0o77777], 0o7777);
    }

    #[test]
    fn the_words_behind_an_entering_word_tell_its_mode() {
        // Where the first name shows again, and that it shows at all.
        let shown = |mode: u8| {
            let case = ListCase {
                range: range(0, 5),
                state: 1,
                mode,
                room: 500,
                given: GivenMemory {
                    length: MEMORY_LENGTH,
                    default: 0,
                    pairs: (0..).zip(TELLING_MODES).collect(),
                },
            };
            let text = String::from_utf8(case.outcome().unwrap()).unwrap();
            text.lines().position(|line| line.len() > 10)
        };
        assert_eq!(
            (0..=7).map(shown).collect::<Vec<_>>(),
            [
                Some(4),
                Some(3),
                Some(4),
                Some(4),
                Some(2),
                None,
                Some(1),
                None
            ]
        );
    }

    #[test]
    fn each_damage_changes_a_text_that_has_something_for_it() {
        let words = vec![0o6570, 0o1171, 0o4144];
        let listing = "00000 6570 SG1 LP0 IT0\n00001 1171 EDS 170\n00002 4144\n";
        let stretch = Stretch {
            range: range(0, 3),
            state: 0,
            mode: 0,
            words,
        };
        assert_eq!(stretch.listing(), listing.as_bytes());
        let mut chance = Chance::new(1);
        for (name, damage) in DAMAGES {
            for _ in 0..50 {
                let damaged = damage(&mut chance, listing);
                if name == "a byte changed" && damaged.is_none() {
                    continue;
                }
                let damaged = damaged.or_else(|| {
                    // Two that were picked may be the same, which is no change.
                    let swapped = name.starts_with("two ");
                    swapped.then(Vec::new)
                });
                let damaged = damaged.unwrap_or_else(|| panic!("{name}"));
                assert_ne!(damaged, listing.as_bytes(), "{name}");
                assert!(!damaged.contains(&b'|'), "{name}");
            }
        }
    }
}
