//! The names held to their meaning: every row of `../../meaning.table` is made with them, every
//! name has a row, and every operation a name.

use crate::numbers::{answer, ending, listing_answer, loan, operation, place};
use crate::{eveglome_fresh, eveglome_list, eveglome_operate, fresh, list, operate, read, run};
use crate::{Answer, Loan, Point, Refusal, Row, Stretch, MEMORY};

const TABLE: &str = include_str!("../../meaning.table");
const ROOM: usize = 8;
const TEXT: usize = 1_024;
/// Every operation has a number below this.
const OPERATIONS: u32 = 1_024;
/// More room than a list wants, so that a count with a wrong number stays inside it.
const SPARE: usize = 64;

/// A number of the table: octal where it begins with 0.
fn number(text: &str) -> u32 {
    let octal = text.len() > 1 && text.starts_with('0');
    u32::from_str_radix(text, if octal { 8 } else { 10 })
        .unwrap_or_else(|_| panic!("no number: {text}"))
}

/// A place of the row or of a list takes 16 bits.
fn narrow(text: &str) -> u16 {
    number(text)
        .try_into()
        .unwrap_or_else(|_| panic!("no number of 16 bits: {text}"))
}

fn find<N: Copy>(names: &[(&str, N)], wanted: &str) -> Option<N> {
    names
        .iter()
        .find(|(name, _)| *name == wanted)
        .map(|&(_, number)| number)
}

fn ending_of(name: &str) -> u32 {
    find(ending::ALL, name).unwrap_or_else(|| panic!("no ending: {name}"))
}

/// An operation of the table: a name, or a number.
fn operation_of(text: &str) -> u32 {
    find(operation::ALL, text).unwrap_or_else(|| number(text))
}

/// A point of the table, x,y,intensity,blink,word: its entry by the sum of 02, No. 5, and its parts.
fn point_of(text: &str) -> (u64, Point) {
    let numbers: Vec<u64> = text.split(',').map(|part| number(part).into()).collect();
    let [x, y, intensity, blink, word] = numbers[..] else {
        panic!("no point: {text}")
    };
    let point = Point {
        x: x as u16,
        y: y as u16,
        intensity: intensity as u8,
        blink: blink == 1,
        last_word: word as u16,
    };
    let entry = x + (y << 10) + (intensity << 20) + (blink << 23) + (word << 24);
    (entry, point)
}

/// The text of the table that these words are, a space between two.
fn text_of(words: &[&str]) -> Vec<u8> {
    match words {
        ["-"] => Vec::new(),
        _ => words.join(" ").replace('|', "\n").into_bytes(),
    }
}

/// A refusal of the table, if it is none of `DONE`.
fn refusal_of(text: &str) -> Result<(), Refusal> {
    let (name, line) = text.split_once('@').unwrap_or((text, "0"));
    match name {
        "DONE" => Ok(()),
        _ => Err(Refusal {
            number: ending_of(name),
            line: number(line),
        }),
    }
}

/// What a call is lent.
struct Desk {
    row: Row,
    loan: Loan,
    memory: Vec<u16>,
    points: Vec<u64>,
    text: Vec<u8>,
}

impl Desk {
    fn new() -> Desk {
        Desk {
            row: fresh(),
            loan: Loan::ALL,
            memory: vec![0; MEMORY],
            points: vec![0; ROOM],
            text: vec![0; TEXT],
        }
    }

    fn set(&mut self, setting: &str) {
        let (key, text) = setting.split_once('=').expect("a setting has an =");
        if let Some(address) = key.strip_prefix('@') {
            self.memory[number(address) as usize] = narrow(text);
        } else if let Some(place) = find(place::ALL, key) {
            self.row.0[place] = narrow(text);
        } else {
            match key {
                "memory" => self.memory.resize(number(text) as usize, 0),
                "room" => self.points.resize(number(text) as usize, 0),
                "text" => self.text.resize(number(text) as usize, 0),
                "FILE_LOW" => self.loan.file_low = narrow(text),
                "FILE_HIGH" => self.loan.file_high = narrow(text),
                "LIST_LOW" => self.loan.list_low = narrow(text),
                "LIST_HIGH" => self.loan.list_high = narrow(text),
                _ => panic!("cannot be set: {key}"),
            }
        }
    }

    /// Makes a listing or a reading and answers what it gave, the text or nothing where it was
    /// done, and what the table says that it gives.
    fn call_listing(&mut self, asked: &[&str], told: &[&str]) -> [Result<Vec<u8>, Refusal>; 2] {
        let &[call, low, high, state, mode, ref text @ ..] = asked else {
            panic!("no listing: {asked:?}")
        };
        let stretch = Stretch {
            low: number(low),
            high: number(high),
            state: number(state),
            mode: number(mode),
        };
        match (call, text, told) {
            ("list", [], _) => {
                let gave = list(&self.memory, stretch, &mut self.text);
                let gave = gave.map(|length| self.text[..length].to_vec());
                let says = if told[0].starts_with(|first: char| first.is_ascii_uppercase()) {
                    refusal_of(told[0]).map(|()| Vec::new())
                } else {
                    Ok(text_of(told))
                };
                [gave, says]
            }
            ("read", [_, ..], [told]) => {
                let gave = read(&text_of(text), &mut self.memory, stretch);
                [gave, refusal_of(told)].map(|answer| answer.map(|()| Vec::new()))
            }
            _ => panic!("no listing: {asked:?}"),
        }
    }

    /// Makes a call and answers what it gave, and what the table says that it gives.
    fn call(&mut self, asked: &[&str], told: &[&str]) -> [(Answer, Vec<(u64, Point)>); 2] {
        let just = Answer {
            ending: ending::DONE,
            word: 0,
            beats: 0,
            points: 0,
            address: 0,
        };
        match (asked, told) {
            (["run", budget], [ending, beats, points @ ..]) => {
                let (memory, list) = (&mut self.memory, &mut self.points);
                let gave = run(&mut self.row, self.loan, memory, list, number(budget));
                let lit = self.points[..gave.points as usize].iter();
                let lit = lit.map(|&entry| (entry, Point::of(entry))).collect();
                let (ending, address) = ending.split_once('@').unwrap_or((ending, "0"));
                let says = Answer {
                    ending: ending_of(ending),
                    beats: number(beats),
                    points: points.len() as u32,
                    address: number(address),
                    ..just
                };
                let points = points.iter().map(|point| point_of(point)).collect();
                [(gave, lit), (says, points)]
            }
            ([operation, operand @ ..], [told]) if operand.len() < 2 => {
                let operand = operand.first().map_or(0, |operand| number(operand));
                let gave = operate(&mut self.row, operation_of(operation), operand);
                let says = if told.starts_with(|first: char| first.is_ascii_digit()) {
                    Answer {
                        word: number(told),
                        ..just
                    }
                } else {
                    Answer {
                        ending: ending_of(told),
                        ..just
                    }
                };
                [(gave, Vec::new()), (says, Vec::new())]
            }
            _ => panic!("no call: {asked:?}"),
        }
    }

    /// What a call gave, if that is not what the table says.
    fn wrong(&mut self, clause: &str) -> Option<String> {
        let (asked, told) = clause
            .split_once(" gives ")
            .expect("a call gives something");
        let asked: Vec<&str> = asked.split_whitespace().collect();
        let told: Vec<&str> = told.split_whitespace().collect();
        if ["list", "read"].contains(&asked[0]) {
            let [gave, says] = self.call_listing(&asked, &told);
            (gave != says).then(|| format!("{gave:?}"))
        } else {
            let [gave, says] = self.call(&asked, &told);
            (gave != says).then(|| format!("{gave:?}"))
        }
    }
}

/// The rows of the table, each with its line's number, the names that it shows and its clauses.
fn rows() -> impl Iterator<Item = (usize, &'static str, &'static str)> {
    (1..)
        .zip(TABLE.lines())
        .filter(|(_, line)| !line.is_empty() && !line.starts_with('#'))
        .map(|(count, line)| {
            let (names, clauses) = line.split_once(':').expect("a row has names and a colon");
            (count, names, clauses)
        })
}

#[test]
fn every_row_of_the_table_is_as_it_says() {
    let mut wrong = String::new();
    for (line, names, clauses) in rows() {
        let mut desk = Desk::new();
        for clause in clauses.split(';').map(str::trim) {
            if clause.contains('=') {
                clause
                    .split_whitespace()
                    .for_each(|setting| desk.set(setting));
                continue;
            }
            if let Some(gave) = desk.wrong(clause) {
                wrong += &format!("line {line}, {names}: {clause}, but it gave {gave}\n");
            }
        }
    }
    assert!(wrong.is_empty(), "{wrong}");
}

/// All names but those that say how many places there are.
fn names() -> impl Iterator<Item = &'static str> {
    let places = [place::ALL, loan::ALL, answer::ALL, listing_answer::ALL].concat();
    let others = [ending::ALL, operation::ALL].concat();
    places
        .into_iter()
        .map(|(name, _)| name)
        .filter(|name| !["ROW", "LOAN", "ANSWER", "LISTING_ANSWER"].contains(name))
        .chain(others.into_iter().map(|(name, _)| name))
}

#[test]
fn every_name_has_a_row() {
    let shown: Vec<&str> = rows()
        .flat_map(|(_, names, _)| names.split_whitespace())
        .collect();
    let missing: Vec<&str> = names().filter(|name| !shown.contains(name)).collect();
    assert!(missing.is_empty(), "no row shows {missing:?}");
    let unknown: Vec<&&str> = shown
        .iter()
        .filter(|name| !names().any(|known| known == **name))
        .collect();
    assert!(unknown.is_empty(), "no such names: {unknown:?}");
}

/// The names have every number below the count, and none beside.
#[test]
fn every_place_has_a_name() {
    for (names, count) in [
        (place::ALL, place::ROW),
        (loan::ALL, loan::LOAN),
        (answer::ALL, answer::ANSWER),
        (listing_answer::ALL, listing_answer::LISTING_ANSWER),
    ] {
        let mut numbers: Vec<usize> = names.iter().map(|&(_, number)| number).collect();
        numbers.sort();
        numbers.dedup();
        assert_eq!(numbers, Vec::from_iter(0..=count));
    }
}

/// Every operation that is not refused as unknown has a name.
#[test]
fn every_operation_has_a_name() {
    let known =
        |number: &u32| operate(&mut fresh(), *number, 0).ending != ending::UNKNOWN_OPERATION;
    let mut named: Vec<u32> = operation::ALL.iter().map(|&(_, number)| number).collect();
    named.sort();
    assert_eq!(named, Vec::from_iter((0..OPERATIONS).filter(known)));
}

/// Fresh registers, the answer of a read of them and that of an empty listing are all 0: as many
/// numbers as are written over a list of other numbers.
#[test]
fn a_row_and_an_answer_have_as_many_numbers_as_are_counted() {
    let mut row = [u16::MAX; place::ROW + SPARE];
    let mut told = [u32::MAX; answer::ANSWER + SPARE];
    let mut listed = [u32::MAX; listing_answer::LISTING_ANSWER + SPARE];
    let memory = vec![0; MEMORY];
    let mut text = [0; 0];
    // SAFETY: each list is longer than what the calls write, also where the count is wrong.
    unsafe {
        let row = &mut *row.as_mut_ptr().cast();
        eveglome_fresh(row);
        eveglome_operate(row, 20, 0, &mut *told.as_mut_ptr().cast());
        eveglome_list(
            memory.as_ptr(),
            memory.len(),
            0,
            0,
            0,
            0,
            text.as_mut_ptr(),
            0,
            &mut *listed.as_mut_ptr().cast(),
        );
    }
    let written = row.iter().take_while(|&&number| number == 0).count();
    assert_eq!(written, place::ROW);
    let written = |told: &[u32]| told.iter().take_while(|&&number| number == 0).count();
    assert_eq!(written(&told), answer::ANSWER);
    assert_eq!(written(&listed), listing_answer::LISTING_ANSWER);
}
