//! The four lessons that are timed. Each goes round a loop until its budget is spent.

use second::{operate, Loan, LoanRange, Registers};

/// The beats of a lesson, which are its whole budget.
pub const BEATS: u32 = 60_000;
/// As many points as there are beats always have room.
pub const ROOM: usize = BEATS as usize;
const WORDS: usize = 32_768;

/// What a class is lent: its file, with the table and the routines of its characters in it, and a
/// pushdown list of 32 entries.
const FILE: LoanRange = LoanRange {
    low: 0o1000,
    high: 0o3000,
};
const TABLE: u16 = 0o2000;
const ROUTINES: u16 = 0o2200;
const LIST: LoanRange = LoanRange {
    low: 0o7000,
    high: 0o7100,
};

pub struct Lesson {
    pub name: &'static str,
    pub registers: Registers,
    pub memory: Vec<u16>,
    pub loan: Loan,
}

pub fn all() -> [Lesson; 4] {
    [
        lesson("drawing", drawing()),
        lesson("lines", lines()),
        lesson("commands", commands()),
        lesson("text", text()),
    ]
}

/// A fresh display, its pointer at the list and its starting address register at the table, started
/// at the file.
fn lesson(name: &'static str, file: File) -> Lesson {
    let operations = [(2, LIST.low), (30, TABLE / 512), (1, FILE.low)];
    let registers = operations
        .iter()
        .fold(Registers::fresh(), |registers, &(operation, operand)| {
            operate(registers, operation, u32::from(operand)).0
        });
    let mut memory = vec![0; WORDS];
    let first = usize::from(FILE.low);
    memory[first..first + file.words.len()].copy_from_slice(&file.words);
    Lesson {
        name,
        registers,
        memory,
        loan: Loan {
            file: FILE,
            list: LIST,
        },
    }
}

/// The words of a display file, from the file range's low end on.
struct File {
    words: Vec<u16>,
}

// The modes of data state, as a mode word names them.
const POINT: u16 = 0;
const INCREMENT: u16 = 1;
const VECTOR: u16 = 2;
const VECTOR_CONTINUE: u16 = 3;
const SHORT_VECTOR: u16 = 4;
const CHARACTER: u16 = 5;
const GRAPHPLOT: u16 = 6;

/// Bit 0: a first word asks for points, a second one escapes.
const LIT: u16 = 0o4000;
const ESCAPE: u16 = 0o4000;

impl File {
    fn new() -> File {
        File { words: Vec::new() }
    }

    /// The address of the next word.
    fn here(&self) -> u16 {
        FILE.low + self.words.len() as u16
    }

    fn put(&mut self, words: &[u16]) {
        self.words.extend_from_slice(words);
    }

    /// Nothing up to an address.
    fn pass_to(&mut self, address: u16) {
        assert!(self.here() <= address, "no room before {address:o}");
        self.words.resize(usize::from(address - FILE.low), 0);
    }

    /// Scale and intensity by their enable bits.
    fn parameter(&mut self, scale: u16, intensity: u16) {
        self.put(&[0o0410 | scale << 6 | intensity]);
    }

    /// Enters data state in a mode.
    fn enter(&mut self, mode: u16) {
        self.put(&[0o1101 | mode << 3]);
    }

    fn jump(&mut self, address: u16) {
        self.put(&[0o2000 | address >> 12, address & 0o7777]);
    }

    fn push_jump(&mut self, address: u16) {
        self.put(&[0o2010 | address >> 12, address & 0o7777]);
    }

    fn pop(&mut self) {
        self.put(&[0o3000]);
    }

    /// The beam taken to a place, dark.
    fn start_at(&mut self, x: u16, y: u16) {
        self.enter(POINT);
        self.put(&[y, ESCAPE | x]);
    }

    /// A vector or a vector continue.
    fn vector(&mut self, mode: u16, lit: bool, x: i16, y: i16) {
        let part = |number: i16| u16::from(number < 0) << 10 | number.unsigned_abs();
        self.enter(mode);
        self.put(&[if lit { LIT } else { 0 } | part(y), ESCAPE | part(x)]);
    }
}

/// All modes, with jumps, push jumps and pops between: two lines of letters by increments, a curve by
/// graphplot, a house by vectors and points, stars by short vectors.
fn drawing() -> File {
    let mut file = File::new();
    // The subroutines stand first, behind a jump to the loop.
    file.jump(0);
    let letter = file.here();
    increment_letter(&mut file);
    let star = file.here();
    short_strokes(&mut file);
    let round = file.here();
    file.words[1] = round;
    for (line, scale) in [(700, 0), (800, 1)] {
        file.parameter(scale, 5 + scale);
        file.start_at(100, line);
        for _ in 0..8 {
            file.push_jump(letter);
        }
    }
    file.parameter(2, 3);
    file.start_at(200, 200);
    curve(&mut file);
    file.parameter(0, 7);
    house(&mut file);
    for (x, y) in [(600, 300), (650, 350), (700, 300), (650, 250)] {
        file.start_at(x, y);
        file.push_jump(star);
    }
    file.jump(round);
    file
}

/// A letter of increment words, with a space behind it.
fn increment_letter(file: &mut File) {
    file.enter(INCREMENT);
    // Up, over the top, down, the bar, and on to the next letter; the last byte escapes.
    file.put(&[
        byte(true, 3, 2) << 6 | byte(true, 3, 2),
        byte(true, 1, 1) << 6 | byte(true, 2, 0),
        byte(true, 1, 7) << 6 | byte(true, 3, 6),
        byte(true, 3, 6) << 6 | byte(false, 3, 2),
        byte(true, 3, 4) << 6 | byte(false, 3, 6),
        byte(false, 3, 0) << 6 | byte(false, 3, 0),
        byte(false, 1, 0) << 6 | byte(false, 0, 0),
    ]);
    file.pop();
}

/// A byte of an increment word: a count of 0 is one move and the escape.
fn byte(lit: bool, moves: u16, direction: u16) -> u16 {
    u16::from(lit) << 5 | moves << 3 | direction
}

/// Eight short vectors out of a place and back to it.
fn short_strokes(file: &mut File) {
    file.parameter(1, 6);
    file.enter(SHORT_VECTOR);
    let strokes = [(12, 0), (9, 9), (0, 12), (15, 4)];
    for (y, x) in strokes {
        file.put(&[LIT | y << 6 | x, 0o2020 | y << 6 | x]);
    }
    // The last stroke has no length: it escapes.
    file.put(&[0o0040]);
    file.pop();
}

/// A curve by graphplot: x goes on by the distance, y is set.
fn curve(file: &mut File) {
    file.enter(GRAPHPLOT);
    for place in 0..40u16 {
        let y = 200 + place * (40 - place) / 4;
        let escape = if place == 39 { ESCAPE } else { 0 };
        file.put(&[escape | y]);
    }
}

/// A house of vectors with four lit points in it, and a vector continue to the right edge.
fn house(file: &mut File) {
    file.start_at(300, 400);
    file.vector(VECTOR, true, 200, 0);
    file.vector(VECTOR, true, 0, 150);
    file.vector(VECTOR, true, -100, 75);
    file.vector(VECTOR, true, -100, -75);
    file.vector(VECTOR, true, 0, -150);
    file.start_at(960, 400);
    file.vector(VECTOR_CONTINUE, true, 5, 2);
    for (x, y) in [(350, 450), (370, 450), (350, 470), (370, 470)] {
        file.enter(POINT);
        file.put(&[LIT | y, ESCAPE | x]);
    }
}

/// Long lines: a fan of lit vectors with a dark way back, and diagonals that continue to the edge.
fn lines() -> File {
    let mut file = File::new();
    let round = file.here();
    for slope in 0..10 {
        file.start_at(10, 10);
        file.vector(VECTOR, true, 1_000, 100 * slope);
        file.vector(VECTOR, false, -1_000, -100 * slope);
        file.vector(VECTOR, true, 100 * slope, 1_000);
    }
    for start in 0..8 {
        file.start_at(100 * start, 5);
        file.vector(VECTOR_CONTINUE, true, 7, 11);
    }
    file.jump(round);
    file
}

/// Control words only: the settings, every kind of skip, counts, jumps, push jumps two deep, pops.
fn commands() -> File {
    let mut file = File::new();
    file.jump(0);
    // A pop that restores all of the status, and one that restores none of it.
    let inner = file.here();
    file.put(&[0o0657, 0o6326, 0o3000]);
    let outer = file.here();
    file.put(&[0o0420]);
    file.push_jump(inner);
    file.put(&[0o1120, 0o3016]);
    let round = file.here();
    file.words[1] = round;
    for turn in 0..6 {
        // Scale, pen, intensity; a mode without data state; hit flags and beam cleared.
        file.put(&[0o0573 ^ turn, 0o1130, 0o1206]);
        // Buttons complemented, then skips by them: each passes the two words behind it, or not.
        file.put(&[0o4117 ^ turn, 0, 0, 0o5301, 0, 0]);
        file.put(&[0o6017, 0o0410, 0o6300, 0o6101, 0o0433, 0o6310]);
        // Flags: the beam is in sector 0 (no skip), no button was hit and the pen saw nothing (a
        // skip over stops).
        file.put(&[
            0o6220, 0o6412, 0, 0o6210, 0o1400, 0o1400, 0o6203, 0o1400, 0o1400,
        ]);
        // Counts up and down, with blink on and off.
        file.put(&[0o6350, 0o6374, 0o6342, 0o6311]);
        file.put(&[0o7002, 0o7003, 0o6240, 0o1400, 0o1400]);
        file.push_jump(if turn % 2 == 0 { outer } else { inner });
        let over = file.here() + 3;
        file.jump(over);
        file.put(&[0o1400]);
    }
    file.jump(round);
    file
}

/// Lines of text in two sizes, from the top of the screen down.
fn text() -> File {
    let alphabet = Alphabet::new();
    let mut codes = Vec::new();
    for (size, line) in [
        (SMALL, "THE TALE AT THE INLET"),
        (LARGE, "A LINE IN THE ZENITH"),
        (SMALL, "NINE HATS IN THE LANE"),
        (LARGE, "HELEN ATE THE LENTILS"),
        (SMALL, "THE EXIT IS AT THE ISLE"),
        (LARGE, "A VEIL HAS NINE TASSELS"),
    ] {
        codes.extend([size, RETURN, LINE_FEED]);
        codes.extend(line.chars().flat_map(codes_of));
    }
    // One of them may be a right character that the other drops.
    codes.extend([END, END]);
    let mut file = File::new();
    let round = file.here();
    file.start_at(0, 1_000);
    file.enter(CHARACTER);
    for pair in codes.chunks_exact(2) {
        file.put(&[pair[0] << 6 | pair[1]]);
    }
    file.jump(round);
    file.pass_to(TABLE);
    file.put(&alphabet.table);
    file.put(&alphabet.routines);
    file
}

/// Letters of increment words, each with the way to the next one. The first is the manual's.
const INCREMENT_LETTERS: [(char, &[u16]); 9] = [
    ('A', &[0o1672, 0o7251, 0o6057, 0o7674, 0o3762, 0o2701]),
    ('E', &[0o7272, 0o7034, 0o3660, 0o2436, 0o7050, 0o2000]),
    ('H', &[0o7272, 0o3670, 0o5072, 0o3676, 0o2000]),
    ('I', &[0o2072, 0o7236, 0o3630, 0o1000]),
    ('L', &[0o7272, 0o3636, 0o7050, 0o2000]),
    ('N', &[0o7272, 0o7757, 0o7252, 0o3636, 0o2000]),
    ('S', &[0o7050, 0o7274, 0o5472, 0o7050, 0o3636, 0o2000]),
    ('T', &[0o3232, 0o7050, 0o2476, 0o7630, 0o1000]),
    (' ', &[0o3030, 0o0000]),
];

/// Letters of short vectors.
const VECTOR_LETTERS: [(char, &[u16]); 3] = [
    ('V', &[0o0600, 0o6602, 0o4602, 0o2643]),
    ('X', &[0o4604, 0o0024, 0o6604, 0o0043]),
    ('Z', &[0o0600, 0o4004, 0o6624, 0o4004, 0o0043]),
];

// The codes behind those of the letters. The lower case has all of them but `LOWER`, which the upper
// case has.
const SMALL: u16 = 0o60;
const LARGE: u16 = 0o61;
const RETURN: u16 = 0o62;
const LINE_FEED: u16 = 0o63;
const UPPER: u16 = 0o64;
const LOWER: u16 = 0o65;
const END: u16 = 0o66;

/// Control characters, by their places in the table.
const CONTROLS: [(u16, u16); 6] = [
    (SMALL, 0o4415),
    (LARGE, 0o4516),
    (RETURN, 0o6100),
    (UPPER, 0o5400),
    (0o100 | LOWER, 0o5000),
    (END, 0o6040),
];

/// A table of two cases: letters of increment words in the lower one, of short vectors in the upper
/// one; and the routines behind it.
struct Alphabet {
    table: [u16; 128],
    routines: Vec<u16>,
}

impl Alphabet {
    fn new() -> Alphabet {
        let mut alphabet = Alphabet {
            table: [0; 128],
            routines: Vec::new(),
        };
        for (code, (_, words)) in (0..).zip(INCREMENT_LETTERS) {
            alphabet.routine(code, 0, words);
        }
        for (code, (_, words)) in (0o100..).zip(VECTOR_LETTERS) {
            alphabet.routine(code, 0o2000, words);
        }
        // Nine dark moves down, as the manual's.
        alphabet.routine(LINE_FEED, 0o2000, &[0o3140]);
        for (code, word) in CONTROLS {
            alphabet.table[usize::from(code)] = word;
        }
        alphabet
    }

    /// A routine of a kind, and the dispatch word that leads to it.
    fn routine(&mut self, code: u16, kind: u16, words: &[u16]) {
        let start = ROUTINES - TABLE + self.routines.len() as u16;
        self.table[usize::from(code)] = kind | start;
        self.routines.extend_from_slice(words);
    }
}

/// A letter, or one of the upper case between the characters that change the case.
fn codes_of(letter: char) -> Vec<u16> {
    let place = |letters: &[(char, &[u16])]| letters.iter().position(|one| one.0 == letter);
    match (place(&INCREMENT_LETTERS), place(&VECTOR_LETTERS)) {
        (Some(code), _) => vec![code as u16],
        (None, Some(code)) => vec![UPPER, code as u16, LOWER],
        (None, None) => panic!("{letter} is no letter of the alphabet"),
    }
}
