//! The manual's program for the character generator (appendix 1) writes the letter A, and once more
//! on the next line. The second one is left in the middle: the registers say what comes next, and
//! the next run goes on there.

use eveglome::{fresh, operate, operation, place, run, Loan, Point, Row, MEMORY};

/// A point in the middle of the screen; then the characters 00 01, 02 03, 01 04, two to a word; then
/// a jump back.
const FILE: [u16; 9] = [
    0o1107, 0o1000, 0o5000, 0o1151, 0o0001, 0o0203, 0o0104, 0o2000, 0o0200,
];

/// One word for each character: 00 sets scale, pen and intensity; 01 calls the routine of the A; 02
/// is a carriage return; 03 calls that of the line feed; 04 escapes to control state.
const TABLE: [u16; 5] = [0o4555, 0o0200, 0o6100, 0o2206, 0o6040];

/// Six increment words for the A, and a short vector for the line feed.
const ROUTINES: [u16; 7] = [0o1672, 0o7251, 0o6057, 0o7674, 0o3762, 0o2701, 0o3140];

/// Runs the display for so many beats, and answers the points that it lights.
fn draw(row: &mut Row, memory: &mut [u16], budget: u32) -> Vec<Point> {
    let mut points = [0; 64];
    let answer = run(row, Loan::ALL, memory, &mut points, budget);
    let entries = points[..answer.points as usize].iter();
    entries.map(|&entry| Point::of(entry)).collect()
}

/// Prints a letter, its top line first. In scale 1 a move goes two steps.
fn print_letter(points: &[Point]) {
    let xs = points.iter().map(|point| point.x);
    let ys = points.iter().map(|point| point.y);
    let (left, right) = (xs.clone().min().unwrap(), xs.max().unwrap());
    let (bottom, top) = (ys.clone().min().unwrap(), ys.max().unwrap());
    for y in (bottom..=top).rev().step_by(2) {
        for x in (left..=right).step_by(2) {
            let lit = points.iter().any(|point| (point.x, point.y) == (x, y));
            print!("{}", if lit { '#' } else { '.' });
        }
        println!();
    }
}

/// What an unfinished character waits for.
fn next_of(row: &Row) -> String {
    match row.0[place::CHARACTER_STAGE] {
        0 => "its table word".to_string(),
        1 => format!("its routine word at {:05o}", row.0[place::ROUTINE_NEXT]),
        2 => {
            let address = row.0[place::ROUTINE_BYTES_LAST_WORD];
            format!("a move of the increment word at {address:05o}")
        }
        _ => {
            let address = row.0[place::ROUTINE_LINE_LAST_WORD];
            format!("a move of the short vector at {address:05o}")
        }
    }
}

fn main() {
    let mut memory = vec![0; MEMORY];
    memory[0o200..0o211].copy_from_slice(&FILE);
    memory[0o6000..0o6005].copy_from_slice(&TABLE);
    memory[0o6200..0o6207].copy_from_slice(&ROUTINES);

    // The table lies at 512 times the starting address register, which is bits 6 to 11.
    let mut row = fresh();
    operate(&mut row, operation::SET_GENERATOR, 0o0006);
    operate(&mut row, operation::START, 0o200);
    let first = draw(&mut row, &mut memory, 37);
    println!("37 beats:");
    print_letter(&first);

    let mut second = draw(&mut row, &mut memory, 28);
    let word = row.0[place::CHARACTER_WORD];
    println!("28 beats more, in the word {word:04o}: {}", next_of(&row));
    let generator = operate(&mut row, operation::READ_GENERATOR, 0).word;
    println!("the character generator reads {generator:04o}");

    second.extend(draw(&mut row, &mut memory, 20));
    let address = operate(&mut row, operation::READ_ADDRESS, 0).word;
    println!("20 beats more, and back at {address:05o}:");
    print_letter(&second);
    let (corner, last) = (second[0], second[17]);
    println!(
        "from {} {} by {:05o} to {} {} by {:05o}",
        corner.x, corner.y, corner.last_word, last.x, last.y, last.last_word
    );
}
