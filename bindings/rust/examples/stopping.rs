//! A class changes the next word during a stop. Resumed, the display uses the word that the stop
//! held; started again, it fetches the changed one.

use eveglome::{fresh, operate, operation, place, run, Loan, Point, Row, MEMORY};

/// Runs the display and prints each point that it lights, as x and y, and last how the run ended
/// and after how many beats.
fn draw(row: &mut Row, memory: &mut [u16], budget: u32) {
    let mut points = [0; 16];
    let answer = run(row, Loan::ALL, memory, &mut points, budget);
    for &entry in &points[..answer.points as usize] {
        let Point { x, y, .. } = Point::of(entry);
        println!("{x} {y}");
    }
    println!("ending {} beats {}", answer.ending, answer.beats);
}

fn main() {
    // Two points, y 100 and x 200, y 100 and x 300, and a stop word.
    let exercise = [0o1101, 0o4144, 0o0310, 0o4144, 0o4454, 0o1400];
    let mut memory = vec![0; MEMORY];
    memory[0o200..0o206].copy_from_slice(&exercise);

    println!("Two beats, and a stop request:");
    let mut row = fresh();
    operate(&mut row, operation::START, 0o200);
    draw(&mut row, &mut memory, 2);
    operate(&mut row, operation::ASK_TO_STOP, 0);
    draw(&mut row, &mut memory, 65_535);
    let address = operate(&mut row, operation::READ_ADDRESS, 0).word;
    let held = row.0[place::HELD_WORD];
    println!("the word of {address:05o} is held: {held:04o}");

    println!("That word changed to y 200, and resumed:");
    memory[0o203] = 0o4310;
    operate(&mut row, operation::RESUME, 0);
    draw(&mut row, &mut memory, 65_535);

    println!("Started again:");
    operate(&mut row, operation::START, 0o200);
    draw(&mut row, &mut memory, 65_535);
}
