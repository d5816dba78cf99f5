//! Which word drew this spot? Two lines cross. Every point that is lit there tells the address of the
//! last word of its command, and the listing has a line for that word.

use eveglome::{fresh, list, operate, operation, run};
use eveglome::{Loan, Point, Refusal, Stretch, MEMORY};

/// The exercise's words; the display meets the first in control state and mode 0.
const EXERCISE: Stretch = Stretch {
    low: 0o200,
    high: 0o212,
    state: 0,
    mode: 0,
};

/// The line that a listing has for the word at an address, or the address alone if it has none.
fn line_of(listing: &str, address: u16) -> String {
    let address = format!("{address:05o}");
    let line = listing.lines().find(|line| line.starts_with(&address));
    line.map_or(address.clone(), str::to_string)
}

fn main() -> Result<(), Refusal> {
    // A point at (100, 100), a vector of 4 to the right, and across it a short vector of 4 upwards.
    let exercise = [
        0o1101, 0o4144, 0o4144, 0o1121, 0o4000, 0o4004, 0o1141, 0o2222, 0o4440, 0o1400,
    ];
    let mut memory = vec![0; MEMORY];
    memory[0o200..0o212].copy_from_slice(&exercise);
    let mut text = [0; 10 * 43];
    let length = list(&memory, EXERCISE, &mut text)?;
    let listing = String::from_utf8_lossy(&text[..length]);
    print!("{listing}");

    let mut row = fresh();
    operate(&mut row, operation::START, EXERCISE.low);
    let mut points = [0; 1_024];
    let answer = run(&mut row, Loan::ALL, &mut memory, &mut points, 65_535);
    let entries = points[..answer.points as usize].iter();
    let lit: Vec<Point> = entries.map(|&entry| Point::of(entry)).collect();

    for (x, y) in [(100, 100), (102, 100), (102, 102), (103, 101)] {
        let here = lit.iter().filter(|point| (point.x, point.y) == (x, y));
        let words: Vec<u16> = here.map(|point| point.last_word).collect();
        if words.is_empty() {
            println!("{x} {y} is dark");
        }
        for word in words {
            println!("{x} {y} was drawn by {}", line_of(&listing, word));
        }
    }
    Ok(())
}
