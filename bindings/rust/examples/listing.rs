//! Document 01's example as a listing, read back into another memory and drawn from there. Then the
//! same text with a slip in it, which is refused with its line.

use eveglome::{fresh, list, operate, operation, read, run};
use eveglome::{Loan, Point, Refusal, Stretch, LONGEST_LISTING, MEMORY};

/// The example's words; the display meets the first in control state and mode 0.
const EXERCISE: Stretch = Stretch {
    low: 0o200,
    high: 0o204,
    state: 0,
    mode: 0,
};

fn main() -> Result<(), Refusal> {
    let mut memory = vec![0; MEMORY];
    memory[0o200..0o204].copy_from_slice(&[0o1101, 0o4144, 0o4310, 0o1400]);
    let mut text = vec![0; LONGEST_LISTING];
    let length = list(&memory, EXERCISE, &mut text)?;
    let listing = String::from_utf8_lossy(&text[..length]).into_owned();
    print!("{listing}");

    let mut copy = vec![0; MEMORY];
    read(listing.as_bytes(), &mut copy, EXERCISE)?;
    let mut row = fresh();
    operate(&mut row, operation::START, EXERCISE.low);
    let mut points = [0; 1_024];
    let answer = run(&mut row, Loan::ALL, &mut copy, &mut points, 65_535);
    for &entry in &points[..answer.points as usize] {
        let Point { x, y, .. } = Point::of(entry);
        println!("read back, it lights {x} {y}");
    }

    let slip = listing.replace("STOP", "STIP");
    if let Err(refusal) = read(slip.as_bytes(), &mut copy, EXERCISE) {
        println!("with a slip in it: {refusal}");
    }
    Ok(())
}
