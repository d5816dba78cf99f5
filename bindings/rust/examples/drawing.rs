//! Document 01's example drawn from Rust, with all of memory lent. Then the same exercise without
//! its stop, and with no word lent but its own: that run ends at the fence, and tells which word
//! was not lent.

use eveglome::{ending, fresh, operate, operation, run, Loan, Point, MEMORY};

const START: usize = 0o200;

/// Runs an exercise and prints each point that it lights, as x, y, intensity, blink and the address
/// of the word that lit it, and last how the run ended and after how many beats.
fn draw(exercise: &[u16], loan: Loan) {
    let mut memory = vec![0; MEMORY];
    memory[START..START + exercise.len()].copy_from_slice(exercise);
    let mut points = [0; 1_024];

    let mut row = fresh();
    operate(&mut row, operation::START, START as u32);
    let answer = run(&mut row, loan, &mut memory, &mut points, 65_535);

    for &entry in &points[..answer.points as usize] {
        let point = Point::of(entry);
        let (blink, word) = (u8::from(point.blink), point.last_word);
        println!(
            "{} {} {} {blink} {word:05o}",
            point.x, point.y, point.intensity
        );
    }
    println!("ending {} beats {}", answer.ending, answer.beats);
    match answer.ending {
        ending::FETCH_OUTSIDE_LOAN => println!("the fetch of {:05o} is not lent", answer.address),
        ending::WRITE_OUTSIDE_LOAN => println!("the write of {:05o} is not lent", answer.address),
        _ => {}
    }
}

fn main() {
    let exercise = [0o1101, 0o4144, 0o4310, 0o1400];
    println!("All of memory lent:");
    draw(&exercise, Loan::ALL);

    let loan = Loan {
        file_low: 0o200,
        file_high: 0o203,
        list_low: 0,
        list_high: 0,
    };
    println!("Without its stop, and nothing lent but its words:");
    draw(&exercise[..3], loan);
}
