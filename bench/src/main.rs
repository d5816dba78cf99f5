//! The speed of the proved run, held against the second simulator and against one tuned for speed.
//!
//! `bench` times all sides in one process and prints the ratios and a verdict. `bench --once SIDE
//! LESSON COUNT` makes COUNT runs and prints nothing, so that their instructions can be counted.

mod lessons;
mod sides;
mod tuned;

use std::process::ExitCode;
use std::time::{Duration, Instant};

use lessons::{Lesson, BEATS};
use second::Ending;
use sides::{Desk, Side, SIDES};

/// Each round runs every side once, beginning with another side than the round before.
const ROUNDS: usize = 120;
/// The proved run may take at most this many times as long as either Rust side.
const BAR: f64 = 2.0;
/// The copies that `--once` lays out however many runs it makes, so that the difference between
/// two counts of instructions is runs and nothing else.
const COPIES: usize = 3;

const USAGE: &str = "usage: bench [--once SIDE LESSON COUNT], COUNT 0 to 3";

fn main() -> ExitCode {
    let arguments: Vec<String> = std::env::args().skip(1).collect();
    let arguments: Vec<&str> = arguments.iter().map(String::as_str).collect();
    match arguments[..] {
        [] => timed(),
        ["--once", side, lesson, count] => match asked(side, lesson, count) {
            Some((side, lesson, count)) => once(side, &lesson, count),
            None => usage(),
        },
        _ => usage(),
    }
}

fn usage() -> ExitCode {
    eprintln!("{USAGE}");
    ExitCode::from(2)
}

fn asked(side: &str, lesson: &str, count: &str) -> Option<(Side, Lesson, usize)> {
    let side = SIDES.iter().copied().find(|one| one.name() == side)?;
    let lesson = lessons::all().into_iter().find(|one| one.name == lesson)?;
    let count = count.parse().ok().filter(|&count| count <= COPIES)?;
    Some((side, lesson, count))
}

fn once(side: Side, lesson: &Lesson, count: usize) -> ExitCode {
    let mut desks: Vec<Desk> = (0..COPIES).map(|_| Desk::new(side, lesson)).collect();
    for desk in desks.iter_mut().take(count) {
        desk.run(lesson);
    }
    ExitCode::SUCCESS
}

/// The times of one side on one lesson.
struct Times {
    side: Side,
    times: Vec<Duration>,
}

impl Times {
    fn least(&self) -> f64 {
        milliseconds(self.times[0])
    }

    fn median(&self) -> f64 {
        milliseconds(self.times[self.times.len() / 2])
    }
}

fn milliseconds(time: Duration) -> f64 {
    time.as_secs_f64() * 1_000.0
}

fn timed() -> ExitCode {
    let mut greatest: Option<(f64, String)> = None;
    for lesson in lessons::all() {
        let (points, all) = rounds(&lesson);
        println!(
            "{}: {BEATS} beats, {points} of them lit a point",
            lesson.name
        );
        for times in &all {
            println!(
                "    {:<8} least {:8.3} ms   median {:8.3} ms",
                times.side.name(),
                times.least(),
                times.median()
            );
        }
        for (name, least, median) in ratios(&all) {
            println!("    {name:<15} {least:6.2} by the least   {median:6.2} by the median");
            if greatest.as_ref().is_none_or(|(other, _)| *other < least) {
                greatest = Some((least, format!("{name} on {}", lesson.name)));
            }
        }
    }
    verdict(greatest)
}

/// The proved side against each of the others.
fn ratios(all: &[Times]) -> Vec<(String, f64, f64)> {
    let [proved, others @ ..] = all else {
        return Vec::new();
    };
    if proved.side.name() != "proved" {
        return Vec::new();
    }
    others
        .iter()
        .map(|other| {
            let name = format!("proved/{}", other.side.name());
            let least = proved.least() / other.least();
            (name, least, proved.median() / other.median())
        })
        .collect()
}

fn verdict(greatest: Option<(f64, String)>) -> ExitCode {
    match greatest {
        None => {
            println!("no verdict: the proved archive is not linked into this build");
            ExitCode::SUCCESS
        }
        Some((ratio, what)) if ratio > BAR => {
            println!("verdict: above the bar of {BAR:.1}: {ratio:.2}, {what}");
            ExitCode::FAILURE
        }
        Some((ratio, what)) => {
            println!(
                "verdict: every ratio is at most {BAR:.1}; the greatest is {ratio:.2}, {what}"
            );
            ExitCode::SUCCESS
        }
    }
}

/// All rounds of a lesson: the points lit, and the times of each side, from the least on. Panics
/// where two sides differ in anything that a run leaves.
fn rounds(lesson: &Lesson) -> (u32, Vec<Times>) {
    let mut desks: Vec<Desk> = SIDES.iter().map(|&side| Desk::new(side, lesson)).collect();
    let mut all: Vec<Times> = SIDES
        .iter()
        .map(|&side| Times {
            side,
            times: Vec::with_capacity(ROUNDS),
        })
        .collect();
    let mut points = 0;
    for round in 0..ROUNDS {
        for turn in 0..SIDES.len() {
            let place = (round + turn) % SIDES.len();
            let desk = &mut desks[place];
            desk.lay(lesson);
            let start = Instant::now();
            desk.run(lesson);
            all[place].times.push(start.elapsed());
        }
        for pair in desks.windows(2) {
            pair[0].assert_same(&pair[1]);
        }
        let [ending, beats, lit, address] = desks[0].answer;
        let spent = [Ending::BudgetSpent.number(), BEATS, 0];
        assert_eq!([ending, beats, address], spent, "{}", lesson.name);
        points = lit;
    }
    for times in &mut all {
        times.times.sort();
    }
    (points, all)
}
