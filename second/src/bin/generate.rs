//! The program `generate`: cases of a seed on standard output, or a report of what they reach, or
//! every word and all of memory listed and read back, or every word in the table and the routines of
//! characters.

use std::io::{self, BufWriter, Write};
use std::process::ExitCode;

use second::coverage::coverage;
use second::generate::{
    cases_of_all_memory, cases_of_every_character_word, cases_of_every_word, next_case, Chance,
};
use second::replay::{write_case, Case};

const USAGE: &str =
    "usage: generate [--report] SEED COUNT\n       generate --words\n       generate --characters";

fn main() -> ExitCode {
    let arguments: Vec<String> = std::env::args().skip(1).collect();
    let texts: Vec<&str> = arguments.iter().map(String::as_str).collect();
    let written = match texts[..] {
        ["--words"] => write_cases(
            cases_of_every_word()
                .into_iter()
                .chain(cases_of_all_memory()),
        ),
        ["--characters"] => write_cases(cases_of_every_character_word().into_iter()),
        ["--report", seed, count] => match (seed.parse(), count.parse()) {
            (Ok(seed), Ok(count)) => write_report(seed, count),
            _ => return usage(),
        },
        [seed, count] => match (seed.parse(), count.parse()) {
            (Ok(seed), Ok(count)) => write_cases(cases_of_seed(seed, count)),
            _ => return usage(),
        },
        _ => return usage(),
    };
    match written {
        Ok(()) => ExitCode::SUCCESS,
        Err(error) => {
            eprintln!("generate: {error}");
            ExitCode::FAILURE
        }
    }
}

fn usage() -> ExitCode {
    eprintln!("{USAGE}");
    ExitCode::FAILURE
}

fn write_report(seed: u64, count: u64) -> io::Result<()> {
    write!(io::stdout().lock(), "{}", coverage(seed, count))
}

fn cases_of_seed(seed: u64, count: u64) -> impl Iterator<Item = Case> {
    let mut chance = Chance::new(seed);
    (0..count).map(move |_| next_case(&mut chance))
}

fn write_cases(cases: impl Iterator<Item = Case>) -> io::Result<()> {
    let mut output = BufWriter::new(io::stdout().lock());
    for case in cases {
        output.write_all(&write_case(&case))?;
        output.write_all(b"\n")?;
    }
    output.flush()
}
