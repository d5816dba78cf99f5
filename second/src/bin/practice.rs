//! The program `practice`: a display file on standard input, its points and ending as output.

use std::io::{self, Read, Write};
use std::process::ExitCode;

fn main() -> ExitCode {
    match read_and_write() {
        Ok(()) => ExitCode::SUCCESS,
        Err(error) => {
            eprintln!("practice: {error}");
            ExitCode::FAILURE
        }
    }
}

fn read_and_write() -> io::Result<()> {
    let mut input = Vec::new();
    io::stdin().lock().read_to_end(&mut input)?;
    let mut output = io::stdout().lock();
    output.write_all(&second::practice::practice(&input))?;
    output.flush()
}
