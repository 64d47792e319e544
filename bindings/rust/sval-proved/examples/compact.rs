//! Writes the JSON of standard input without white space.

use std::io::{stdin, stdout, Read, Write};
use std::process::ExitCode;

fn main() -> std::io::Result<ExitCode> {
    let mut input = Vec::new();
    stdin().read_to_end(&mut input)?;
    match sval_proved::compact(&input) {
        Ok(json) => {
            stdout().write_all(&json)?;
            Ok(ExitCode::SUCCESS)
        }
        Err(error) => {
            eprintln!("{error}");
            Ok(ExitCode::FAILURE)
        }
    }
}
