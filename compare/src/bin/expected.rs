//! Prints what the margin program must print, as the second engine says: for
//! the bytes of the file named, or of standard input.

use std::io::{Read, Write};
use std::process::ExitCode;

use compare::second;

fn main() -> ExitCode {
    let input = match std::env::args_os().nth(1) {
        Some(file) => std::fs::read(file),
        None => {
            let mut input = Vec::new();
            std::io::stdin().read_to_end(&mut input).map(|_| input)
        }
    };
    let written = input.and_then(|input| {
        let output = second::output(&input);
        std::io::stdout().write_all(output.as_bytes())
    });
    match written {
        Ok(()) => ExitCode::SUCCESS,
        Err(error) => {
            eprintln!("expected: {error}");
            ExitCode::from(2)
        }
    }
}
