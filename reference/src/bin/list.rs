//! Reads a sheet from standard input and prints its listing (document 01,
//! "Listing").

use reference::listing::{listing, INPUT_LIMIT};
use std::io::{self, Read, Write};
use std::process::ExitCode;

fn main() -> ExitCode {
    if !arguments_are_known() {
        let _ = writeln!(io::stderr(), "usage: list [list] < sheet");
        return ExitCode::from(2);
    }
    match list_standard_input() {
        Ok(()) => ExitCode::SUCCESS,
        Err(error) => {
            let _ = writeln!(io::stderr(), "list: {error}");
            ExitCode::from(1)
        }
    }
}

/// Tells whether there is no argument, or the one word `list`.
fn arguments_are_known() -> bool {
    let arguments: Vec<_> = std::env::args_os().skip(1).collect();
    arguments.is_empty() || (arguments.len() == 1 && arguments[0] == "list")
}

/// Reads until the limit or the end of input.
fn list_standard_input() -> io::Result<()> {
    let mut bytes = Vec::new();
    io::stdin()
        .take(INPUT_LIMIT as u64)
        .read_to_end(&mut bytes)?;
    let mut output = io::stdout();
    output.write_all(listing(&bytes).as_bytes())?;
    output.flush()
}
