//! Turns a readable text into the bytes of a sheet, and back: `sheet make` and
//! `sheet show`, from standard input to standard output.

use reference::text::{make, show, Fault};
use std::env;
use std::io::{self, Read, Write};
use std::process::ExitCode;

/// Said after a fault, since the shell may have made an empty file for the sheet.
const NONE_MADE: &str = "no sheet is made; correct that line, and make it again";

fn main() -> ExitCode {
    let arguments: Vec<_> = env::args_os().skip(1).collect();
    let result = match &arguments[..] {
        [verb] if verb == "make" => convert(|text| {
            make(text).map_err(|Fault { line, what }| {
                format!("line {line} of the text: {what}\nsheet: {NONE_MADE}")
            })
        }),
        [verb] if verb == "show" => convert(|bytes| Ok(show(bytes).into_bytes())),
        _ => {
            eprintln!("usage: sheet make < text > sheet, or sheet show < sheet > text");
            return ExitCode::from(2);
        }
    };
    match result {
        Ok(()) => ExitCode::SUCCESS,
        Err(why) => {
            eprintln!("sheet: {why}");
            ExitCode::from(1)
        }
    }
}

/// Converts standard input. Writes nothing unless all of it is in order.
fn convert(turn: impl Fn(&[u8]) -> Result<Vec<u8>, String>) -> Result<(), String> {
    let mut input = Vec::new();
    let read = io::stdin().read_to_end(&mut input);
    read.map_err(|error| error.to_string())?;
    let output = turn(&input)?;
    let mut out = io::stdout().lock();
    let written = out.write_all(&output).and_then(|()| out.flush());
    written.map_err(|error| error.to_string())
}
