//! Writes cases to standard output, for tests/c/replay.c to run them: every Nth
//! of opening (`opening N`), of reading sheets and drawing weights (`sheets N`),
//! of reading texts in the DIMACS edge format (`dimacs N`), or of the session calls
//! (`sessions N`). The reference says what is expected.

use host_tests::filling::FillingCase;
use host_tests::stream::Stream;
use host_tests::{cases, filling_cases, session_cases, text_cases};
use std::env;
use std::io::{self, BufWriter};
use std::process::ExitCode;

fn main() -> ExitCode {
    let arguments: Vec<String> = env::args().skip(1).collect();
    let [family, stride] = &arguments[..] else {
        return usage();
    };
    let stride = match stride.parse() {
        Ok(stride) if stride > 0 => stride,
        _ => return usage(),
    };
    let written = match family.as_str() {
        "opening" => write_openings(stride),
        "sheets" => write_fillings(filling_cases::all(), stride),
        "dimacs" => write_fillings(text_cases::all(), stride),
        "sessions" => write_sessions(stride),
        _ => return usage(),
    };
    match written {
        Ok(()) => ExitCode::SUCCESS,
        Err(error) => {
            eprintln!("cases: {error}");
            ExitCode::FAILURE
        }
    }
}

fn usage() -> ExitCode {
    eprintln!("usage: cases opening N | cases sheets N | cases dimacs N | cases sessions N");
    ExitCode::from(2)
}

fn write_openings(stride: usize) -> io::Result<()> {
    let mut stream = Stream::new(BufWriter::new(io::stdout().lock()));
    for case in cases::all().step_by(stride) {
        stream.opening(&case)?;
    }
    stream.end()
}

fn write_fillings(all: impl Iterator<Item = FillingCase>, stride: usize) -> io::Result<()> {
    let mut stream = Stream::new(BufWriter::new(io::stdout().lock()));
    for case in all.step_by(stride) {
        stream.filling(&case)?;
    }
    stream.end()
}

fn write_sessions(stride: usize) -> io::Result<()> {
    let mut stream = Stream::new(BufWriter::new(io::stdout().lock()));
    for case in session_cases::all().step_by(stride) {
        stream.session(&case)?;
    }
    stream.end()
}
