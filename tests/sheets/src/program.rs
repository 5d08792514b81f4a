//! The listing program, run as a child.

use crate::verdicts;
use reference::listing::listing;
use std::env;
use std::ffi::{c_int, c_ulong};
use std::fs::File;
use std::io::{Seek, Write};
use std::os::fd::AsRawFd;
use std::path::PathBuf;
use std::process::{Child, ChildStdin, Command, Output, Stdio};
use std::thread;
use std::time::Duration;

/// The listing program, which the environment variable SASZVIGOM_LIST names.
pub struct Program {
    path: PathBuf,
}

impl Program {
    pub fn named() -> Program {
        let path = env::var_os("SASZVIGOM_LIST").expect("SASZVIGOM_LIST names the program");
        Program { path: path.into() }
    }

    /// Runs it with these bytes, checks what it says of a perfect matching, compares
    /// what it prints with the listing of the reference, and returns that.
    pub fn check(&self, name: &str, bytes: &[u8]) -> String {
        self.check_pieces(name, &[bytes])
    }

    /// check, with the bytes in pieces: writes each to the pipe once the one before
    /// it has been read.
    pub fn check_pieces(&self, name: &str, pieces: &[&[u8]]) -> String {
        let mut child = self.start(Stdio::piped());
        let mut input = child.stdin.take().expect("standard input");
        for (index, piece) in pieces.iter().enumerate() {
            if index > 0 {
                wait_until_read(&mut child, &input);
            }
            // The program may have read enough, and ended.
            let _ = input.write_all(piece);
        }
        drop(input);
        compare(name, child, &pieces.concat())
    }

    /// check, with the bytes in a file, of which the program reads at most the
    /// number given.
    pub fn check_file(&self, name: &str, bytes: &[u8], most: u64) -> String {
        let path = env::temp_dir().join(format!("saszvigom-{}-{name}", std::process::id()));
        std::fs::write(&path, bytes).expect("a file is written");
        let mut file = File::open(&path).expect("a file is opened");
        std::fs::remove_file(&path).expect("a file is removed");
        let shared = file.try_clone().expect("a file is shared");
        let expected = compare(name, self.start(shared.into()), bytes);
        let read = file.stream_position().expect("a place in the file");
        assert!(read <= most, "{name}: {read} bytes were read");
        expected
    }

    fn start(&self, input: Stdio) -> Child {
        Command::new(&self.path)
            .stdin(input)
            .stdout(Stdio::piped())
            .stderr(Stdio::piped())
            .spawn()
            .expect("the program starts")
    }
}

/// Waits for the child to end, and returns the listing expected.
fn compare(name: &str, child: Child, bytes: &[u8]) -> String {
    let Output {
        status,
        stdout,
        stderr,
    } = child.wait_with_output().expect("the program ends");
    let expected = listing(bytes);
    let printed = String::from_utf8_lossy(&stdout);
    let beginning = &bytes[..bytes.len().min(64)];
    let of = format!("{name}, {} bytes {beginning:02x?}", bytes.len());
    assert_eq!(verdicts::fault(bytes, &printed), None, "{of}: {printed}");
    assert_eq!(printed, expected, "{of}");
    assert_eq!(status.code(), Some(0), "{of}");
    assert!(stderr.is_empty(), "{of}");
    expected
}

extern "C" {
    fn ioctl(file: c_int, request: c_ulong, unread: *mut c_int) -> c_int;
}

/// The request for the number of bytes in a pipe that are not read yet.
const FIONREAD: c_ulong = 0x541B;

fn unread(pipe: &ChildStdin) -> c_int {
    let mut count = 0;
    // SAFETY: the file is open, and the request writes one int.
    let answer = unsafe { ioctl(pipe.as_raw_fd(), FIONREAD, &mut count) };
    assert_eq!(answer, 0, "FIONREAD is for Linux");
    count
}

/// Waits until the pipe is empty, or the child has ended.
fn wait_until_read(child: &mut Child, pipe: &ChildStdin) {
    while unread(pipe) > 0 {
        if child.try_wait().expect("the child's status").is_some() {
            return;
        }
        thread::sleep(Duration::from_micros(100));
    }
}
