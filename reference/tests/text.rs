//! Sheets as text: `text` and the program `sheet`.

mod common;

use common::{records, Random};
use reference::text::{make, show};
use std::io::Write;
use std::process::{Command, Output, Stdio};

const TEXT: &str = "\
# A path of four vertices.
size 4
seed 0

share 0 1   # either order
\tshare 0  2\r
share 1 3
end
";

const LISTED: [u8; 17] = [1, 4, 3, 0, 0, 0, 0, 2, 0, 1, 2, 0, 2, 2, 1, 3, 4];

#[test]
fn a_text_gives_its_bytes() {
    assert_eq!(make(TEXT.as_bytes()), Ok(LISTED.to_vec()));
    let unended = TEXT.trim_end();
    assert_eq!(make(unended.as_bytes()), Ok(LISTED.to_vec()));
    assert_eq!(make(b""), Ok(Vec::new()));
    assert_eq!(make(b"# end"), Ok(Vec::new()));
    let marked = [b"\xef\xbb\xbf", TEXT.as_bytes()].concat();
    assert_eq!(make(&marked), Ok(LISTED.to_vec()));
    let first = [b"\xef\xbb\xbfsize 4\n", &LISTED[..0]].concat();
    assert_eq!(make(&first), Ok(vec![1, 4]));
}

#[test]
fn numbers_at_their_ends() {
    let text =
        b"share 255 0\nend\nsize 255\nseed 4294967295\nseed 305419896\nsize 007\nbytes 0a FF\n";
    let expected = [
        2, 255, 0, 4, 1, 255, 3, 255, 255, 255, 255, 3, 0x78, 0x56, 0x34, 0x12, 1, 7, 10, 255,
    ];
    assert_eq!(make(text), Ok(expected.to_vec()));
}

#[test]
fn bytes_give_their_text() {
    let expected = "\
size 4          # at 0
seed 0          # at 2
share 0 1       # at 7
share 0 2       # at 10
share 1 3       # at 13
end             # at 16
";
    assert_eq!(show(&LISTED), expected);
    assert_eq!(show(&[]), "");
}

#[test]
fn what_is_no_record_is_shown_as_bytes() {
    assert_eq!(show(&[3, 1, 2, 3]), "bytes 03 01 02 03 # at 0\n");
    assert_eq!(
        show(&[2, 9, 200, 0, 1, 5]),
        "share 9 200     # at 0\nbytes 00 01 05  # at 3\n"
    );
    let after_end = [&[4], &[0xab; 17][..]].concat();
    let sixteen = " ab".repeat(16);
    assert_eq!(
        show(&after_end),
        format!("end             # at 0\nbytes{sixteen} # at 1\nbytes ab        # at 17\n")
    );
}

#[test]
fn faults_name_their_line() {
    let faults = [
        ("size", "write size and one number, such as size 4"),
        ("size 1 2", "write size and one number, such as size 4"),
        (
            "size 256",
            "256 is too large: a sheet has at most 96 sleeves",
        ),
        ("size -1", "'-1' is no number in digits alone"),
        ("size +1", "'+1' is no number in digits alone"),
        ("size 0x4", "'0x4' is no number in digits alone"),
        (
            "size 99999999999999999999",
            "99999999999999999999 is too large: a sheet has at most 96 sleeves",
        ),
        (
            "share 1",
            "write share and two numbers with a blank between, such as share 0 1",
        ),
        (
            "share 1 2 3",
            "write share and two numbers with a blank between, such as share 0 1",
        ),
        (
            "share 1 300",
            "300 is too large: the last of 96 sleeves is 95",
        ),
        ("seed", "write seed and one number, such as seed 7"),
        (
            "seed 4294967296",
            "4294967296 is too large: a seed is at most 4294967295",
        ),
        ("end 4", "write end alone"),
        ("bytes", "bytes takes one byte or more"),
        ("bytes 0", "'0' is no byte of two hexadecimal digits"),
        ("bytes 0ff", "'0ff' is no byte of two hexadecimal digits"),
        ("bytes +1", "'+1' is no byte of two hexadecimal digits"),
        ("bytes zz", "'zz' is no byte of two hexadecimal digits"),
        (
            "Size 4",
            "a line begins with size, seed, share or end, and not with 'Size'",
        ),
    ];
    for (line, what) in faults {
        for before in ["", "size 4\n", "# nothing\n\nend\n"] {
            let text = format!("{before}{line} # comment\nnonsense\n");
            let fault = make(text.as_bytes()).expect_err(line);
            assert_eq!(fault.line, 1 + before.lines().count());
            assert_eq!(fault.what, what);
        }
    }
    let fault = make(b"end\nsize \xff\n").expect_err("no text");
    assert_eq!((fault.line, &fault.what[..]), (2, "this is no plain text"));
    assert_eq!(make(b"end # \xff\n"), Ok(vec![4]));
    let fault = make(&LISTED).expect_err("a sheet");
    assert_eq!(
        (fault.line, &fault.what[..]),
        (1, "this is a sheet already, and no text")
    );
}

/// Makes good records, damaged in up to four places, or any bytes.
fn any_bytes(random: &mut Random) -> Vec<u8> {
    if random.chance(20) {
        return (0..random.below(40)).map(|_| random.next() as u8).collect();
    }
    let edges: Vec<(u8, u8)> = (0..random.below(6))
        .map(|_| (random.next() as u8, random.below(4) as u8))
        .collect();
    let mut bytes = records(random.next() as u8, random.next() as u32, &edges);
    for _ in 0..random.below(5) {
        let index = random.below(bytes.len() as u64) as usize;
        match random.below(4) {
            0 => bytes[index] = random.below(6) as u8,
            1 => bytes[index] = random.next() as u8,
            2 => bytes.truncate(index.max(1)),
            _ => bytes.insert(index, random.below(6) as u8),
        }
    }
    bytes
}

#[test]
fn any_bytes_come_back() {
    let mut random = Random(31);
    let mut whole = 0;
    for _ in 0..20_000 {
        let bytes = any_bytes(&mut random);
        let text = show(&bytes);
        assert_eq!(make(text.as_bytes()), Ok(bytes.clone()), "{text}");
        whole += usize::from(!text.contains("bytes"));
    }
    assert!((2_000..18_000).contains(&whole), "{whole}");
}

#[test]
fn every_short_byte_string_comes_back() {
    for first in 0..=255 {
        assert_eq!(make(show(&[first]).as_bytes()), Ok(vec![first]));
        for second in 0..=255 {
            let bytes = vec![first, second];
            assert_eq!(make(show(&bytes).as_bytes()), Ok(bytes));
        }
    }
}

fn run(arguments: &[&str], input: &[u8]) -> Output {
    let mut child = Command::new(env!("CARGO_BIN_EXE_sheet"))
        .args(arguments)
        .stdin(Stdio::piped())
        .stdout(Stdio::piped())
        .stderr(Stdio::piped())
        .spawn()
        .expect("the program starts");
    let mut stdin = child.stdin.take().expect("standard input");
    // The program may have ended for its arguments.
    let _ = stdin.write_all(input);
    drop(stdin);
    child.wait_with_output().expect("the program ends")
}

#[test]
fn the_program_makes_and_shows() {
    let made = run(&["make"], TEXT.as_bytes());
    assert_eq!(
        (made.status.code(), &made.stdout[..]),
        (Some(0), &LISTED[..])
    );
    let shown = run(&["show"], &LISTED);
    assert_eq!(shown.status.code(), Some(0));
    assert_eq!(shown.stdout, show(&LISTED).as_bytes());
    assert!(made.stderr.is_empty() && shown.stderr.is_empty());
}

#[test]
fn the_program_says_what_is_wrong_and_writes_nothing() {
    let made = run(&["make"], b"size 4\nshare 0\n");
    assert_eq!(made.status.code(), Some(1));
    assert!(made.stdout.is_empty());
    let said = "sheet: line 2 of the text: write share and two numbers with a blank between, such as share 0 1\n\
        sheet: no sheet is made; correct that line, and make it again\n";
    assert_eq!(String::from_utf8_lossy(&made.stderr), said);
    for arguments in [&[][..], &["list"], &["make", "show"]] {
        let refused = run(arguments, b"");
        assert_eq!(refused.status.code(), Some(2));
        assert!(refused.stdout.is_empty() && !refused.stderr.is_empty());
    }
}
