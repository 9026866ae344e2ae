//! The small program where its input cannot be read or its output cannot be written: nothing is written
//! after a write that failed, so that `done N` stands only under N whole lines, and a failed read is no
//! empty file. `rt run` in `crates/lxt_dump` builds the program.

use std::fs::{self, File};
use std::io::{Read, Write};
use std::os::fd::OwnedFd;
use std::os::unix::net::UnixStream;
use std::path::{Path, PathBuf};
use std::process::{Command, Output, Stdio};

fn repository() -> PathBuf {
    Path::new(env!("CARGO_MANIFEST_DIR")).join("../..")
}

/// A trace with a long output.
fn trace() -> PathBuf {
    repository().join("traces/lxtgen_big_1.lxt")
}

fn expected() -> Vec<u8> {
    fs::read(trace().with_extension("expected")).expect("an expected output")
}

fn run(input: Stdio, output: Stdio) -> Output {
    Command::new(repository().join("crates/lxt_dump/out/lxt_dump"))
        .stdin(input)
        .stdout(output)
        .stderr(Stdio::piped())
        .spawn()
        .expect("the program: `rt run` in crates/lxt_dump builds it")
        .wait_with_output()
        .expect("the program's end")
}

fn input() -> Stdio {
    Stdio::from(File::open(trace()).expect("a trace"))
}

#[test]
fn says_that_a_full_device_took_nothing() {
    let full = File::options().write(true).open("/dev/full");
    let ended = run(input(), Stdio::from(full.expect("a full device")));
    assert_eq!(ended.stderr, b"lxt_dump: a write failed\n");
}

#[test]
fn writes_no_last_line_after_an_output_that_would_block() {
    const ROOM: usize = 100_000;
    let expected = expected();
    assert!(expected.len() > 2 * ROOM, "the output is to be too long");
    let (mut ours, mut theirs) = UnixStream::pair().expect("two ends");
    theirs
        .set_nonblocking(true)
        .expect("an end that does not block");
    // Filled up, then with room for a part of the output.
    let mut filled = 0;
    while let Ok(count) = theirs.write(&[0; 4_096]) {
        filled += count;
    }
    ours.read_exact(&mut [0; ROOM])
        .expect("what it was filled with");
    let ended = run(input(), Stdio::from(OwnedFd::from(theirs)));
    assert_eq!(ended.stderr, b"lxt_dump: a write failed\n");
    // What was taken is a first part of the text, without its last line.
    let mut rest = Vec::new();
    ours.read_to_end(&mut rest).expect("what was written");
    let taken = &rest[filled - ROOM..];
    println!("{} bytes of {}", taken.len(), expected.len());
    assert!(taken.len() < expected.len() && expected.starts_with(taken));
    assert!(!taken.windows(6).any(|part| part == b"\ndone "));
}

#[test]
fn prints_nothing_of_an_input_that_cannot_be_read() {
    let folder = File::open(repository()).expect("a folder");
    let ended = run(Stdio::from(folder), Stdio::piped());
    assert_eq!(ended.stdout, b"");
    assert_eq!(ended.stderr, b"lxt_dump: a read failed\n");
}

#[test]
fn refuses_an_empty_input() {
    let ended = run(Stdio::null(), Stdio::piped());
    assert_eq!(ended.stdout, b"refused 1\n");
    assert_eq!(ended.stderr, b"");
}
