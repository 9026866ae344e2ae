//! The script `dump`: its status, what it prints and says, and when it builds. Where it would build, it runs in
//! a folder laid out like the repository, with a command `rt` that writes down its calls.

use std::fs::{self, File};
use std::os::unix::fs::{symlink, PermissionsExt};
use std::os::unix::net::UnixListener;
use std::path::{Path, PathBuf};
use std::process::{Command, Output, Stdio};
use std::thread;
use std::time::{Duration, SystemTime};

use lxt::Refusal;

/// The program, in a folder laid out like the repository.
const PROGRAM: &str = "crates/lxt_dump/out/lxt_dump";

/// Says that the program beside it is proved.
const STAMP: &str = "crates/lxt_dump/out/lxt_dump.stamp";

fn repository() -> PathBuf {
    let above = Path::new(env!("CARGO_MANIFEST_DIR")).join("../..");
    above.canonicalize().expect("the repository")
}

fn trace(name: &str) -> PathBuf {
    repository().join("traces").join(name)
}

/// A new empty folder for a test; its name has a space.
fn folder(name: &str) -> PathBuf {
    let folder = Path::new(env!("CARGO_TARGET_TMPDIR")).join(format!("script {name}"));
    let _ = fs::remove_dir_all(&folder);
    fs::create_dir_all(&folder).expect("a folder");
    folder
}

/// Makes a file that can be run of another file. `install` writes it, not this process: what is open here for writing is open
/// too in each process that another test starts, until that runs its program, and nobody can run such a file.
fn runnable(from: &Path, to: &Path) {
    let mut command = Command::new("install");
    command.args(["-m", "755", "--"]).args([from, to]);
    assert!(command.status().expect("install").success());
}

fn run(script: &Path, trace: &Path) -> Output {
    let mut command = Command::new(script);
    command.arg(trace).stdin(Stdio::null());
    command.output().expect("the script runs")
}

fn status(output: &Output) -> i32 {
    output.status.code().expect("an end without a signal")
}

fn said(output: &Output) -> String {
    String::from_utf8_lossy(&output.stderr).into_owned()
}

/// The trace is printed as expected, and nothing is said.
fn assert_printed(output: &Output) {
    let expected = fs::read(trace("gpsim_blink.expected")).expect("an expected output");
    assert_eq!((status(output), said(output)), (0, String::new()));
    assert!(output.stdout == expected);
}

/// Nothing is printed, the status is 2, and the words are said.
fn assert_failed(output: &Output, words: &str) {
    assert_eq!((status(output), &*output.stdout), (2, &b""[..]));
    assert!(said(output).contains(words), "{}", said(output));
}

// ---- As it is

#[test]
fn a_trace_is_printed_from_anywhere() {
    let script = repository().join("dump");
    let blink = trace("gpsim_blink.lxt");
    assert_printed(&run(&script, &blink));

    let folder = folder("anywhere");
    let named = folder.join("a trace.lxt");
    fs::copy(&blink, &named).expect("a copy");
    assert_printed(&run(&script, &named));
    let link = folder.join("print it");
    symlink(&script, &link).expect("a link");
    assert_printed(&run(&link, &named));
    // From another folder, by relative names, one of which looks like an option.
    fs::copy(&blink, folder.join("-n")).expect("a copy");
    for name in ["a trace.lxt", "./a trace.lxt", "-n"] {
        let mut command = Command::new("./print it");
        let output = command.arg(name).current_dir(&folder).output();
        assert_printed(&output.expect("the script runs"));
    }
}

#[test]
fn a_pipe_is_a_trace_too() {
    let mut command = Command::new(repository().join("dump"));
    let input = File::open(trace("gpsim_blink.lxt")).expect("a trace");
    let output = command.arg("/dev/stdin").stdin(input).output();
    assert_printed(&output.expect("the script runs"));
}

#[test]
fn what_is_no_file_is_no_trace() {
    let script = repository().join("dump");
    let folder = folder("no file");
    assert_failed(&run(&script, &folder), "folder");
    assert_failed(&run(&script, &folder.join("none")), "no such file");
    for words in [&[][..], &["one", "two"][..]] {
        let output = Command::new(&script).args(words).output();
        assert_failed(&output.expect("the script runs"), "usage");
    }
    let closed = folder.join("closed.lxt");
    fs::copy(trace("gpsim_blink.lxt"), &closed).expect("a copy");
    fs::set_permissions(&closed, fs::Permissions::from_mode(0o000)).expect("a mode");
    if File::open(&closed).is_ok() {
        println!("skipped: this user may read any file, so none is unreadable");
        return;
    }
    assert_failed(&run(&script, &closed), "cannot be read");
}

#[test]
fn what_cannot_be_opened_is_no_trace() {
    // A socket has a name that any file has, and cannot be opened by it.
    let name = format!("lxt_script_{}", std::process::id());
    let socket = std::env::temp_dir().join(name);
    let listener = UnixListener::bind(&socket).expect("a socket");
    let output = run(&repository().join("dump"), &socket);
    fs::remove_file(&socket).expect("the socket's name");
    drop(listener);
    assert_failed(&output, "could not be read");
}

#[test]
fn a_refused_trace_is_told_in_words() {
    let script = repository().join("dump");
    for (name, refusal) in [
        ("counter.vcd2lxt-plain.lxt", Refusal::Compressed),
        ("gpsim_nothing.lxt", Refusal::Absent),
        ("lxtgen_rows_3.lxt", Refusal::Geometry),
        ("mixed.vcd2lxt-plain.unz.lxt", Refusal::ChangeBytes),
    ] {
        let output = run(&script, &trace(name));
        let printed = format!("refused {}\n", refusal.number());
        assert_eq!((status(&output), &*output.stdout), (1, printed.as_bytes()));
        let words = format!("dump: {}: {refusal}\n", trace(name).display());
        assert_eq!(said(&output), words);
    }
}

#[test]
fn a_trace_over_the_limit_is_told_so() {
    let output = run(&repository().join("dump"), &trace("gpsim_fib400k.lxt"));
    assert_eq!((status(&output), &*output.stdout), (1, &b"refused 1\n"[..]));
    assert!(said(&output).contains("more than 65,536 bytes"));

    // An empty file is refused by the same number, and other words.
    let empty = folder("limit").join("empty.lxt");
    File::create(&empty).expect("a file");
    let output = run(&repository().join("dump"), &empty);
    assert_eq!((status(&output), &*output.stdout), (1, &b"refused 1\n"[..]));
    assert!(said(&output).contains(Refusal::Length.words()));
}

#[test]
fn a_full_device_is_told() {
    for name in ["gpsim_blink.lxt", "counter.vcd2lxt-plain.lxt"] {
        let full = File::options().write(true).open("/dev/full");
        let mut command = Command::new(repository().join("dump"));
        command
            .arg(trace(name))
            .stdout(full.expect("a full device"));
        let output = command.output().expect("the script runs");
        assert_failed(&output, "could not be written whole");
        assert!(!said(&output).contains("refused"));
    }
}

// ---- When it builds

/// A folder laid out like the repository, and the script in it. It stands outside the repository, where `rt` would
/// take its sources for some of the repository's.
struct Copied {
    root: PathBuf,
}

impl Drop for Copied {
    fn drop(&mut self) {
        let _ = fs::remove_dir_all(&self.root);
    }
}

impl Copied {
    fn new(name: &str) -> Self {
        let root = format!("lxt script {} {name}", std::process::id());
        let root = std::env::temp_dir().join(root);
        for part in ["crates/lxt_dump/src", "docs", "commands"] {
            fs::create_dir_all(root.join(part)).expect("a folder");
        }
        for file in ["crates.txt", "docs/FORMAT.md"] {
            fs::copy(repository().join(file), root.join(file)).expect("a copy");
        }
        runnable(&repository().join("dump"), &root.join("dump"));
        let copied = Copied { root };
        copied.write("crates/lxt_dump/src/main.rt", "");
        // Fails where another call is under way; takes a while; builds the program.
        let program = repository().join(PROGRAM);
        let build = format!(
            "mkdir busy || exit 1; sleep 0.3; mkdir -p out;\n\
             cp '{}' out/lxt_dump; echo proved > out/lxt_dump.stamp; rmdir busy",
            program.display()
        );
        copied.command(&build);
        copied
    }

    fn write(&self, name: &str, text: &str) {
        fs::write(self.root.join(name), text).expect("a file");
    }

    fn script(&self, name: &str, text: &str) {
        self.write("text", text);
        runnable(&self.root.join("text"), &self.root.join(name));
    }

    /// What `rt` does after writing down that it was called.
    fn command(&self, body: &str) {
        let calls = self.root.join("calls");
        let text = format!(
            "#!/bin/sh\necho \"${{PWD##*/}} $*\" >> '{}'\n{body}\n",
            calls.display()
        );
        self.script("commands/rt", &text);
    }

    /// The program of the folder as a script, newer than the sources.
    fn program(&self, body: &str) {
        self.script(PROGRAM, &format!("#!/bin/sh\n{body}\n"));
    }

    fn run(&self, name: &str) -> Output {
        let path = std::env::var("PATH").expect("a path");
        let path = format!("{}:{path}", self.root.join("commands").display());
        let mut command = Command::new(self.root.join("dump"));
        command.arg(trace(name)).env("PATH", path);
        command.stdin(Stdio::null()).output().expect("a run")
    }

    /// How many times `rt` was called, in the right folder and with the right words each time.
    fn calls(&self) -> usize {
        let calls = fs::read_to_string(self.root.join("calls")).unwrap_or_default();
        assert!(calls.lines().all(|call| call == "lxt_dump run"), "{calls}");
        calls.lines().count()
    }

    /// Makes a file so many seconds older than now. It may be one that is run, and is not opened for writing.
    fn age(&self, name: &str, seconds: u64) {
        let file = File::open(self.root.join(name));
        let then = SystemTime::now() - Duration::from_secs(seconds);
        file.expect("a file").set_modified(then).expect("a time");
    }
}

#[test]
fn several_at_once_build_once() {
    let copied = Copied::new("at once");
    thread::scope(|scope| {
        let runs = Vec::from_iter((0..4).map(|_| scope.spawn(|| copied.run("gpsim_blink.lxt"))));
        for run in runs {
            assert_printed(&run.join().expect("a run"));
        }
    });
    assert_eq!(copied.calls(), 1);
    assert_printed(&copied.run("gpsim_blink.lxt"));
    assert_eq!(copied.calls(), 1);
}

#[test]
fn two_at_once_print_both() {
    let script = repository().join("dump");
    thread::scope(|scope| {
        let run = || run(&script, &trace("gpsim_blink.lxt"));
        let runs = [scope.spawn(run), scope.spawn(run)];
        for run in runs {
            assert_printed(&run.join().expect("a run"));
        }
    });
}

#[test]
fn a_newer_source_is_built() {
    let copied = Copied::new("newer");
    assert_printed(&copied.run("gpsim_blink.lxt"));
    for (place, changed) in ["crates/lxt_dump/src/main.rt", "crates.txt"]
        .iter()
        .enumerate()
    {
        thread::sleep(Duration::from_millis(20));
        copied.write(changed, "changed");
        assert_printed(&copied.run("gpsim_blink.lxt"));
        assert_eq!(copied.calls(), 2 + place);
        // The program was made again, though by the same bytes, and is newer now.
        assert_printed(&copied.run("gpsim_blink.lxt"));
        assert_eq!(copied.calls(), 2 + place);
    }
    // A source that changes while the program is built is newer than it.
    copied.command("cp out/lxt_dump kept; mv kept out/lxt_dump; touch ../../crates.txt");
    copied.age(PROGRAM, 60);
    for calls in [4, 5] {
        assert_printed(&copied.run("gpsim_blink.lxt"));
        assert_eq!(copied.calls(), calls);
    }
    // A program whose check did not pass is not run.
    copied.age("crates.txt", 60);
    fs::remove_file(copied.root.join(STAMP)).expect("a stamp");
    copied.command("echo NOT PROVED; exit 1");
    assert_failed(&copied.run("gpsim_blink.lxt"), "NOT PROVED");
}

#[test]
fn a_build_that_fails_shows_its_log() {
    let copied = Copied::new("failing");
    copied.command("echo what is wrong; echo more of it >&2; exit 1");
    let output = copied.run("gpsim_blink.lxt");
    assert_failed(&output, "what is wrong\nmore of it\n");
    assert!(said(&output).ends_with("dump: the program could not be built\n"));
    // A trace that is not there is told before anything is built.
    assert_failed(&copied.run("nothing.lxt"), "no such file");
    assert_eq!(copied.calls(), 1);
}

#[test]
fn an_output_that_is_not_whole_is_told() {
    let copied = Copied::new("incomplete");
    assert_printed(&copied.run("gpsim_blink.lxt"));
    for body in [
        "",
        "echo facility 0 a bits 1",
        "echo facility 0 a bits 1; printf 'done 2'",
        "printf 'refused 5'",
        "echo refused 5; echo facility 0 a bits 1",
        "echo refused",
        "echo 'refused '",
        "echo done",
        "echo done 2x",
        "echo done 2; exit 1",
        "echo done 2; echo no room >&2",
        "echo done 2; echo no room >&2; exit 1",
        "echo done 2; kill -9 $$",
    ] {
        copied.program(body);
        let output = copied.run("gpsim_blink.lxt");
        assert_eq!((status(&output), &*output.stdout), (2, &b""[..]), "{body}");
        assert!(said(&output).contains("dump: "), "{body}");
        assert_eq!(
            said(&output).contains("no room\n"),
            body.contains("no room")
        );
    }
    // A name that looks like a refusal, in a whole output.
    copied.program("echo refused 5; echo done 0");
    let output = copied.run("gpsim_blink.lxt");
    assert_eq!(
        (status(&output), &*output.stdout),
        (0, &b"refused 5\ndone 0\n"[..])
    );
}

#[test]
fn every_number_has_words() {
    let copied = Copied::new("words");
    assert_printed(&copied.run("gpsim_blink.lxt"));
    for number in 1..=17 {
        copied.program(&format!("echo refused {number}"));
        let output = copied.run("gpsim_blink.lxt");
        assert_eq!(status(&output), 1);
        let refusal = Refusal::of_number(number).expect("a refusal");
        let words = said(&output);
        assert!(words.ends_with(&format!(": {refusal}\n")), "{words}");
    }
}

#[test]
fn temporary_files_are_removed() {
    let folder = folder("temporary");
    for name in ["gpsim_blink.lxt", "counter.vcd2lxt-plain.lxt", "none.lxt"] {
        let mut command = Command::new(repository().join("dump"));
        command.arg(trace(name)).env("TMPDIR", &folder);
        command.output().expect("the script runs");
        assert_eq!(fs::read_dir(&folder).expect("the folder").count(), 0);
    }
}
