//! The programs as `rt ci` leaves them: what their `stdin` and `stdout` don't show. That none needs an
//! allocator; what becomes of a write that fails and of a read that is interrupted; what
//! `record_vectors` leaves behind an empty line; and that each line is a write.

use std::fs::{self, File, OpenOptions};
use std::io::{ErrorKind, Read, Write};
use std::os::fd::OwnedFd;
use std::os::unix::net::{UnixDatagram, UnixStream};
use std::path::{Path, PathBuf};
use std::process::{Child, Command, Output, Stdio};
use std::thread::sleep;
use std::time::{Duration, Instant};

const PROGRAMS: [&str; 3] = ["console", "morning", "record_vectors"];

/// What a program would take memory by.
const ALLOCATORS: [&str; 12] = [
    "aligned_alloc",
    "brk",
    "calloc",
    "free",
    "malloc",
    "memalign",
    "mmap",
    "mmap64",
    "posix_memalign",
    "realloc",
    "reallocarray",
    "sbrk",
];

/// How long a program that does its work may take.
const PATIENCE: Duration = Duration::from_secs(20);

fn program(name: &str) -> PathBuf {
    Path::new(env!("CARGO_MANIFEST_DIR")).join("../crates").join(name).join("out").join(name)
}

/// Starts a program; its standard error is kept.
fn started(name: &str, input: impl Into<Stdio>, output: impl Into<Stdio>) -> Child {
    Command::new(program(name))
        .stdin(input)
        .stdout(output)
        .stderr(Stdio::piped())
        .spawn()
        .expect("a program that `rt ci` has left")
}

/// Holds a program's status and its standard error to these.
fn ended(output: &Output, status: i32, error: &str) {
    assert_eq!(String::from_utf8_lossy(&output.stderr), error);
    assert_eq!(output.status.code(), Some(status));
}

/// Holds a program to an answer, and to an end without an error.
fn answered(child: Child, answer: &str) {
    let output = child.wait_with_output().expect("its end");
    assert_eq!(String::from_utf8_lossy(&output.stdout), answer);
    ended(&output, 0, "");
}

#[test]
fn none_needs_an_allocator() {
    for name in PROGRAMS {
        let listed =
            Command::new("nm").args(["-D", "--undefined-only"]).arg(program(name)).output();
        let listed = String::from_utf8(listed.expect("nm").stdout).expect("names");
        let needed: Vec<&str> = listed
            .lines()
            .filter_map(|line| line.split_whitespace().last()?.split('@').next())
            .collect();
        assert!(needed.contains(&"write"), "{name} needs {needed:?}");
        let found: Vec<_> = needed.iter().filter(|name| ALLOCATORS.contains(name)).collect();
        assert!(found.is_empty(), "{name} needs {found:?}");
    }
}

#[test]
fn a_write_that_fails_ends_each() {
    let full = "Error: Os { code: 28, kind: StorageFull, message: \"No space left on device\" }\n";
    for (name, input) in PROGRAMS.iter().zip(["total\n", "", "request -\n"]) {
        let output = OpenOptions::new().write(true).open("/dev/full").expect("/dev/full");
        let mut child = started(name, Stdio::piped(), output);
        child.stdin.take().expect("its input").write_all(input.as_bytes()).expect("its input");
        ended(&child.wait_with_output().expect("its end"), 1, full);
    }
}

#[test]
fn what_stands_behind_an_empty_line_is_left() {
    // Eleven bytes, a prime number: who reads in pieces, but for those of one byte or of all, takes more.
    let (block, rest) = ("request -\n\n", "ticket -\n\nand more");
    let answer = "request - -> 60\n";
    let place = Path::new(env!("CARGO_TARGET_TMPDIR")).join("vectors");
    fs::write(&place, format!("{block}{rest}")).expect("a file");
    let mut file = File::open(&place).expect("the file");
    let child = started("record_vectors", file.try_clone().expect("the file"), Stdio::piped());
    answered(child, answer);
    let mut left = String::new();
    file.read_to_string(&mut left).expect("what is left");
    assert_eq!(left, rest);

    let (mut near, mut far) = UnixStream::pair().expect("a stream");
    near.write_all(format!("{block}{rest}").as_bytes()).expect("its input");
    drop(near);
    let input = OwnedFd::from(far.try_clone().expect("the stream"));
    answered(started("record_vectors", input, Stdio::piped()), answer);
    left.clear();
    far.read_to_string(&mut left).expect("what is left");
    assert_eq!(left, rest);
}

/// The lines of an answer, each as it was written: a socket that keeps writes apart.
#[test]
fn each_line_of_the_console_is_a_write() {
    const TICKETS: usize = 40;
    let mut input = String::from("edit 0 web 12 0 0 36000\n");
    input.push_str(&"initial 1000 web\n".repeat(TICKETS));
    input.push_str("ledger\nno call\n");
    let (near, far) = UnixDatagram::pair().expect("a socket");
    near.set_read_timeout(Some(PATIENCE)).expect("a time");
    let mut child = started("console", Stdio::piped(), OwnedFd::from(far));
    child.stdin.take().expect("its input").write_all(input.as_bytes()).expect("its input");
    let next = || {
        let mut line = [0; 256];
        let length = near.recv(&mut line).expect("a write");
        String::from_utf8(line[..length].to_vec()).expect("text")
    };
    let record = |number: usize| format!("0037{number:04x}0040000000000003e800009088\n");
    assert_eq!(next(), "0 -\n");
    (0..TICKETS).for_each(|number| assert_eq!(next(), format!("0 {}", record(number))));
    assert_eq!(next(), format!("0 {TICKETS}\n"));
    (0..TICKETS).for_each(|number| assert_eq!(next(), record(number)));
    assert_eq!(next(), format!("? {}: no such command\n", TICKETS + 3));
    ended(&child.wait_with_output().expect("its end"), 0, "");
    near.set_nonblocking(true).expect("a socket");
    let behind = near.recv(&mut [0; 256]).map_err(|error| error.kind());
    assert_eq!(behind, Err(ErrorKind::WouldBlock));
}

/// Waits until a process is in a state, `S` where it waits for its input, `T` where it is stopped.
fn awaited(child: &mut Child, state: &str) {
    let begun = Instant::now();
    let stat = format!("/proc/{}/stat", child.id());
    while begun.elapsed() < PATIENCE {
        let stat = fs::read_to_string(&stat).expect("a process");
        let (_, behind) = stat.rsplit_once(") ").expect("its name");
        if behind.starts_with(state) {
            return;
        }
        sleep(Duration::from_millis(5));
    }
    child.kill().expect("an end");
    panic!("a program that is not in state {state}");
}

fn signalled(child: &Child, signal: &str) {
    let words = format!("kill -{signal} {}", child.id());
    assert!(Command::new("sh").args(["-c", &words]).status().expect("sh").success());
}

/// A read of a socket that has a receive time fails where its process is stopped and goes on
/// (signal(7)). It is not tried again.
#[test]
fn a_read_that_is_interrupted_ends_a_program() {
    let interrupted =
        "Error: Os { code: 4, kind: Interrupted, message: \"Interrupted system call\" }\n";
    for name in ["console", "record_vectors"] {
        let (mut near, far) = UnixStream::pair().expect("a stream");
        far.set_read_timeout(Some(PATIENCE)).expect("a time");
        let mut child = started(name, OwnedFd::from(far), Stdio::piped());
        awaited(&mut child, "S");
        signalled(&child, "STOP");
        awaited(&mut child, "T");
        signalled(&child, "CONT");
        sleep(Duration::from_millis(200));
        // Where the read was tried again, this is answered; else nobody reads it.
        let _ = near.write_all(b"total\n\n");
        drop(near);
        let output = child.wait_with_output().expect("its end");
        assert_eq!(String::from_utf8_lossy(&output.stdout), "");
        ended(&output, 1, interrupted);
    }
}
