//! A C program over include/tickets.h: it is compiled without a warning, makes the calls of R11.3, R11.5,
//! R11.8 to R11.11 and the bar of R11.7, and prints the morning.

use std::path::Path;
use std::process::Command;

/// What `crates/morning` prints.
const LINES: &str = include_str!("../../crates/morning/stdout");

/// The flags of a strict C11 compiler.
const STRICT: [&str; 5] = ["-std=c11", "-Wall", "-Wextra", "-Werror", "-pedantic"];

/// Runs a command, and gives what it printed.
fn printed(command: &mut Command) -> String {
    let run = command.output().unwrap_or_else(|error| panic!("{command:?}: {error}"));
    let messages = String::from_utf8_lossy(&run.stderr);
    assert!(run.status.success(), "{command:?}: {}\n{messages}", run.status);
    String::from_utf8(run.stdout).expect("the output is text")
}

#[test]
fn a_c_program_prints_the_morning() {
    let harness = Path::new(env!("CARGO_MANIFEST_DIR"));
    let program = Path::new(env!("CARGO_TARGET_TMPDIR")).join("morning");
    let mut compiler = Command::new("cc");
    compiler.args(STRICT).arg("-I").arg(harness.join("../include"));
    compiler.arg(harness.join("tests/morning.c"));
    compiler.arg(harness.join("../target/staticlib/libtickets.a"));
    compiler.arg("-o").arg(&program);
    assert_eq!(printed(&mut compiler), "");
    assert_eq!(printed(&mut Command::new(program)), LINES);
}
