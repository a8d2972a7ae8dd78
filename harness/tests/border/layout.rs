//! The structs of the header as a C compiler lays them out, against those of Rust.

use std::io::Write;
use std::mem::{align_of, offset_of, size_of};
use std::path::Path;
use std::process::{Command, Stdio};

/// `tickets_answer` by Rust's layout of C structs.
#[repr(C)]
struct Answer {
    error: u32,
    value: u32,
}

/// Has the C compiler check that the header's structs lie as Rust has them, and that the words of a
/// service, so many for each field, follow each other.
pub fn check(include: &Path, service: &[(String, u64)]) {
    let mut facts = vec![
        ("offsetof(tickets_answer, error)".to_string(), offset_of!(Answer, error) as u64),
        ("offsetof(tickets_answer, value)".to_string(), offset_of!(Answer, value) as u64),
        ("sizeof(tickets_answer)".to_string(), size_of::<Answer>() as u64),
        ("_Alignof(tickets_answer)".to_string(), align_of::<Answer>() as u64),
    ];
    let mut offset = 0;
    for (field, count) in service {
        facts.push((format!("offsetof(tickets_service, {field})"), offset));
        offset += count * size_of::<u64>() as u64;
    }
    facts.push(("sizeof(tickets_service)".to_string(), offset));
    let asserts: String = facts
        .iter()
        .map(|(fact, value)| format!("_Static_assert({fact} == {value}, \"\");\n"))
        .collect();
    let refused = compile(include, &asserts);
    assert!(refused.is_none(), "{}", refused.unwrap_or_default());

    // That the compiler is asked at all: one fact that does not hold.
    let (fact, value) = &facts[1];
    let wrong = format!("_Static_assert({fact} == {value} + 1, \"\");\n");
    assert!(compile(include, &wrong).is_some(), "the compiler lets a wrong fact through");
}

/// What the C compiler says against the header with this text behind it.
fn compile(include: &Path, text: &str) -> Option<String> {
    let mut compiler = Command::new("cc");
    compiler.args(["-std=c11", "-Wall", "-Wextra", "-Werror", "-pedantic", "-fsyntax-only"]);
    compiler.arg("-I").arg(include).args(["-x", "c", "-"]);
    compiler.stdin(Stdio::piped()).stderr(Stdio::piped());
    let mut running = compiler.spawn().expect("cc is there");
    let program = format!("#include \"tickets.h\"\n{text}");
    running.stdin.take().expect("its input").write_all(program.as_bytes()).expect("its input");
    let run = running.wait_with_output().expect("cc ends");
    (!run.status.success()).then(|| String::from_utf8_lossy(&run.stderr).into_owned())
}
