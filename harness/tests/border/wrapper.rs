//! The Rust crate's side: the calls that rust/src/raw.rs declares, and the constants of rust/src.

use crate::header::version;
use crate::side::{Function, Side, Typed};
use crate::words::{behind, closing, number, parts, places, words};

/// Reads the crate, of the words of its files.
pub fn read(crate_words: &[&str], manifest: &str) -> Side {
    let mut side = Side::default();
    for read in [answer_fields, functions, constants, error_numbers] {
        let read = read(&mut side, crate_words);
        side.note(read);
    }
    let stated = manifest.lines().find_map(|line| line.strip_prefix("version = "));
    let stated = stated.and_then(|text| version(text.trim_matches('"')));
    let stated = stated.ok_or("rust: Cargo.toml has no version".to_string());
    if let Some(stated) = side.note(stated) {
        side.put("TICKETS_VERSION", stated);
    }
    side
}

fn unknown(words: &[&str]) -> String {
    format!("rust: `{}` is not known", words.join(" "))
}

/// A type in C.
fn in_c(kind: &[&str]) -> Result<String, String> {
    let known = match kind {
        ["u32"] => "uint32_t",
        ["u64"] => "uint64_t",
        ["usize"] => "size_t",
        ["Answer"] => "tickets_answer",
        ["*", "const", "u8"] => "const uint8_t *",
        ["*", "mut", "u8"] => "uint8_t *",
        ["*", "const", "u64"] => "const uint64_t *",
        ["*", "mut", "u64"] => "uint64_t *",
        _ => return Err(unknown(kind)),
    };
    Ok(known.to_string())
}

fn typed(words: &[&str]) -> Result<Typed, String> {
    match words {
        [name, ":", kind @ ..] => Ok((in_c(kind)?, name.to_string())),
        _ => Err(unknown(words)),
    }
}

fn answer_fields(side: &mut Side, crate_words: &[&str]) -> Result<(), String> {
    let rest = behind(crate_words, &words("#[repr(C)] pub struct Answer"))?;
    for field in parts(&rest[1..closing(rest, 0)?]) {
        let ["pub", field @ ..] = field else { return Err(unknown(field)) };
        side.answer.push(typed(field)?);
    }
    Ok(())
}

/// The functions of the one block of C functions.
fn functions(side: &mut Side, crate_words: &[&str]) -> Result<(), String> {
    let rest = behind(crate_words, &["extern", "\"C\""])?;
    let mut rest = &rest[1..closing(rest, 0)?];
    while !rest.is_empty() {
        let ["fn", name, "(", ..] = rest else { return Err(unknown(rest)) };
        let end = closing(rest, 2)?;
        let parameters = parts(&rest[3..end]).into_iter().map(typed).collect::<Result<_, _>>()?;
        let (result, taken) = match &rest[end + 1..] {
            [";", ..] => ("void".to_string(), 1),
            ["-", ">", kind, ";", ..] => (in_c(&[kind])?, 4),
            other => return Err(unknown(other)),
        };
        side.functions.insert(name.to_string(), Function { result, parameters });
        rest = &rest[end + 1 + taken..];
    }
    Ok(())
}

/// The public constants, but for those of `Error`, whose numbers are read below.
fn constants(side: &mut Side, crate_words: &[&str]) -> Result<(), String> {
    for start in places(crate_words, &["pub", "const"]) {
        let (name, value) = match &crate_words[start + 2..] {
            ["fn" | "$", ..] => continue,
            [name, ":", "&", "str", "=", text, ";", ..] => (name, version(text.trim_matches('"'))),
            [name, ":", _, "=", value, ";", ..] => (name, number(value)),
            [name, ":", _, "=", a, "+", b, ";", ..] => (name, sum(side, a, b)),
            other => return Err(unknown(&other[..6])),
        };
        side.put(&format!("TICKETS_{name}"), value.ok_or(format!("rust: {name} is not known"))?);
    }
    Ok(())
}

fn sum(side: &Side, a: &str, b: &str) -> Option<u64> {
    let value = |name: &str| side.constants.get(&format!("TICKETS_{name}"));
    Some(value(a)? + value(b)?)
}

fn error_numbers(side: &mut Side, crate_words: &[&str]) -> Result<(), String> {
    let rest = behind(crate_words, &["numbers", "!"])?;
    for entry in parts(&rest[1..closing(rest, 0)?]) {
        let [name, "=", value] = entry else { return Err(unknown(entry)) };
        let value = number(value).ok_or_else(|| unknown(entry))?;
        side.put(&format!("TICKETS_{name}"), value);
    }
    Ok(())
}
