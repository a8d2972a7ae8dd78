//! What is said of the header again: the synopsis and the errors of man/tickets.3, the calls and the constants
//! of examples/python/tickets.py.

use crate::header::{self, Header, MAJOR};
use crate::side::{differences, Function, Side};
use crate::words::{behind, closing, number, parts, words};

/// The classes of the Python module that have constants, and how these begin in the header.
const CLASSES: [(&str, &str); 3] =
    [("Flag", "TICKETS_FLAG_"), ("Kind", "TICKETS_KIND_"), ("Error", "TICKETS_")];

/// Where the manual page does not say what the header does.
pub fn of_manual(page: &str, header: &Header) -> Vec<String> {
    let section = |title: &str| {
        let rest = page.split(title).nth(1).unwrap_or_default();
        rest.split("\n.fi").next().unwrap_or_default().to_string()
    };
    let synopsis = section(".SH SYNOPSIS");
    let lines = synopsis.lines().filter(|line| line.starts_with(".B"));
    let calls = lines.filter(|line| !line.contains("#include") && !line.contains("error_name"));
    let plain: Vec<_> =
        calls.map(|line| line[3..].trim_start_matches(' ').replace('"', " ")).collect();
    let mut told = header::read(&plain.join("\n")).side;
    for line in section(".SH ERRORS").lines() {
        if let [value, name, ..] = line.split_whitespace().collect::<Vec<_>>()[..] {
            if let Some(value) = number(value) {
                told.put(&format!("TICKETS_{name}"), value);
            }
        }
    }
    let mut declared = Side { functions: header.side.functions.clone(), ..Side::default() };
    for name in &header.errors {
        declared.put(name, header.side.constants[name]);
    }
    let found = differences(("the manual page", &told), ("header", &declared));
    found.into_iter().chain(told.findings).collect()
}

/// Where the Python module does not say what the header does. It need not have all calls and constants, but
/// has all flags, kinds and errors.
pub fn of_python(module: &str, header: &Header) -> Vec<String> {
    let mut told = Side::default();
    let read = python_calls(&mut told, &words(module));
    told.note(read);
    python_constants(&mut told, module);

    let mut declared = Side::default();
    declared.put("TICKETS_MAJOR", header.side.constants["TICKETS_VERSION"] / MAJOR);
    for (name, function) in &header.side.functions {
        if told.functions.contains_key(name) {
            declared.functions.insert(name.clone(), in_python(function));
        }
    }
    for (name, value) in header.side.constants.iter().chain(&header.places) {
        let is_whole = name.starts_with("TICKETS_FLAG_") || name.starts_with("TICKETS_KIND_");
        if is_whole || header.errors.contains(name) || told.constants.contains_key(name) {
            declared.put(name, *value);
        }
    }
    let found = differences(("the Python module", &told), ("header", &declared));
    found.into_iter().chain(told.findings).collect()
}

/// A function by the types that the module has for it; parameters have no names there.
fn in_python(function: &Function) -> Function {
    let kind = |kind: &str| match kind {
        "void" => "None",
        "uint32_t" => "c_uint32",
        "uint64_t" => "c_uint64",
        "size_t" => "c_size_t",
        "tickets_answer" => "Answer",
        "const uint8_t *" => "c_char_p",
        "uint8_t *" => "BYTES",
        "uint64_t *" | "const uint64_t *" => "WORDS",
        other => panic!("header: the type `{other}` is not known in Python"),
    };
    let parameters =
        function.parameters.iter().map(|given| (kind(&given.0).to_string(), String::new()));
    Function { result: kind(&function.result).to_string(), parameters: parameters.collect() }
}

/// The table of calls: a name, the result, and lists of types.
fn python_calls(told: &mut Side, module: &[&str]) -> Result<(), String> {
    let rest = behind(module, &["CALLS", "="])?;
    for entry in parts(&rest[1..closing(rest, 0)?]) {
        let [name, ":", "(", given @ .., ")"] = entry else {
            return Err(format!("Python: `{}` is not known", entry.join(" ")));
        };
        let [[result], lists] = parts(given)[..] else {
            return Err(format!("Python: what {name} is given is not known"));
        };
        let types = lists.iter().filter(|word| !["[", "]", "+", ","].contains(word));
        let parameters = types.map(|kind| (kind.to_string(), String::new())).collect();
        let function = Function { result: result.to_string(), parameters };
        told.functions.insert(name.trim_matches('"').to_string(), function);
    }
    Ok(())
}

/// The lines `NAME = number`, of the module and of its classes.
fn python_constants(told: &mut Side, module: &str) {
    let mut class = "";
    for line in module.lines() {
        if let Some(named) = line.strip_prefix("class ") {
            class = named.split(['(', ':']).next().unwrap_or_default();
        }
        let start = match line.strip_prefix("    ") {
            Some(_) => CLASSES.iter().find(|(name, _)| *name == class).map(|(_, start)| *start),
            None => Some("TICKETS_"),
        };
        let (Some(start), [name, "=", value]) = (start, &words(line)[..]) else { continue };
        let Some(value) = number(value) else { continue };
        told.put(&format!("{start}{name}"), value);
    }
}
