//! The header's side: include/tickets.h.

use crate::side::{names, Function, Side, Typed};
use crate::words::{closing, number, parts, words};
use std::collections::BTreeMap;

/// The types of parameters and fields.
const TYPES: [&str; 8] = [
    "uint32_t",
    "uint64_t",
    "size_t",
    "tickets_answer",
    "const uint8_t *",
    "uint8_t *",
    "const uint64_t *",
    "uint64_t *",
];

/// The types of results, and of the inline functions, besides.
const RESULTS: [&str; 1] = ["void"];
const INLINE: [&str; 4] = ["void", "const char *", "const tickets_service *", "tickets_service *"];

/// The directives that declare nothing.
const DIRECTIVES: [&str; 6] = [
    "#ifndef TICKETS_H",
    "#define TICKETS_H",
    "#include <stddef.h>",
    "#include <stdint.h>",
    "#ifdef __cplusplus",
    "#endif",
];

/// What the major number counts in a version's number.
pub const MAJOR: u64 = 10000;

/// The header, as it is read.
pub struct Header {
    /// What a caller sees, without `places`.
    pub side: Side,
    /// The names of the places in arrays of numbers, as `TICKETS_REQUEST_KIND`; how many there are is
    /// among the constants.
    pub places: BTreeMap<String, u64>,
    /// The fields of `tickets_service`, with how many words each has.
    pub service: Vec<(String, u64)>,
    /// The names of the error numbers.
    pub errors: Vec<String>,
    inline: BTreeMap<String, (Function, String)>,
}

/// Reads the header.
pub fn read(text: &str) -> Header {
    let mut header = Header {
        side: Side::default(),
        places: BTreeMap::new(),
        service: Vec::new(),
        inline: BTreeMap::new(),
        errors: Vec::new(),
    };
    let (directives, plain): (Vec<_>, Vec<_>) =
        text.lines().partition(|line| line.starts_with('#'));
    for line in directives {
        let read = header.directive(line);
        header.side.note(read);
    }
    let plain = plain.join("\n");
    let mut rest = &words(&plain)[..];
    while !rest.is_empty() {
        let read = header.item(rest);
        let Some(taken) = header.side.note(read) else { break };
        rest = &rest[taken..];
    }
    header
}

impl Header {
    fn directive(&mut self, line: &str) -> Result<(), String> {
        if DIRECTIVES.contains(&line) {
            return Ok(());
        }
        let unknown = || format!("header: `{line}` is not known");
        let ["#", "define", name, value] = words(line)[..] else { return Err(unknown()) };
        let value = match value.strip_prefix('"') {
            Some(text) => version(text.trim_end_matches('"')),
            None => number(value),
        };
        self.side.put(name, value.ok_or_else(unknown)?);
        Ok(())
    }

    /// Reads what stands at the start, and gives how many words it has.
    fn item(&mut self, words: &[&str]) -> Result<usize, String> {
        match words {
            ["extern", "\"C\"", "{", ..] => Ok(3),
            ["}"] => Ok(1),
            ["enum", "{", ..] => {
                let end = closing(words, 1)?;
                self.enumeration(&words[2..end])?;
                ended(words, end + 1)
            }
            ["typedef", "struct", "{", ..] => {
                let end = closing(words, 2)?;
                self.structure(words[end + 1], &words[3..end])?;
                ended(words, end + 2)
            }
            ["static", "inline", ..] => {
                let (name, function, behind) = declared(&words[2..], &INLINE)?;
                let (start, end) = (2 + behind, closing(words, 2 + behind)?);
                self.inline.insert(name, (function, words[start + 1..end].join(" ")));
                Ok(end + 1)
            }
            _ => {
                let (name, function, behind) = declared(words, &RESULTS)?;
                self.side.functions.insert(name, function);
                ended(words, behind)
            }
        }
    }

    /// An enumeration. One that ends with a name in `_FIELDS` has places, and last how many they are.
    fn enumeration(&mut self, words: &[&str]) -> Result<(), String> {
        let entries = parts(words);
        let of_places = words.iter().any(|word| word.ends_with("_FIELDS"));
        let mut next = 0;
        for (at, entry) in entries.iter().enumerate() {
            let value = match entry[1..] {
                [] if of_places => next,
                ["=", value] => number(value).ok_or_else(|| entry.join(" "))?,
                ["=", a, "+", b] => self.value(a)? + self.value(b)?,
                _ => return Err(format!("header: `{}` is not known", entry.join(" "))),
            };
            next = value + 1;
            self.enumerator(entry[0], value, of_places && at + 1 < entries.len());
        }
        Ok(())
    }

    fn enumerator(&mut self, name: &str, value: u64, is_place: bool) {
        if is_place {
            self.places.insert(name.to_string(), value);
            return;
        }
        if name.starts_with("TICKETS_KDC_ERR_") || name.starts_with("TICKETS_KRB_") {
            self.errors.push(name.to_string());
        }
        self.side.put(name, value);
    }

    fn value(&self, name: &str) -> Result<u64, String> {
        let known = self.places.get(name).or(self.side.constants.get(name));
        known.copied().ok_or(format!("header: {name} has no value"))
    }

    fn structure(&mut self, name: &str, words: &[&str]) -> Result<(), String> {
        for field in words.split(|word| *word == ";").filter(|field| !field.is_empty()) {
            match (name, field) {
                ("tickets_answer", field) => self.side.answer.push(typed(field, &[])?),
                ("tickets_service", ["uint64_t", field, "[", count, "]"]) => {
                    self.service.push((field.to_string(), self.value(count)?));
                }
                _ => return Err(format!("header: `{}` in {name} is not known", field.join(" "))),
            }
        }
        Ok(())
    }

    /// Where the inline functions are not what follows from the functions and the error numbers.
    pub fn inline_findings(&self) -> Vec<String> {
        let functions = self.side.functions.iter();
        let mut expected: BTreeMap<_, _> =
            functions.filter_map(|(name, plain)| over_service(name, plain)).collect();
        expected.insert("tickets_error_name".to_string(), error_name(&self.errors));
        let said = |side: Option<&(Function, String)>| match side {
            Some((function, body)) => format!("{function} {{ {body} }}"),
            None => "nothing".to_string(),
        };
        let all = names(&expected, &self.inline).into_iter();
        let differing = all.filter(|name| expected.get(*name) != self.inline.get(*name));
        let finding = |name: &String| {
            let (right, found) = (said(expected.get(name)), said(self.inline.get(name)));
            format!("{name}: {right} is expected, header has {found}")
        };
        differing.map(finding).collect()
    }
}

/// A version's number, of its text.
pub fn version(text: &str) -> Option<u64> {
    let numbers: Vec<u64> = text.split('.').map(|part| part.parse().ok()).collect::<Option<_>>()?;
    match numbers[..] {
        [major, minor, patch] => Some(major * MAJOR + minor * 100 + patch),
        _ => None,
    }
}

/// What is taken where a semicolon has to stand.
fn ended(words: &[&str], at: usize) -> Result<usize, String> {
    match words.get(at) {
        Some(&";") => Ok(at + 1),
        other => Err(format!("header: {other:?} stands where `;` is expected")),
    }
}

/// A type and a name; the types known are those of parameters and these.
fn typed(words: &[&str], more: &[&str]) -> Result<Typed, String> {
    let (name, kind) = words.split_last().ok_or("header: a name is missing")?;
    let kind = kind.join(" ");
    match TYPES.contains(&&*kind) || more.contains(&&*kind) {
        true => Ok((kind, name.to_string())),
        false => Err(format!("header: the type `{kind}` of {name} is not known")),
    }
}

/// A function's name, the function, and where the words behind its parameters start.
fn declared(words: &[&str], more: &[&str]) -> Result<(String, Function, usize), String> {
    let start = words.iter().position(|word| *word == "(");
    let start = start.ok_or(format!("header: `{}` is not known", words.join(" ")))?;
    let end = closing(words, start)?;
    let (result, name) = typed(&words[..start], more)?;
    let parameters = match &words[start + 1..end] {
        ["void"] => Ok(Vec::new()),
        given => parts(given).into_iter().map(|part| typed(part, more)).collect(),
    };
    Ok((name, Function { result, parameters: parameters? }, end + 1))
}

/// Whether a parameter is words of a service.
fn is_lent((_, name): &Typed) -> bool {
    name == "accounts" || name == "ledger"
}

/// What the inline function over a service is, for a function that takes words of one: it passes on the
/// service's words, and its other parameters as they are.
fn over_service(name: &str, plain: &Function) -> Option<(String, (Function, String))> {
    let lent: Vec<_> = plain.parameters.iter().filter(|given| is_lent(given)).collect();
    let only_read = lent.iter().all(|(kind, _)| kind.starts_with("const"));
    let service = if only_read { "const tickets_service *" } else { "tickets_service *" };
    let mut parameters = vec![(service.to_string(), "service".to_string())];
    parameters.extend(plain.parameters.iter().filter(|given| !is_lent(given)).cloned());
    let passed = plain.parameters.iter().map(|given| match is_lent(given) {
        true => format!("service->{}", given.1),
        false => given.1.clone(),
    });
    let answers = if plain.result == "void" { "" } else { "return " };
    let body = format!("{answers}{name}({});", passed.collect::<Vec<_>>().join(", "));
    let named = name.replacen("tickets_", "tickets_service_", 1);
    let function = Function { result: plain.result.clone(), parameters };
    (!lent.is_empty()).then(|| (named, (function, words(&body).join(" "))))
}

/// What `tickets_error_name` is, by the names of the error numbers.
fn error_name(errors: &[String]) -> (Function, String) {
    let cases = errors
        .iter()
        .map(|name| format!("case {name}: return \"{}\";", name.trim_start_matches("TICKETS_")));
    let body = format!(
        "switch (error) {{ case 0: return \"KDC_ERR_NONE\"; {} default: return NULL; }}",
        cases.collect::<String>()
    );
    let parameters = vec![("uint32_t".to_string(), "error".to_string())];
    let function = Function { result: "const char *".to_string(), parameters };
    (function, words(&body).join(" "))
}
