//! The crates' side: what crates/tickets exports, in the terms of the header, and the constants that the
//! header has of the crates.

use crate::side::{Function, Side, Typed};
use crate::words::{behind, closing, number, parts, places, words};
use std::collections::BTreeMap;

/// How an exported function begins.
const EXPORTED: [&str; 11] =
    ["#", "[", "unsafe", "(", "no_mangle", ")", "]", "pub", "extern", "\"C\"", "fn"];

/// The constants of the header that are the crates' under another name.
const SAME: [(&str, &str); 12] = [
    ("TICKETS_ACCOUNTS", "ACCOUNTS_SIZE"),
    ("TICKETS_LEDGER", "LEDGER_SIZE"),
    ("TICKETS_LONGEST_RECORD", "LONGEST_RECORD"),
    ("TICKETS_LONGEST_NAME", "NAME_LIMIT"),
    ("TICKETS_ACCOUNT_LIMIT", "ACCOUNT_LIMIT"),
    ("TICKETS_NO_ACCOUNT", "ACCOUNT_LIMIT"),
    ("TICKETS_TICKET_LIMIT", "TICKET_LIMIT"),
    ("TICKETS_TRAIL_LIMIT", "TRAIL_LIMIT"),
    ("TICKETS_SAVED", "SAVED_SIZE"),
    ("TICKETS_LAYOUT", "LAYOUT"),
    ("TICKETS_VERSION", "VERSION"),
    ("TICKETS_VERSION_TEXT", "VERSION"),
];

/// The constants of the header that are one bit, and the variant that has its number.
const BITS: [(&str, &str, &str); 8] = [
    ("TICKETS_FLAG_DISABLED", "Flag", "Disabled"),
    ("TICKETS_FLAG_BARRED", "Flag", "Barred"),
    ("TICKETS_FLAG_TRUSTED", "Flag", "Trusted"),
    ("TICKETS_FLAG_SERVICE", "Flag", "Service"),
    ("TICKETS_KDC_OPT_CNAME_IN_ADDL_TKT", "Bit", "CnameInAddlTkt"),
    ("TICKETS_TKT_FLG_INITIAL", "Bit", "Initial"),
    ("TICKETS_PAC_OPT_RESOURCE_BASED_CONSTRAINED_DELEGATION", "Bit", "ResourceBased"),
    ("TICKETS_TKT_FLG_FORWARDABLE", "Bit", "Forwardable"),
];

/// The constant of the header that is the bit of another: the option is asked for by the flag's bit.
const SAME_BIT: (&str, &str) = ("TICKETS_KDC_OPT_FORWARDABLE", "TICKETS_TKT_FLG_FORWARDABLE");

/// The bytes of the longest name in a request: what a length byte counts to.
const LONGEST_COUNTED: u64 = 255;

/// The words of the crates that the library is made of.
pub struct Crates<'t> {
    /// All of them.
    pub all: Vec<&'t str>,
    /// Those of `crates/tickets`.
    pub tickets: Vec<&'t str>,
    /// Those of the reader of requests, `crates/record/src/request.rt`.
    pub requests: Vec<&'t str>,
}

/// Reads the crates.
pub fn read(crates: &Crates) -> Side {
    let mut side = Side::default();
    let fields = answer_fields(&crates.tickets);
    side.answer = side.note(fields).unwrap_or_default();

    let starts = places(&crates.tickets, &EXPORTED);
    for sign in ["unsafe", "no_mangle", "extern", "repr"] {
        let (stands, known) = (places(&crates.tickets, &[sign]).len(), starts.len());
        if stands != if sign == "repr" { 1 } else { known } {
            side.findings.push(format!("crate: `{sign}` stands in a form that is not known"));
        }
    }
    for start in starts {
        let read = exported(&mut side, crates, &crates.tickets[start + EXPORTED.len()..]);
        side.note(read);
    }
    for read in [constants, bits, error_numbers, kinds, request_fields] {
        let read = read(&mut side, crates);
        side.note(read);
    }
    side
}

/// The fields of the answer's struct, which is laid out as C's are. What it derives does not matter.
fn answer_fields(tickets: &[&str]) -> Result<Vec<Typed>, String> {
    let mut rest = behind(tickets, &words("#[repr(C)]"))?;
    if let ["#", "[", "derive", ..] = rest {
        rest = &rest[closing(rest, 1)? + 1..];
    }
    let ["pub", "struct", "TicketsAnswer", rest @ ..] = rest else {
        return Err("crate: the answer's struct is not known".to_string());
    };
    let fields = parts(&rest[1..closing(rest, 0)?]);
    fields
        .into_iter()
        .map(|field| match field {
            ["pub", name, ":", kind] => Ok((plain_type(kind)?, name.to_string())),
            _ => Err(format!("crate: `{}` in the answer is not known", field.join(" "))),
        })
        .collect()
}

/// A type that is one word, in C.
fn plain_type(kind: &str) -> Result<String, String> {
    match kind {
        "u8" => Ok("uint8_t".to_string()),
        "u32" => Ok("uint32_t".to_string()),
        "u64" => Ok("uint64_t".to_string()),
        "TicketsAnswer" => Ok("tickets_answer".to_string()),
        _ => Err(format!("crate: the type `{kind}` is not known")),
    }
}

/// Reads the exported function whose name stands first.
fn exported(side: &mut Side, crates: &Crates, words: &[&str]) -> Result<(), String> {
    let (name, end) = (words[0], closing(words, 1)?);
    let mut parameters = Vec::new();
    for part in parts(&words[2..end]) {
        let [parameter, ":", kind @ ..] = part else {
            return Err(format!("crate: `{}` of {name} is not known", part.join(" ")));
        };
        let parameter = name_in_header(name, parameter);
        parameters.extend(in_c(side, crates, (name, parameter), kind)?);
    }
    let result = match &words[end + 1..] {
        ["-", ">", kind, "ensures" | "requires" | "{", ..] => plain_type(kind)?,
        ["ensures" | "requires" | "{", ..] => "void".to_string(),
        _ => return Err(format!("crate: the result of {name} is not known")),
    };
    side.functions.insert(name.to_string(), Function { result, parameters });
    Ok(())
}

/// A parameter's name in the header. It is the crate's, but for the two readers: what the header calls a
/// record or a request is `bytes` in the crate, where `record` is a word of the language of contracts.
fn name_in_header<'t>(function: &str, name: &'t str) -> &'t str {
    match (function, name) {
        ("tickets_rewrite", "bytes") => "record",
        ("tickets_read_request", "bytes") => "request",
        _ => name,
    }
}

/// What a parameter is in C: a slice is a pointer and a length, an array a pointer.
fn in_c(
    side: &mut Side,
    crates: &Crates,
    (function, name): (&str, &str),
    kind: &[&str],
) -> Result<Vec<Typed>, String> {
    let one = |kind: &str| vec![(kind.to_string(), name.to_string())];
    let slice = |kind: &str| {
        vec![(kind.to_string(), name.to_string()), ("size_t".to_string(), format!("{name}_len"))]
    };
    let (promise, array) = match kind {
        [kind] => return Ok(one(&plain_type(kind)?)),
        ["&", "[", "u8", "]"] => return Ok(slice("const uint8_t *")),
        ["&", "mut", "[", "u8", "]"] => return Ok(slice("uint8_t *")),
        ["&", "mut", array @ ..] => ("", array),
        ["&", array @ ..] => ("const ", array),
        _ => return Err(format!("crate: the type `{}` of {name} is not known", kind.join(" "))),
    };
    let (element, count) = array_of(crates, array)?;
    side.put(size_of(function, name)?, count);
    Ok(one(&format!("{promise}{} *", plain_type(element)?)))
}

/// The element and the length of an array, which may go by a name.
fn array_of<'t>(crates: &Crates<'t>, kind: &[&'t str]) -> Result<(&'t str, u64), String> {
    match kind {
        ["[", element, ";", count, "]"] => Ok((element, value(crates, count)?)),
        [name] => match behind(&crates.all, &["pub", "type", name, "="])? {
            ["[", element, ";", count, "]", ";", ..] => Ok((element, value(crates, count)?)),
            _ => Err(format!("crate: {name} is not known as an array")),
        },
        _ => Err(format!("crate: `{}` is not known as an array", kind.join(" "))),
    }
}

/// The constant of the header that says how long an array is.
fn size_of(function: &str, parameter: &str) -> Result<&'static str, String> {
    match (function, parameter) {
        (_, "accounts") => Ok("TICKETS_ACCOUNTS"),
        (_, "ledger") => Ok("TICKETS_LEDGER"),
        ("tickets_account", "fields") => Ok("TICKETS_ACCOUNT_FIELDS"),
        ("tickets_account", "name") => Ok("TICKETS_LONGEST_NAME"),
        ("tickets_ticket_at", "fields") => Ok("TICKETS_TICKET_FIELDS"),
        ("tickets_read_request", "fields") => Ok("TICKETS_REQUEST_FIELDS"),
        _ => Err(format!("crate: no constant has the length of {parameter} of {function}")),
    }
}

/// A number, or that of a public constant.
fn value(crates: &Crates, word: &str) -> Result<u64, String> {
    if let Some(number) = number(word) {
        return Ok(number);
    }
    match behind(&crates.all, &["pub", "const", word, ":"])? {
        ["u32" | "u64" | "usize", "=", value, ";", ..] => number(value),
        _ => None,
    }
    .ok_or(format!("crate: the value of {word} is not known"))
}

/// Limits, sizes, version and bits.
fn constants(side: &mut Side, crates: &Crates) -> Result<(), String> {
    for (constant, name) in SAME {
        let value = value(crates, name);
        if let Some(value) = side.note(value) {
            side.put(constant, value);
        }
    }
    Ok(())
}

/// The bits of accounts' flags, of options and of tickets' flags, from the variants' numbers.
fn bits(side: &mut Side, crates: &Crates) -> Result<(), String> {
    for (constant, kind, name) in BITS {
        let variants = variants(&crates.all, kind)?;
        let bit = variants.get(name).ok_or(format!("crate: {kind} has no {name}"))?;
        side.put(constant, 1 << bit);
        if constant == SAME_BIT.1 {
            side.put(SAME_BIT.0, 1 << bit);
        }
    }
    Ok(())
}

/// The variants of an enum that has a number beside each.
fn variants<'t>(words: &[&'t str], kind: &str) -> Result<BTreeMap<&'t str, u64>, String> {
    let rest = behind(words, &["enum", kind])?;
    let unknown =
        |variant: &[&str]| format!("crate: `{}` in {kind} is not known", variant.join(" "));
    parts(&rest[1..closing(rest, 0)?])
        .into_iter()
        .map(|variant| match variant {
            [name, "=", value] => number(value).map(|value| (*name, value)).ok_or(unknown(variant)),
            _ => Err(unknown(variant)),
        })
        .collect()
}

/// The numbers that an enum's variants become: the arms `Kind::Name => number` of its conversion.
fn arms<'t>(words: &[&'t str], from: &str, into: &str) -> Result<BTreeMap<&'t str, u64>, String> {
    let conversion = behind(words, &["impl", "From", "<", from, ">", "for", into])?;
    let conversion = &conversion[1..closing(conversion, 0)?];
    let unknown = |arm: &[&str]| format!("crate: `{}` of {from} is not known", arm.join(" "));
    let [_, "{", arms @ .., "}", "}"] = behind(conversion, &["match"])? else {
        return Err(format!("crate: the numbers of {from} are not one match"));
    };
    parts(arms)
        .into_iter()
        .map(|arm| match arm {
            [_, ":", ":", name, "=", ">", value] => {
                number(value).map(|value| (*name, value)).ok_or(unknown(arm))
            }
            _ => Err(unknown(arm)),
        })
        .collect()
}

fn error_numbers(side: &mut Side, crates: &Crates) -> Result<(), String> {
    for (name, value) in arms(&crates.all, "Error", "u32")? {
        side.put(&format!("TICKETS_{name}"), value);
    }
    Ok(())
}

fn kinds(side: &mut Side, crates: &Crates) -> Result<(), String> {
    for (name, value) in arms(&crates.all, "Kind", "u8")? {
        side.put(&format!("TICKETS_KIND_{}", name.to_uppercase()), value);
    }
    Ok(())
}

/// The numbers behind a constant's `=`.
fn table(words: &[&str], name: &str) -> Result<Vec<u64>, String> {
    let rest = behind(words, &["const", name])?;
    let start = rest.iter().position(|word| *word == "=").ok_or("crate: no `=`")?;
    let values = rest[start..].iter().take_while(|word| **word != ";");
    Ok(values.filter_map(|word| number(word)).collect())
}

/// The optional fields of a request, from the maps of its kinds: kind 1 has options and till, kind 4 PAC
/// options and till. The longest request is one of kind 4 with all of them.
fn request_fields(side: &mut Side, crates: &Crates) -> Result<(), String> {
    // A row for each kind: what it needs, and what it allows.
    let maps = table(&crates.requests, "MAPS")?;
    let &[needed_1, allowed_1, _, _, _, _, needed_4, allowed_4] = &maps[..] else {
        return Err("crate: the maps of the kinds are not known".to_string());
    };
    let (optional_1, optional_4) = (allowed_1 & !needed_1, allowed_4 & !needed_4);
    side.put("TICKETS_FIELD_TILL", optional_1 & optional_4);
    side.put("TICKETS_FIELD_OPTIONS", optional_1 & !optional_4);
    side.put("TICKETS_FIELD_PAC_OPTIONS", optional_4 & !optional_1);

    let layout = table(&crates.requests, "LAYOUT")?;
    let record = value(crates, "LONGEST_RECORD")?;
    let longest = [0, 0, 0, 0, record, record, LONGEST_COUNTED, LONGEST_COUNTED];
    // Behind the number of fields stand a head and a unit for each of them.
    let heads = layout.chunks(2).map(|field| field[0]).zip(longest).enumerate();
    let stands = heads.filter(|(bit, _)| allowed_4 >> bit & 1 == 1);
    let map = 2;
    side.put(
        "TICKETS_LONGEST_REQUEST",
        map + stands.map(|(_, (head, rest))| head + rest).sum::<u64>(),
    );
    Ok(())
}
