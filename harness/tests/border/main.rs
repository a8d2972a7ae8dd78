//! The border: what crates/tickets exports, what include/tickets.h declares, and what the Rust crate, the
//! manual page and the Python module say of it again, held to each other as texts. What is not understood is a finding too. So that this
//! cannot be silent, wrong texts are tried, and each has to be found.

mod changes;
mod copies;
mod exports;
mod header;
mod layout;
mod side;
mod words;
mod wrapper;

use changes::{Change, FORMS, NAMES, ORDERS, TYPES, VALUES};
use side::differences;
use std::collections::BTreeMap;
use std::fs;
use std::path::{Path, PathBuf};

/// The crates that the library is made of.
const CRATES: [&str; 5] = ["definitions", "record", "rules", "ledger", "tickets"];

/// What is read beside their sources and those of the Rust crate.
const OTHERS: [&str; 4] =
    ["include/tickets.h", "rust/Cargo.toml", "man/tickets.3", "examples/python/tickets.py"];

/// The texts of all sides by their paths from the repository's top.
type Texts = BTreeMap<String, String>;

/// The repository's top.
fn top() -> PathBuf {
    Path::new(env!("CARGO_MANIFEST_DIR")).join("..")
}

fn texts() -> Texts {
    let mut found = Texts::new();
    let folders = CRATES.iter().map(|name| format!("crates/{name}/src"));
    for folder in folders.chain(["rust/src".to_string()]) {
        for entry in fs::read_dir(top().join(&folder)).expect("a folder of sources") {
            let name = entry.expect("a file").file_name().into_string().expect("a name");
            found.insert(format!("{folder}/{name}"), String::new());
        }
    }
    for path in OTHERS {
        found.insert(path.to_string(), String::new());
    }
    for (path, text) in &mut found {
        *text =
            fs::read_to_string(top().join(path)).unwrap_or_else(|error| panic!("{path}: {error}"));
    }
    found
}

/// The words of the files whose paths start like this.
fn words_of<'t>(texts: &'t Texts, start: &str) -> Vec<&'t str> {
    let files = texts.iter().filter(|(path, _)| path.starts_with(start));
    files.flat_map(|(_, text)| words::words(text)).collect()
}

/// Where the sides do not agree, or cannot be read.
fn findings(texts: &Texts) -> Vec<String> {
    let exported = exports::read(&exports::Crates {
        all: words_of(texts, "crates/"),
        tickets: words_of(texts, "crates/tickets/"),
        requests: words_of(texts, "crates/record/src/request.rt"),
    });
    let header = header::read(&texts["include/tickets.h"]);
    let wrapped = wrapper::read(&words_of(texts, "rust/src/"), &texts["rust/Cargo.toml"]);

    let mut found = differences(("crate", &exported), ("header", &header.side));
    found.extend(header.inline_findings());
    found.extend(copies::of_manual(&texts["man/tickets.3"], &header));
    found.extend(copies::of_python(&texts["examples/python/tickets.py"], &header));
    let mut declared = header.side;
    declared.constants.extend(header.places);
    found.extend(differences(("rust", &wrapped), ("header", &declared)));
    found.extend([exported.findings, declared.findings, wrapped.findings].concat());
    found
}

#[test]
fn the_sides_agree() {
    let found = findings(&texts());
    assert!(found.is_empty(), "{} findings:\n{}", found.len(), found.join("\n"));
}

/// Each change gives a finding that names what it altered.
fn are_found(changes: &[Change]) {
    let texts = texts();
    let known = findings(&texts);
    for Change { path, right, wrong, named } in changes {
        let text = &texts[*path];
        assert_eq!(text.matches(right).count(), 1, "{path} has one place for: {right}");
        let mut changed = texts.clone();
        changed.insert(path.to_string(), text.replacen(right, wrong, 1));
        let mut found = findings(&changed).into_iter().filter(|finding| !known.contains(finding));
        assert!(found.any(|finding| finding.contains(named)), "{path} with: {wrong}");
    }
}

#[test]
fn another_order_is_found() {
    are_found(ORDERS);
}

#[test]
fn another_name_is_found() {
    are_found(NAMES);
}

#[test]
fn another_type_is_found() {
    are_found(TYPES);
}

#[test]
fn another_value_is_found() {
    are_found(VALUES);
}

#[test]
fn an_unknown_form_is_found() {
    are_found(FORMS);
}

#[test]
fn the_structs_lie_as_rust_has_them() {
    layout::check(&top().join("include"), &header::read(&texts()["include/tickets.h"]).service);
}
