//! What one side has of the border, in the terms of the header.

use std::collections::{BTreeMap, BTreeSet};
use std::fmt;

/// A parameter or a field: its type in C, and its name.
pub type Typed = (String, String);

/// A function as C declares it.
#[derive(Clone, PartialEq, Eq)]
pub struct Function {
    pub result: String,
    pub parameters: Vec<Typed>,
}

impl fmt::Display for Function {
    fn fmt(&self, f: &mut fmt::Formatter) -> fmt::Result {
        let parameters: Vec<_> =
            self.parameters.iter().map(|(kind, name)| format!("{kind} {name}")).collect();
        write!(f, "{} ({})", self.result, parameters.join(", "))
    }
}

/// One side of the border.
#[derive(Default)]
pub struct Side {
    /// The functions by their names.
    pub functions: BTreeMap<String, Function>,
    /// The fields of the answer's struct.
    pub answer: Vec<Typed>,
    /// The constants by their names in the header.
    pub constants: BTreeMap<String, u64>,
    /// What could not be read, and what does not agree within the side.
    pub findings: Vec<String>,
}

impl Side {
    /// Notes a constant; a second value of the same name is a finding.
    pub fn put(&mut self, name: &str, value: u64) {
        let before = self.constants.insert(name.to_string(), value);
        if before.is_some_and(|before| before != value) {
            self.findings.push(format!("{name} is {before:?} and {value}"));
        }
    }

    /// Goes on with what was read, or notes why it was not.
    pub fn note<T>(&mut self, read: Result<T, String>) -> Option<T> {
        read.map_err(|finding| self.findings.push(finding)).ok()
    }
}

/// Where two sides differ.
pub fn differences(left: (&str, &Side), right: (&str, &Side)) -> Vec<String> {
    let ((left_name, left), (right_name, right)) = (left, right);
    let compared = |what: &str, a: Option<String>, b: Option<String>| {
        let said = |side: Option<String>| side.unwrap_or("nothing".to_string());
        (a != b)
            .then(|| format!("{what}: {left_name} has {}, {right_name} has {}", said(a), said(b)))
    };
    let functions = names(&left.functions, &right.functions).into_iter().filter_map(|name| {
        let of = |side: &Side| side.functions.get(name).map(Function::to_string);
        compared(name, of(left), of(right))
    });
    let constants = names(&left.constants, &right.constants).into_iter().filter_map(|name| {
        let of = |side: &Side| side.constants.get(name).map(u64::to_string);
        compared(name, of(left), of(right))
    });
    let of = |side: &Side| Some(format!("{:?}", side.answer));
    functions.chain(constants).chain(compared("tickets_answer", of(left), of(right))).collect()
}

/// The names that either map has.
pub fn names<'m, T>(
    left: &'m BTreeMap<String, T>,
    right: &'m BTreeMap<String, T>,
) -> BTreeSet<&'m String> {
    left.keys().chain(right.keys()).collect()
}
