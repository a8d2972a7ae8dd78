//! What is counted of a find (R2.11): of one that finds an account, what is stored there; of another, how
//! near the name comes to an account's.

use super::tally::{holding, NEVER};
use crate::accounts::Table;
use crate::limits::{ACCOUNT_LIMIT, NAME_LIMIT};
use crate::record::Principal;
use crate::words::{row_at, AccountWords};
use std::ops::Range;

/// What is counted of a name that is found.
pub const FOUND: &[&str] = &[
    "as it stands",
    "other letter case",
    "account 0",
    "account 63",
    "disabled",
    "several match",
    "bytes behind",
    "words behind",
];

/// The lengths that are counted of the names that are found.
pub const LENGTHS: &[&str] = &["1", "7", "8", "9", "16", "17", "24"];

/// What is counted of a name that is not found: its length, where no account's name has it; that it is an
/// account's name but for bytes more or less at its end; and which byte it is that alone differs from an
/// account's name.
pub const NOT_FOUND: &[&str] = &[
    "no bytes",
    "25 bytes",
    "more",
    "24 of 25 bytes",
    "256 bytes more",
    "zero byte behind",
    "last byte missing",
    "last byte",
    "byte 0 to 7",
    "byte 8 to 15",
    "byte 16 to 23",
    "nothing alike",
];

/// R2.6: the bytes that differ in the bit of the letter case alone without being letters.
pub const APART: &[&str] = &["0x00 to 0x3F", "0x40 and 0x60", "0x5B to 0x7F", "0x80 to 0xFF"];

/// A find, and the accounts that it met.
pub struct Find<'a> {
    pub accounts: &'a AccountWords,
    pub table: &'a Table,
    pub name: &'a [u8],
}

impl<'a> Find<'a> {
    /// The names of the set accounts.
    fn names(&self) -> impl Iterator<Item = &'a [u8]> {
        self.table.rows.iter().flatten().map(|account| account.name())
    }

    /// Whether an account has a name that matches.
    fn matches(&self, name: &[u8]) -> bool {
        self.names().any(|other| other.eq_ignore_ascii_case(name))
    }

    /// What is counted where this account is found.
    pub fn found(&self, number: u32) -> impl Iterator<Item = &'static str> {
        let (number, length) = (number as usize, self.name.len());
        let principal = number as Principal;
        let row = &self.accounts[row_at(number)..][..NAME_LIMIT / 8];
        let stored: Vec<u8> = row.iter().flat_map(|word| word.to_le_bytes()).collect();
        let as_it_stands = stored[..length] == *self.name;
        let matching = self.names().filter(|other| other.eq_ignore_ascii_case(self.name)).count();
        let mut bytes_behind = stored[length..length.next_multiple_of(8)].iter().copied();
        let mut words_behind = row[length.div_ceil(8)..].iter().copied();
        holding([
            (as_it_stands, "as it stands"),
            (!as_it_stands, "other letter case"),
            (number == 0, "account 0"),
            (number == ACCOUNT_LIMIT - 1, "account 63"),
            (self.table.is_disabled(principal), "disabled"),
            (matching > 1, "several match"),
            (bytes_behind.any(|byte| byte != 0), "bytes behind"),
            (words_behind.any(|word| word != 0), "words behind"),
        ])
    }

    /// The length of a name that is found, where it is counted.
    pub fn length(&self) -> impl Iterator<Item = &'static str> {
        let length = self.name.len().to_string();
        LENGTHS.iter().copied().find(|name| *name == length).into_iter()
    }

    /// What is counted where no account is found.
    pub fn not_found(&self) -> impl Iterator<Item = &'static str> {
        let (name, length) = (self.name, self.name.len());
        let is_start =
            |other: &[u8]| other.len() == length + 1 && other[..length].eq_ignore_ascii_case(name);
        let differences = self.differences();
        let differs =
            |places: Range<usize>| differences.iter().any(|(place, ..)| places.contains(place));
        let counted = [
            (length == 0, "no bytes"),
            (length == NAME_LIMIT + 1, "25 bytes"),
            (length > NAME_LIMIT + 1, "more"),
            (length == NAME_LIMIT + 1 && self.matches(&name[..NAME_LIMIT]), "24 of 25 bytes"),
            (length >= 256 && self.matches(&name[..length - 256]), "256 bytes more"),
            (name.strip_suffix(&[0]).is_some_and(|rest| self.matches(rest)), "zero byte behind"),
            (length > 0 && self.names().any(is_start), "last byte missing"),
            (differs(length.saturating_sub(1)..length), "last byte"),
            (differs(0..8), "byte 0 to 7"),
            (differs(8..16), "byte 8 to 15"),
            (differs(16..24), "byte 16 to 23"),
        ];
        let alike = counted.iter().any(|(holds, _)| *holds);
        holding(counted).chain(holding([(!alike, "nothing alike")]))
    }

    /// R2.6: the pairs of bytes for which alone the name is not an account's, where these differ in the
    /// bit of the letter case.
    pub fn apart(&self) -> impl Iterator<Item = &'static str> {
        let differences = self.differences().into_iter();
        let pairs = differences.filter(|(_, one, other)| one ^ other == 0x20);
        pairs.map(|(_, one, other)| apart(one.min(other)))
    }

    /// Of each account's name that differs from this one in a single byte, where, and both bytes.
    fn differences(&self) -> Vec<(usize, u8, u8)> {
        self.names().filter_map(|other| only_difference(self.name, other)).collect()
    }
}

/// The one place at which names of the same length do not match, and the bytes there.
fn only_difference(name: &[u8], other: &[u8]) -> Option<(usize, u8, u8)> {
    if name.len() != other.len() {
        return None;
    }
    let pairs = name.iter().zip(other).enumerate();
    let mut differing = pairs.filter(|(_, (one, other))| !one.eq_ignore_ascii_case(other));
    match (differing.next(), differing.next()) {
        (Some((place, (one, other))), None) => Some((place, *one, *other)),
        _ => None,
    }
}

/// Which bytes those are of which this is the lower one.
fn apart(low: u8) -> &'static str {
    match low {
        0x00..=0x1F => "0x00 to 0x3F",
        0x40 => "0x40 and 0x60",
        0x5B..=0x5F => "0x5B to 0x7F",
        0x80.. => "0x80 to 0xFF",
        _ => NEVER,
    }
}
