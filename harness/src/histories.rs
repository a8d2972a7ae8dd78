//! Histories: lists of calls (R8.1), with the words that the first of them meets. Among the calls are
//! such as change nothing, and of which the plain book is not told: finds (R2.11), readings (R2.13, R7.7),
//! writings of requests (R4.8) and savings (R7.8); and loadings (R7.9), which go back to what was saved.
//! Histories are values, so that they can be made from a seed, replayed on both sides, shortened and
//! printed.

mod draft;
mod finds;
mod generator;
mod invented;
pub mod odd;
mod reading;
mod replay;
mod shrink;
mod storing;
mod tally;
mod writing;

use crate::accounts::Edit;
use crate::limits::{
    ACCOUNTS_SIZE, ACCOUNT_LIMIT, HEADER_SIZE, LEDGER_SIZE, NUMBERS_SIZE, PLACE_SIZE, ROW_SIZE,
    TICKET_LIMIT,
};
use crate::record::read_request;
use crate::words::{place_at, row_at, COUNT_AT, NEXT_AT};
use std::fmt;
use tickets::{raw, Service};

pub use generator::generate;
pub use replay::{run, run_one};
pub use storing::Damage;
pub use tally::Tally;
pub use writing::OwnedParts;

/// One call with all its arguments.
#[derive(Clone, Debug, PartialEq, Eq)]
pub enum Call {
    /// An edit of an account.
    Edit { number: u32, name: Vec<u8>, flags: u32, send: u64, receive: u64, lifetime: u32 },
    /// A find of a name.
    Find { name: Vec<u8> },
    /// A request, the clock reading, and the output's length.
    Request { request: Vec<u8>, clock: u32, output: usize },
    /// A clearing at a clock reading.
    Clear { clock: u32 },
    /// A reading of an account.
    Account { number: u32 },
    /// A look at a place: how many tickets are held, the ticket there in numbers, and its record, with
    /// the output's length.
    Look { place: u32, output: usize },
    /// A writing of a request, and the output's length.
    Write { parts: OwnedParts, output: usize },
    /// A saving, and the output's length.
    Save { output: usize },
    /// A loading of what was saved last, or where nothing was of the first words, with some damage.
    Load { damage: Damage },
}

/// A service of the library whose words are all this one.
pub fn filled(word: u64) -> Service {
    Service { accounts: [word; ACCOUNTS_SIZE], ledger: [word; LEDGER_SIZE] }
}

/// A fresh service, which the library makes of words that are all this one.
pub fn fresh_over(word: u64) -> Service {
    let mut service = filled(word);
    raw::fresh(&mut service.accounts, &mut service.ledger);
    service
}

/// A list of calls.
#[derive(Clone)]
pub struct History {
    /// The seed that it was made from.
    pub seed: u64,
    /// The words that the first call meets, or a fresh service.
    pub start: Option<Box<Service>>,
    /// The calls, in their order.
    pub calls: Vec<Call>,
}

impl History {
    /// The library's service before the first call.
    pub fn first(&self) -> Service {
        self.start.as_deref().map_or_else(|| fresh_over(u64::MAX), Service::clone)
    }
}

/// The edit of a call's arguments.
pub fn edit_of(call: &Call) -> Option<Edit<'_>> {
    let Call::Edit { number, ref name, flags, send, receive, lifetime } = *call else {
        return None;
    };
    Some(Edit { number, name, flags, send, receive, lifetime })
}

/// Bytes in hexadecimal.
struct Hex<'a>(&'a [u8]);

impl fmt::Display for Hex<'_> {
    fn fmt(&self, f: &mut fmt::Formatter) -> fmt::Result {
        self.0.iter().try_for_each(|byte| write!(f, "{byte:02x}"))
    }
}

impl fmt::Display for Call {
    fn fmt(&self, f: &mut fmt::Formatter) -> fmt::Result {
        match self {
            Call::Edit { number, name, flags, send, receive, lifetime } => {
                write!(f, "edit {number} \"{}\" flags {flags}", name.escape_ascii())?;
                write!(f, " send {send:#x} receive {receive:#x} lifetime {lifetime}")
            }
            Call::Find { name } => write!(f, "find \"{}\"", name.escape_ascii()),
            Call::Request { request, clock, output } => {
                write!(f, "request at {clock}, output of {output}: {}", Hex(request))?;
                match read_request(request) {
                    Ok(read) => write!(f, "\n       {}", draft::RequestText(&read)),
                    Err(_) => write!(f, "\n       unreadable"),
                }
            }
            Call::Clear { clock } => write!(f, "clear at {clock}"),
            Call::Account { number } => write!(f, "read account {number}"),
            Call::Look { place, output } => write!(f, "look at {place}, output of {output}"),
            Call::Write { parts, output } => write!(f, "write to an output of {output}: {parts}"),
            Call::Save { output } => write!(f, "save to an output of {output}"),
            Call::Load { damage } => write!(f, "load, damage {damage:?}"),
        }
    }
}

impl fmt::Display for History {
    fn fmt(&self, f: &mut fmt::Formatter) -> fmt::Result {
        writeln!(f, "seed {:#x}, {} calls", self.seed, self.calls.len())?;
        match &self.start {
            None => writeln!(f, "  from a fresh service")?,
            Some(words) => print_words(f, words)?,
        }
        let mut calls = self.calls.iter().enumerate();
        calls.try_for_each(|(index, call)| writeln!(f, "  {index:3}  {call}"))
    }
}

/// Prints the headers, rows, numbers and places whose words are not all 0.
fn print_words(f: &mut fmt::Formatter, words: &Service) -> fmt::Result {
    let (count, next) = (words.ledger[COUNT_AT], words.ledger[NEXT_AT]);
    writeln!(f, "  from words, 0 but for: count {count:#x}, next number {next:#x}")?;
    print_some(f, "header", 0, &words.accounts[..HEADER_SIZE])?;
    print_some(f, "header", 1, &words.ledger[..HEADER_SIZE])?;
    for number in 0..ACCOUNT_LIMIT {
        print_some(f, "account", number, &words.accounts[row_at(number)..][..ROW_SIZE])?;
    }
    for (index, word) in words.ledger[HEADER_SIZE..][..NUMBERS_SIZE].iter().enumerate() {
        print_some(f, "numbers", index, &[*word])?;
    }
    for place in 0..TICKET_LIMIT {
        print_some(f, "place", place, &words.ledger[place_at(place)..][..PLACE_SIZE])?;
    }
    Ok(())
}

/// Prints the words if one of them is not 0.
fn print_some(f: &mut fmt::Formatter, what: &str, index: usize, words: &[u64]) -> fmt::Result {
    if words.iter().all(|&word| word == 0) {
        return Ok(());
    }
    writeln!(f, "    {what} {index}: {words:016x?}")
}
