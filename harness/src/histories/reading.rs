//! Readings of a history (R2.13, R7.7): of accounts, and of tickets by their places; and what is counted
//! of them.

use super::draft::record;
use super::replay::{same, same_bytes, Outcome, Pair, MARGIN};
use super::tally::{holding, Tally, NEVER};
use crate::accounts::{Account, ALL_FLAGS};
use crate::calls::{self, AccountFields, Answer, NameBytes, TicketFields};
use crate::limits::{ACCOUNT_LIMIT, LONGEST_RECORD, NAME_LIMIT, TICKET_LIMIT, TRAIL_LIMIT};
use crate::random::Random;
use crate::record::{Origin, Ticket};
use crate::words::{place_words, row_at, AccountWords, COUNT_AT};
use tickets::raw;

/// What is counted of an account that is read.
pub const READ: &[&str] = &[
    "set",
    "never set",
    "account 0",
    "account 63",
    "name of 24",
    "bytes behind",
    "other flags",
    "length above 24",
    "length 0, other words",
];

/// What is counted of a number that no account has.
pub const NOT_READ: &[&str] = &["64", "low byte of an account", "others"];

/// What is counted of a place that is looked at.
pub const PLACES: &[&str] = &[
    "first",
    "last",
    "between",
    "511",
    "511, count above limit",
    "41 one past",
    "41 nothing held",
    "41 at 512, count above limit",
    "41 same low bits",
    "41 far",
];

/// What is counted of a record that is asked for.
pub const RECORDS: &[&str] =
    &["initial", "direct", "S4U2self", "delegated", "60", "60, short output", "52", "41"];

/// What is counted of a ticket that is read in numbers.
pub const NUMBERS: &[&str] = &[
    "initial",
    "direct",
    "S4U2self",
    "delegated",
    "mark",
    "trail of 8",
    "count above 8",
    "count 0, delegated",
    "places behind the trail",
    "trail, not delegated",
    "initial, service",
    "number that the origin lacks",
    "other tag",
    "other mark",
];

impl Pair {
    /// Reads an account on both sides, to places among others.
    pub(super) fn account(&mut self, number: u32, tally: &mut Tally) -> Result<Outcome, String> {
        let mut by_library: [u64; 8] = std::array::from_fn(|_| self.random.word());
        let mut by_second = by_library;
        let mut names = self.random.bytes(NAME_LIMIT + 2 * MARGIN);
        let mut names_of_second = names.clone();
        let error =
            raw::account(&self.library.accounts, number, fields(&mut by_library), name(&mut names));
        let (numbers, name) = (fields(&mut by_second), name(&mut names_of_second));
        same("the answer", error, calls::account(&self.second, number, numbers, name))?;
        same("the account's numbers", by_library, by_second)?;
        same_bytes("the account's name", &names, &names_of_second)?;
        let account = self.second.table.read(number).ok().flatten();
        tally.read_account(&self.words.accounts, account, number, error);
        Ok(Outcome { error, granted: None })
    }

    /// Looks at a place on both sides: how many tickets are held, the record there, to an output among
    /// the same random bytes, and the numbers, to places among others.
    pub(super) fn look_at(
        &mut self,
        place: u32,
        length: usize,
        tally: &mut Tally,
    ) -> Result<Outcome, String> {
        let ledger = &self.library.ledger;
        same("how many are held", raw::held(ledger), calls::held(&self.second))?;
        let mut by_library = self.random.bytes(length + 2 * MARGIN);
        let mut by_second = by_library.clone();
        let output = MARGIN..MARGIN + length;
        let answer = raw::record_at(ledger, place, &mut by_library[output.clone()]).into();
        let second = calls::record_at(&self.second, place, &mut by_second[output]);
        same("the answer for the record", answer, second)?;
        same_bytes("the record", &by_library, &by_second)?;
        let mut numbers: [u64; 21] = std::array::from_fn(|_| self.random.word());
        let mut numbers_of_second = numbers;
        let error = raw::ticket_at(ledger, place, ticket_fields(&mut numbers));
        let second = ticket_fields(&mut numbers_of_second);
        same("the answer", error, calls::ticket_at(&self.second, place, second))?;
        same("the ticket's numbers", numbers, numbers_of_second)?;
        self.count_look(place, length, answer, tally);
        Ok(Outcome { error, granted: None })
    }

    /// Counts a place that was looked at.
    fn count_look(&self, place: u32, length: usize, answer: Answer, tally: &mut Tally) {
        let (held, stored) = (self.second.held(), self.words.ledger[COUNT_AT]);
        tally.calls += 1;
        tally.add_all("looked at", at(place, held.len(), stored));
        let ticket = held.get(place as usize);
        tally.add("record at", record_name(ticket, length, answer.error));
        if let Some(ticket) = ticket {
            let words = place_words(&self.words.ledger, place as usize);
            tally.add_all("ticket at", numbers(ticket, &words));
        }
    }
}

/// The account's fields between the first and the last number, which no call may touch.
fn fields(numbers: &mut [u64; 8]) -> &mut AccountFields {
    (&mut numbers[1..7]).try_into().expect("six numbers")
}

/// The name among other bytes.
fn name(bytes: &mut [u8]) -> &mut NameBytes {
    (&mut bytes[MARGIN..MARGIN + NAME_LIMIT]).try_into().expect("as many bytes as a name has")
}

/// The ticket's fields between the first and the last number.
fn ticket_fields(numbers: &mut [u64; 21]) -> &mut TicketFields {
    (&mut numbers[1..20]).try_into().expect("nineteen numbers")
}

impl Tally {
    /// An account of these words was read, or a number refused.
    fn read_account(
        &mut self,
        accounts: &AccountWords,
        account: Option<&Account>,
        number: u32,
        error: u32,
    ) {
        self.calls += 1;
        match (error, number as usize) {
            (0, row) if row < ACCOUNT_LIMIT => {
                self.add_all("account", read(&accounts[row_at(row)..], account, row));
            }
            (60, ACCOUNT_LIMIT) => self.add("account 60", "64"),
            (60, row) if row % 256 < ACCOUNT_LIMIT => {
                self.add("account 60", "low byte of an account");
            }
            (60, _) => self.add("account 60", "others"),
            _ => self.add("account", NEVER),
        }
    }
}

/// What is counted of an account that was read from a row of these words.
fn read(
    row: &[u64],
    account: Option<&Account>,
    number: usize,
) -> impl Iterator<Item = &'static str> {
    let length = account.map_or(0, |account| account.name().len());
    let stored: Vec<u8> =
        row[..NAME_LIMIT / 8].iter().flat_map(|word| word.to_le_bytes()).collect();
    let behind = stored[length..].iter().any(|&byte| byte != 0);
    let unset = account.is_none();
    let others = row[..6].iter().any(|&word| word != 0);
    holding([
        (!unset, "set"),
        (unset, "never set"),
        (number == 0, "account 0"),
        (number == ACCOUNT_LIMIT - 1, "account 63"),
        (length == NAME_LIMIT, "name of 24"),
        (!unset && behind, "bytes behind"),
        (account.is_some_and(|account| account.flags > ALL_FLAGS), "other flags"),
        (usize::from(row[3] as u8) > NAME_LIMIT, "length above 24"),
        (row[3] as u8 == 0 && others, "length 0, other words"),
    ])
}

/// What is counted of a place, by how many tickets are held and which count is stored.
fn at(place: u32, held: usize, stored: u64) -> impl Iterator<Item = &'static str> {
    let place = place as usize;
    let (is_held, above) = (place < held, stored > TICKET_LIMIT as u64);
    holding([
        (is_held && place == 0, "first"),
        (place + 1 == held, "last"),
        (is_held && place > 0 && place + 1 < held, "between"),
        (is_held && place == TICKET_LIMIT - 1, "511"),
        (is_held && place == TICKET_LIMIT - 1 && above, "511, count above limit"),
        (held > 0 && place == held, "41 one past"),
        (held == 0, "41 nothing held"),
        (place == TICKET_LIMIT && above, "41 at 512, count above limit"),
        (!is_held && place >= 1 << 16 && place % (1 << 16) < held, "41 same low bits"),
        (!is_held && place > held, "41 far"),
    ])
}

/// The name of a ticket's origin.
fn origin(ticket: &Ticket) -> &'static str {
    match ticket.origin {
        Origin::Initial => "initial",
        Origin::Direct { .. } => "direct",
        Origin::S4U2self { .. } => "S4U2self",
        Origin::Delegated { .. } => "delegated",
    }
}

/// What is counted of a record that was asked for, with an output of this length.
fn record_name(ticket: Option<&Ticket>, length: usize, error: u32) -> &'static str {
    match (error, ticket) {
        (0, Some(ticket)) => origin(ticket),
        (41, None) => "41",
        (60, Some(_)) if length < LONGEST_RECORD => "60, short output",
        (60, Some(_)) => "60",
        (52, Some(_)) => "52",
        _ => NEVER,
    }
}

/// What is counted of a ticket that was read in numbers from these words.
fn numbers(ticket: &Ticket, words: &[u64]) -> impl Iterator<Item = &'static str> {
    let hops = usize::from(ticket.hops);
    let behind = ticket.trail[hops.min(TRAIL_LIMIT)..].iter().any(|&place| place != 0);
    let is_delegated = matches!(ticket.origin, Origin::Delegated { .. });
    let is_initial = ticket.origin == Origin::Initial;
    let has_trail = hops > 0 || behind;
    let (tgt, evidence) = ((words[2] >> 32) as u16, (words[2] >> 48) as u16);
    holding([
        (ticket.barred, "mark"),
        (hops == TRAIL_LIMIT, "trail of 8"),
        (hops > TRAIL_LIMIT, "count above 8"),
        (is_delegated && hops == 0, "count 0, delegated"),
        (is_delegated && behind, "places behind the trail"),
        (!is_delegated && has_trail, "trail, not delegated"),
        (is_initial && ticket.service != 0, "initial, service"),
        (is_initial && tgt != 0 || !is_delegated && evidence != 0, "number that the origin lacks"),
        ((words[0] >> 56) as u8 % 16 > 3, "other tag"),
        ((words[0] >> 60) > 1, "other mark"),
    ])
    .chain([origin(ticket)])
}

/// A number of an account to read: one of those below the limit, or none that has a row.
pub fn some_number(random: &mut Random, account: u8) -> u32 {
    let account = u32::from(account);
    let last = ACCOUNT_LIMIT as u32 - 1;
    if !random.once_in(4) {
        let any = random.below(ACCOUNT_LIMIT) as u32;
        return random.pick(&[0, account, account, account, last, any]);
    }
    let others =
        [last + 1, last + 2, 255, 256, 256 + account, 1 << 16 | account, 1 << 31, u32::MAX];
    random.pick(&[&others[..], &[last + 1]].concat())
}

/// A place to look at, where these tickets are held, often one of a ticket without a record, if there is
/// such; and the length of the record's output.
pub fn some_place(random: &mut Random, tickets: &[Ticket]) -> (u32, usize) {
    let held = tickets.len() as u32;
    let some = random.below(held.max(1) as usize) as u32;
    let limit = TICKET_LIMIT as u32;
    let later = (some..).zip(&tickets[some as usize..]);
    let odd = later.filter(|(_, ticket)| record(ticket).is_none()).map(|(place, _)| place).next();
    let odd = odd.unwrap_or(some);
    let near = [0, some, odd, odd, odd, held.saturating_sub(1), held, limit - 1, limit];
    let far = [held + 1, 1_000, 1 << 16 | some, 1 << 31, u32::MAX];
    let place = if random.once_in(4) { random.pick(&far) } else { random.pick(&near) };
    let (short, enough) = (LONGEST_RECORD - 1, LONGEST_RECORD);
    (place, random.pick(&[enough, enough, enough, enough + 1, 64, short, short, 17, 0]))
}
