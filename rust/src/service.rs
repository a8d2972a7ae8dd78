//! The service, over memory of its own.

use crate::account::{Account, Edit};
use crate::constants::{
    ACCOUNTS, ACCOUNT_FIELDS, LEDGER, LONGEST_NAME, NO_ACCOUNT, SAVED, TICKET_FIELDS,
};
use crate::errors::Error;
use crate::raw::{self, AccountWords, LedgerWords};
use crate::ticket::{Record, Ticket};
use std::fmt;

/// The memory of one service, as `tickets_service` has it: 21632 bytes, without pointers. Any words are
/// safe; those that calls did not make stand for some accounts and some tickets (R1.3).
#[derive(Clone, PartialEq, Eq)]
#[repr(C)]
pub struct Service {
    /// The words of the accounts.
    pub accounts: AccountWords,
    /// The words of the ledger.
    pub ledger: LedgerWords,
}

impl Default for Service {
    fn default() -> Self {
        Self::fresh()
    }
}

impl Service {
    /// A fresh service: no account is set, no ticket is held, and the next number is 0 (R7.2).
    pub fn fresh() -> Self {
        let mut service = Self { accounts: [0; ACCOUNTS], ledger: [0; LEDGER] };
        raw::fresh(&mut service.accounts, &mut service.ledger);
        service
    }

    /// The service that was saved as these bytes (R7.9). It is refused with 60 where they are not those
    /// of a saved service.
    pub fn from_saved(saved: &[u8]) -> Result<Self, Error> {
        let mut service = Self::fresh();
        service.load(saved)?;
        Ok(service)
    }

    /// Sets an account whole (R2.8). It is refused with 60, 12 or 8, in this order (R2.9).
    pub fn edit(&mut self, edit: &Edit) -> Result<(), Error> {
        Error::check(raw::edit(&mut self.accounts, edit))
    }

    /// The number of the account that a name stands for, the case of ASCII letters left out (R2.11).
    pub fn find_name(&self, name: &[u8]) -> Option<u32> {
        Some(raw::find_name(&self.accounts, name)).filter(|&number| number != NO_ACCOUNT)
    }

    /// Answers a request at a clock reading, in seconds: the record of the ticket that is granted, or
    /// the first check that fails (R6.2). A refusal changes nothing.
    pub fn request(&mut self, request: &[u8], clock: u32) -> Result<Record, Error> {
        let Self { accounts, ledger } = self;
        Record::made(|output| raw::request(accounts, ledger, request, clock, output))
    }

    /// Clears out the tickets that have reached their end, and gives how many those were (R7.6).
    pub fn clear(&mut self, clock: u32) -> u32 {
        raw::clear(&mut self.accounts, &mut self.ledger, clock)
    }

    /// How many steps back from a ticket, by its number, its initial ticket is (R7.4). It is refused
    /// with 41 where no such ticket is held.
    pub fn descent(&self, number: u32) -> Result<u32, Error> {
        raw::descent(&self.ledger, number).result()
    }

    /// The day total: the seconds from start to end of each ticket held, added up (R7.5).
    pub fn day_total(&self) -> u64 {
        raw::day_total(&self.ledger)
    }

    /// An account by its number (R2.13); none where it was never set. It is refused with 60 where the
    /// number is above 63.
    pub fn account(&self, number: u32) -> Result<Option<Account>, Error> {
        let (mut fields, mut name) = ([0; ACCOUNT_FIELDS], [0; LONGEST_NAME]);
        Error::check(raw::account(&self.accounts, number, &mut fields, &mut name))?;
        Ok(Account::of(&fields, &name))
    }

    /// How many tickets are held, 0 to 512 (R7.7).
    pub fn held(&self) -> u32 {
        raw::held(&self.ledger)
    }

    /// The record of the ticket at a place (R7.7). It is refused with 41 where the place is not below
    /// [`Service::held`].
    pub fn record_at(&self, place: u32) -> Result<Record, Error> {
        Record::made(|output| raw::record_at(&self.ledger, place, output))
    }

    /// The ticket at a place (R7.7). It is refused with 41 where the place is not below
    /// [`Service::held`].
    pub fn ticket_at(&self, place: u32) -> Result<Ticket, Error> {
        let mut fields = [0; TICKET_FIELDS];
        Error::check(raw::ticket_at(&self.ledger, place, &mut fields))?;
        Ok(Ticket::of(&fields))
    }

    /// The tickets held, in the order of their grants.
    pub fn tickets(&self) -> impl Iterator<Item = Ticket> + '_ {
        (0..self.held()).map_while(|place| self.ticket_at(place).ok())
    }

    /// Saves the service to the start of the output, and gives how many bytes those are (R7.8). It is
    /// refused with 52 where the output has fewer than [`SAVED`] bytes.
    pub fn save(&self, output: &mut [u8]) -> Result<usize, Error> {
        raw::save(&self.accounts, &self.ledger, output).length()
    }

    /// The bytes of the saved service (R7.8).
    pub fn to_saved(&self) -> Vec<u8> {
        let mut bytes = vec![0; SAVED];
        self.save(&mut bytes).expect("an output of this length is long enough");
        bytes
    }

    /// Makes the service the one that was saved as these bytes (R7.9). It is refused with 60 where they
    /// are not those of a saved service, and is then as it was.
    pub fn load(&mut self, saved: &[u8]) -> Result<(), Error> {
        Error::check(raw::load(&mut self.accounts, &mut self.ledger, saved))
    }
}

impl fmt::Debug for Service {
    fn fmt(&self, f: &mut fmt::Formatter) -> fmt::Result {
        write!(f, "Service of {} tickets", self.held())
    }
}
