//! Accounts (R2): edits, and what a service has of an account.

use crate::constants::{
    ACCOUNT_FLAGS, ACCOUNT_LIFETIME, ACCOUNT_NAME_LENGTH, ACCOUNT_RECEIVE, ACCOUNT_SEND,
    ACCOUNT_SET,
};
use crate::raw::{AccountFields, NameBytes};
use std::fmt;

/// An edit, with all that the account has after it (R2.8).
#[derive(Clone, Copy, Debug, Default, PartialEq, Eq)]
pub struct Edit<'a> {
    /// The account's number, 0 to 63.
    pub number: u32,
    /// The name: 1 to 24 bytes, each 0x21 to 0x7E without 0x40. The first edit of a number fixes it.
    pub name: &'a [u8],
    /// `FLAG_DISABLED` to `FLAG_SERVICE`, together.
    pub flags: u32,
    /// The accounts that it may hop to, bit n for account n.
    pub send: u64,
    /// The accounts that it takes hops from, bit n for account n.
    pub receive: u64,
    /// The lifetime in seconds.
    pub lifetime: u32,
}

/// A set account (R2.13).
#[derive(Clone, Copy, PartialEq, Eq)]
pub struct Account {
    name: NameBytes,
    name_length: usize,
    /// `FLAG_DISABLED` to `FLAG_SERVICE`, together.
    pub flags: u32,
    /// The accounts that it may hop to, bit n for account n.
    pub send: u64,
    /// The accounts that it takes hops from, bit n for account n.
    pub receive: u64,
    /// The lifetime in seconds.
    pub lifetime: u32,
}

impl Account {
    /// The account of what `tickets_account` gave; none where it was never set.
    pub fn of(fields: &AccountFields, name: &NameBytes) -> Option<Self> {
        (fields[ACCOUNT_SET] == 1).then(|| Self {
            name: *name,
            name_length: name.len().min(fields[ACCOUNT_NAME_LENGTH] as usize),
            flags: fields[ACCOUNT_FLAGS] as u32,
            send: fields[ACCOUNT_SEND],
            receive: fields[ACCOUNT_RECEIVE],
            lifetime: fields[ACCOUNT_LIFETIME] as u32,
        })
    }

    /// The bytes of the name.
    pub fn name(&self) -> &[u8] {
        &self.name[..self.name_length]
    }
}

impl fmt::Debug for Account {
    fn fmt(&self, f: &mut fmt::Formatter) -> fmt::Result {
        f.debug_struct("Account")
            .field("name", &format_args!("\"{}\"", self.name().escape_ascii()))
            .field("flags", &self.flags)
            .field("send", &self.send)
            .field("receive", &self.receive)
            .field("lifetime", &self.lifetime)
            .finish()
    }
}
