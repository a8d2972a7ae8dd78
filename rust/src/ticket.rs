//! Tickets (R3): records, and what a ledger has of a ticket.

use crate::constants::{
    KIND_DIRECT, KIND_INITIAL, KIND_S4U2SELF, LONGEST_RECORD, TICKET_BARRED, TICKET_CLIENT,
    TICKET_END, TICKET_EVIDENCE, TICKET_FLAGS, TICKET_NUMBER, TICKET_ORIGIN, TICKET_SERVICE,
    TICKET_START, TICKET_TGT, TICKET_TRAIL, TICKET_TRAIL_LENGTH, TKT_FLG_FORWARDABLE, TRAIL_LIMIT,
};
use crate::errors::Error;
use crate::raw::{self, Answer, TicketFields};
use std::fmt;
use std::ops::Deref;

/// A ticket's record (R3.2): 17 to 31 bytes.
#[derive(Clone, Copy, PartialEq, Eq)]
pub struct Record {
    bytes: [u8; LONGEST_RECORD],
    length: usize,
}

impl Record {
    /// The record that a call puts into the output it is lent.
    pub(crate) fn made(call: impl FnOnce(&mut [u8]) -> Answer) -> Result<Self, Error> {
        let mut bytes = [0; LONGEST_RECORD];
        let length = call(&mut bytes).length()?;
        Ok(Self { bytes, length })
    }

    /// The record of these bytes. It is refused with 60 where they are none.
    pub fn read(record: &[u8]) -> Result<Self, Error> {
        Self::made(|output| raw::rewrite(record, output))
    }
}

impl Deref for Record {
    type Target = [u8];

    fn deref(&self) -> &[u8] {
        &self.bytes[..self.length]
    }
}

impl fmt::Debug for Record {
    fn fmt(&self, f: &mut fmt::Formatter) -> fmt::Result {
        self.iter().try_for_each(|byte| write!(f, "{byte:02x}"))
    }
}

/// The request that made a ticket, with the numbers of the tickets that it rests on (R3.3).
#[derive(Clone, Copy, Debug, PartialEq, Eq)]
pub enum Origin {
    /// Kind 1: the ticket is a TGT.
    Initial,
    /// Kind 2.
    Direct {
        /// The TGT.
        tgt: u16,
    },
    /// Kind 3, S4U2self.
    S4U2self {
        /// The TGT of the service that asked.
        tgt: u16,
    },
    /// Kind 4, S4U2proxy.
    S4U2proxy {
        /// The TGT of the service that asked.
        tgt: u16,
        /// The evidence.
        evidence: u16,
    },
}

/// A ticket of the ledger (R3.2, R7.7).
#[derive(Clone, Copy, Debug, PartialEq, Eq)]
pub struct Ticket {
    /// The ticket's number, which is not its place.
    pub number: u16,
    /// `TKT_FLG_FORWARDABLE` and `TKT_FLG_INITIAL`.
    pub flags: u32,
    /// The account that the ticket speaks for.
    pub client: u8,
    /// The account that the ticket is for; 0 and no account where the origin is initial.
    pub service: u8,
    /// The start in seconds.
    pub start: u32,
    /// The end in seconds, until just before which the ticket may be used.
    pub end: u32,
    /// What made it.
    pub origin: Origin,
    /// Whether it has the barred mark.
    pub barred: bool,
    trail: [u8; TRAIL_LIMIT],
    trail_length: u8,
}

impl Ticket {
    /// The ticket of what `tickets_ticket_at` gave.
    pub fn of(fields: &TicketFields) -> Self {
        let (tgt, evidence) = (fields[TICKET_TGT] as u16, fields[TICKET_EVIDENCE] as u16);
        Self {
            number: fields[TICKET_NUMBER] as u16,
            flags: fields[TICKET_FLAGS] as u32,
            client: fields[TICKET_CLIENT] as u8,
            service: fields[TICKET_SERVICE] as u8,
            start: fields[TICKET_START] as u32,
            end: fields[TICKET_END] as u32,
            origin: match fields[TICKET_ORIGIN] as u32 {
                KIND_INITIAL => Origin::Initial,
                KIND_DIRECT => Origin::Direct { tgt },
                KIND_S4U2SELF => Origin::S4U2self { tgt },
                _ => Origin::S4U2proxy { tgt, evidence },
            },
            barred: fields[TICKET_BARRED] == 1,
            trail: std::array::from_fn(|hop| fields[TICKET_TRAIL + hop] as u8),
            trail_length: fields[TICKET_TRAIL_LENGTH] as u8,
        }
    }

    /// The accounts of the services that hopped, the earliest first; none but for a delegated ticket.
    pub fn trail(&self) -> &[u8] {
        // Only words that no calls make have a count above the limit.
        &self.trail[..TRAIL_LIMIT.min(self.trail_length.into())]
    }

    /// Whether the ticket is FORWARDABLE.
    pub fn is_forwardable(&self) -> bool {
        self.flags & TKT_FLG_FORWARDABLE != 0
    }
}
