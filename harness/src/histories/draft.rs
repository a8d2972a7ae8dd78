//! The fields of a request before they are put into bytes, and the fields of one that was read.

use crate::limits::LONGEST_RECORD;
use crate::record::{read_request, write_ticket, Kind, Request, Ticket};
use crate::samples::counted;
use std::fmt;

/// The fields of a request, whether its map names them or not.
#[derive(Clone, Debug, Default)]
pub struct Draft {
    pub map: u16,
    pub kind: u8,
    pub options: u32,
    pub pac_options: u32,
    pub till: u32,
    pub tgt: Vec<u8>,
    pub evidence: Vec<u8>,
    pub user: Vec<u8>,
    pub service: Vec<u8>,
}

impl Draft {
    /// The request's bytes: the map, and the fields whose bit stands.
    pub fn bytes(&self) -> Vec<u8> {
        let mut bytes = self.map.to_be_bytes().to_vec();
        for bit in (0..8).filter(|bit| self.map >> bit & 1 == 1) {
            bytes.extend(match bit {
                0 => vec![self.kind],
                1 => self.options.to_be_bytes().to_vec(),
                2 => self.pac_options.to_be_bytes().to_vec(),
                3 => self.till.to_be_bytes().to_vec(),
                4 => counted(&self.tgt),
                5 => counted(&self.evidence),
                6 => counted(&self.user),
                _ => counted(&self.service),
            });
        }
        bytes
    }

    /// The fields of a request that reads.
    pub fn of(bytes: &[u8]) -> Option<Draft> {
        let request = read_request(bytes).ok()?;
        let map = u16::from_be_bytes([bytes[0], bytes[1]]);
        let Request { options, pac_options, till, .. } = request;
        let draft = Draft { map, options, pac_options, till, ..Draft::default() };
        Some(match request.kind {
            Kind::Initial { user } => Draft { kind: 1, user: user.to_vec(), ..draft },
            Kind::Direct { tgt, service } => {
                Draft { kind: 2, tgt: record(&tgt)?, service: service.to_vec(), ..draft }
            }
            Kind::S4U2self { tgt, user } => {
                Draft { kind: 3, tgt: record(&tgt)?, user: user.to_vec(), ..draft }
            }
            Kind::S4U2proxy { tgt, evidence, service } => Draft {
                kind: 4,
                tgt: record(&tgt)?,
                evidence: record(&evidence)?,
                service: service.to_vec(),
                ..draft
            },
        })
    }
}

/// The ticket's record, if some record reads as the ticket.
pub fn record(ticket: &Ticket) -> Option<Vec<u8>> {
    let mut output = [0; LONGEST_RECORD];
    let length = write_ticket(ticket, &mut output).ok()?;
    Some(output[..length].to_vec())
}

/// The tickets that a request presents.
pub fn presented<'a>(request: &'a Request) -> (Option<&'a Ticket>, Option<&'a Ticket>) {
    match &request.kind {
        Kind::Initial { .. } => (None, None),
        Kind::Direct { tgt, .. } | Kind::S4U2self { tgt, .. } => (Some(tgt), None),
        Kind::S4U2proxy { tgt, evidence, .. } => (Some(tgt), Some(evidence)),
    }
}

/// The fields of a request, by name.
pub struct RequestText<'a>(pub &'a Request<'a>);

impl fmt::Display for RequestText<'_> {
    fn fmt(&self, f: &mut fmt::Formatter) -> fmt::Result {
        let Request { options, pac_options, till, kind } = self.0;
        let (name, named) = match kind {
            Kind::Initial { user } => ("initial for", user),
            Kind::Direct { service, .. } => ("direct to", service),
            Kind::S4U2self { user, .. } => ("S4U2self for", user),
            Kind::S4U2proxy { service, .. } => ("S4U2proxy to", service),
        };
        write!(f, "{name} \"{}\", options {options:#x}", named.escape_ascii())?;
        write!(f, ", PAC options {pac_options:#x}, till {till}")?;
        let (tgt, evidence) = presented(self.0);
        for (what, ticket) in [("TGT", tgt), ("evidence", evidence)] {
            if let Some(ticket) = ticket {
                write!(f, "\n       {what} {}", TicketText(ticket))?;
            }
        }
        Ok(())
    }
}

/// The fields of a ticket, by name.
pub struct TicketText<'a>(pub &'a Ticket);

impl fmt::Display for TicketText<'_> {
    fn fmt(&self, f: &mut fmt::Formatter) -> fmt::Result {
        let Ticket { number, flags, client, service, start, end, origin, .. } = self.0;
        write!(f, "{number}: {origin:?} client {client} service {service} flags {flags:#x}")?;
        write!(f, " {start} to {end}")?;
        if self.0.hops != 0 {
            write!(f, " trail {:?} of {}", self.0.trail, self.0.hops)?;
        }
        f.write_str(if self.0.barred { " barred" } else { "" })
    }
}
