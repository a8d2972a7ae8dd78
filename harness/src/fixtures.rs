//! Requests (R4.1), accounts (R11.1) and days for the tests of this crate.

use crate::accounts::{Account, Edit};
use crate::book::Book;
use crate::decisions::CNAME_IN_ADDL_TKT;
use crate::limits::LONGEST_RECORD;
use crate::record::{write_ticket, Ticket};
use crate::service::Service;

/// The lifetime of the morning's accounts.
pub const LIFETIME: u32 = 36000;

/// The fields of a request, those that stand.
#[derive(Clone, Debug)]
pub struct Asked {
    kind: u8,
    options: Option<u32>,
    pac_options: Option<u32>,
    till: Option<u32>,
    /// Map bits 4 to 7: TGT, evidence, user name, service name.
    counted: [Option<Vec<u8>>; 4],
}

/// A request of this kind with these fields of bits 4 to 7.
fn asked(kind: u8, counted: [Option<Vec<u8>>; 4]) -> Asked {
    Asked { kind, options: None, pac_options: None, till: None, counted }
}

/// Kind 1 for a user.
pub fn kind_1(user: &str) -> Asked {
    asked(1, [None, None, Some(user.into()), None])
}

/// Kind 2 with a TGT, to a service.
pub fn kind_2(tgt: &Ticket, service: &str) -> Asked {
    asked(2, [Some(record(tgt)), None, None, Some(service.into())])
}

/// Kind 3 with a TGT, for a user.
pub fn kind_3(tgt: &Ticket, user: &str) -> Asked {
    asked(3, [Some(record(tgt)), None, Some(user.into()), None])
}

/// Kind 4 with a TGT and evidence, to a service, with CNAME-IN-ADDL-TKT.
pub fn kind_4(tgt: &Ticket, evidence: &Ticket, service: &str) -> Asked {
    let counted = [Some(record(tgt)), Some(record(evidence)), None, Some(service.into())];
    asked(4, counted).options(CNAME_IN_ADDL_TKT)
}

impl Asked {
    /// The request with these options.
    pub fn options(self, options: u32) -> Asked {
        Asked { options: Some(options), ..self }
    }

    /// The request with these PAC options.
    pub fn pac_options(self, pac_options: u32) -> Asked {
        Asked { pac_options: Some(pac_options), ..self }
    }

    /// The request with this till.
    pub fn till(self, till: u32) -> Asked {
        Asked { till: Some(till), ..self }
    }

    /// R4.1: the request's bytes.
    pub fn bytes(&self) -> Vec<u8> {
        let mut map = 1u16;
        let mut fields = vec![self.kind];
        for (bit, word) in (1..).zip([self.options, self.pac_options, self.till]) {
            map |= u16::from(word.is_some()) << bit;
            fields.extend(word.iter().flat_map(|word| word.to_be_bytes()));
        }
        for (bit, counted) in (4..).zip(&self.counted) {
            map |= u16::from(counted.is_some()) << bit;
            if let Some(bytes) = counted {
                fields.push(bytes.len() as u8);
                fields.extend(bytes);
            }
        }
        [&map.to_be_bytes()[..], &fields].concat()
    }
}

/// The record of a ticket.
pub fn record(ticket: &Ticket) -> Vec<u8> {
    let mut output = [0; LONGEST_RECORD];
    let length = write_ticket(ticket, &mut output).unwrap();
    output[..length].to_vec()
}

/// An edit with the morning's lifetime.
pub fn edit(number: u32, name: &str, flags: u32, send: u64, receive: u64) -> Edit<'_> {
    Edit { number, name: name.as_bytes(), flags, send, receive, lifetime: LIFETIME }
}

/// A service, and the book of its grants.
#[derive(Clone)]
pub struct Day {
    pub service: Service,
    pub book: Book,
}

impl Day {
    /// A day on this service.
    pub fn on(service: Service) -> Day {
        Day { service, book: Book::new() }
    }

    /// R11.1: a fresh service with the accounts of the examples.
    pub fn morning() -> Day {
        let mut day = Day::on(Service::fresh());
        day.set(0, "tech", 0, 0, 0);
        day.set(1, "web", 12, 0x4, 0);
        day.set(2, "store", 8, 0, 0);
        day
    }

    /// An edit that is stored.
    pub fn set(&mut self, number: u32, name: &str, flags: u32, send: u64, receive: u64) {
        assert_eq!(self.service.edit(&edit(number, name, flags, send, receive)), Ok(()));
    }

    /// An edit that is stored, and changes nothing of a set account but its flags.
    pub fn set_flags(&mut self, number: u32, flags: u32) {
        let account = self.service.table.rows[number as usize].unwrap();
        let Account { send, receive, lifetime, .. } = account;
        let edit = Edit { number, name: account.name(), flags, send, receive, lifetime };
        assert_eq!(self.service.edit(&edit), Ok(()));
    }

    /// An edit that is stored, with another lifetime and empty sets.
    pub fn set_lifetime(&mut self, number: u32, name: &str, flags: u32, lifetime: u32) {
        let edit = Edit { lifetime, ..edit(number, name, flags, 0, 0) };
        assert_eq!(self.service.edit(&edit), Ok(()));
    }

    /// A request by its bytes: the ticket, or the error number. Looks whether the service and the
    /// output are as they have to be after it (R6.1, R7.3).
    pub fn ask_bytes(&mut self, request: &[u8], clock: u32) -> Result<Ticket, u8> {
        let before = self.service.clone();
        let mut output = [0xEE; LONGEST_RECORD + 9];
        match self.book.request(&mut self.service, request, clock, &mut output) {
            Ok(length) => {
                let (ticket, earlier) = self.service.ledger.split_last().unwrap();
                assert_eq!((&self.service.table, earlier), (&before.table, &before.ledger[..]));
                assert_eq!(u64::from(ticket.number), before.next);
                assert_eq!(self.service.next, before.next + 1);
                assert_eq!(output[..length], record(ticket));
                assert!(output[length..].iter().all(|&byte| byte == 0xEE));
                Ok(*ticket)
            }
            Err(error) => {
                assert_eq!(self.service, before);
                assert_eq!(output, [0xEE; LONGEST_RECORD + 9]);
                Err(error.number())
            }
        }
    }

    /// A clearing, of the book too: how many tickets it took out of the ledger. Looks whether it left
    /// the accounts and the next number (R7.6).
    pub fn clear(&mut self, clock: u32) -> u32 {
        let (table, next) = (self.service.table.clone(), self.service.next);
        let taken = self.service.clear(clock);
        assert_eq!((&self.service.table, self.service.next), (&table, next));
        self.book.clear(clock);
        taken
    }

    /// A request: the ticket, or the error number.
    pub fn ask(&mut self, request: &Asked, clock: u32) -> Result<Ticket, u8> {
        self.ask_bytes(&request.bytes(), clock)
    }

    /// A request that is granted.
    pub fn grant(&mut self, request: &Asked, clock: u32) -> Ticket {
        self.ask(request, clock).unwrap()
    }
}
